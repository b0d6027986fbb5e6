//! A listing is the same however it is paged.

mod common;

use common::{listing, rules, small_file, Random, BENCH, ENGINES};
use rule_enumerator::{Engine, Rules};

fn paged(rules: &Rules, engine: Engine, size: usize) -> Vec<String> {
    rules
        .verdicts(engine)
        .page_size(size)
        .map(|verdict| verdict.unwrap().to_string())
        .collect()
}

#[test]
fn each_size_gives_the_same_rows() {
    let text = "field 0 range 0 12\nfield 1 range 0 12\nfield 2 range 0 12\nneq 0 1\nsum";
    for rules in [rules(BENCH), rules(text)] {
        for engine in ENGINES {
            let whole = listing(&rules, engine);
            let emitted = rules.count(engine).unwrap().emitted;
            assert_eq!(whole.len(), emitted);
            for size in [1, 7, 1_000, emitted - 1, emitted, emitted + 1, usize::MAX] {
                assert_eq!(paged(&rules, engine, size), whole, "{size} at a time");
            }
        }
    }
}

#[test]
fn small_files_one_row_at_a_time() {
    let mut random = Random::new(1);
    for _ in 0..200 {
        let rules = small_file(&mut random);
        for engine in ENGINES {
            if rules.count(engine).is_ok() {
                let whole = listing(&rules, engine);
                assert_eq!(paged(&rules, engine, 1), whole);
                assert_eq!(paged(&rules, engine, 7), whole);
            }
        }
    }
}

#[test]
fn the_size_may_change_on_the_way() {
    let rules = rules(BENCH);
    let mut verdicts = rules.verdicts(Engine::Exhaustive).page_size(2);
    let mut lines = Vec::new();
    for _ in 0..3 {
        lines.push(verdicts.next().unwrap().unwrap().to_string());
    }
    lines.extend(verdicts.page_size(4).map(|v| v.unwrap().to_string()));
    assert_eq!(lines, listing(&rules, Engine::Exhaustive));
}

/// Three pages of the size that is taken where none is chosen.
#[test]
fn the_counts_by_pages_are_the_counts() {
    let large = rules("field 0 range 0 29\nfield 1 range 0 29\nfield 2 range 0 29\nneq 0 1\nsum");
    for engine in ENGINES {
        let mut told = Vec::new();
        let counts = large.count_by_pages(engine, |rows| told.push(rows));
        assert_eq!(counts, large.count(engine));
        assert!(told.len() > 1);
        assert!(told.windows(2).all(|pair| pair[0] < pair[1]));
        assert_eq!(told.last(), Some(&27_000));
        assert_eq!(listing(&large, engine).len(), 27_000);
    }
    let mut random = Random::new(2);
    for _ in 0..200 {
        let rules = small_file(&mut random);
        for engine in ENGINES {
            assert_eq!(rules.count_by_pages(engine, |_| {}), rules.count(engine));
        }
    }
}

#[test]
fn passed_rows_are_the_values_of_passed_verdicts() {
    let mut random = Random::new(3);
    for _ in 0..200 {
        let rules = small_file(&mut random);
        for engine in ENGINES {
            let Ok(counts) = rules.count(engine) else {
                continue;
            };
            let rows: Vec<_> = rules.passed_rows(engine).map(Result::unwrap).collect();
            let passed: Vec<_> = rules
                .verdicts(engine)
                .map(Result::unwrap)
                .filter(|verdict| verdict.passed)
                .map(|verdict| verdict.values)
                .collect();
            assert_eq!(rows, passed);
            assert_eq!(rows.len(), counts.passed);
        }
    }
}

#[test]
fn without_fields_there_are_no_rows() {
    let rules = rules("sum");
    for engine in ENGINES {
        assert_eq!(rules.count(engine).unwrap().to_string(), "end 0 0 0 0");
        assert_eq!(rules.count_by_pages(engine, |_| {}), rules.count(engine));
        assert!(listing(&rules, engine).is_empty());
        assert!(paged(&rules, engine, 0).is_empty());
    }
}

#[test]
fn after_the_last_row_the_iterators_stay_at_the_end() {
    let rules = rules(BENCH);
    let mut verdicts = rules.verdicts(Engine::Structural).page_size(7);
    assert_eq!(verdicts.by_ref().count(), 7);
    assert!(verdicts.next().is_none());
    assert!(verdicts.next().is_none());
}
