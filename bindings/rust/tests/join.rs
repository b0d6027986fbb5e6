//! The verdicts of a joined file are, for each of the first's, each of the second's.

mod common;

use common::{bytes, rules, small_file, Random, BENCH, ENGINES};
use rule_enumerator::{join, Engine, Rules, Verdict};

fn verdicts(rules: &Rules, engine: Engine) -> Vec<Verdict> {
    rules.verdicts(engine).map(Result::unwrap).collect()
}

/// The joined place, as document 01 says: s and t are the places in files with n and m fields,
/// the first with c constraints.
fn place(s: usize, t: usize, n: usize, m: usize, c: usize) -> usize {
    if s == 0 && t == 0 {
        0
    } else if (1..=n).contains(&s) {
        s
    } else if (1..=m).contains(&t) {
        t + n
    } else if s > n {
        s + m
    } else {
        t + n + c
    }
}

fn joined_verdict(first: &Rules, second: &Rules, v: &Verdict, w: &Verdict) -> Verdict {
    Verdict {
        passed: v.passed && w.passed,
        place: place(
            v.place,
            w.place,
            first.fields(),
            second.fields(),
            first.constraints(),
        ),
        projection: v.projection.zip(w.projection).map(|(x, y)| x + y),
        values: [v.values.as_slice(), w.values.as_slice()].concat(),
    }
}

fn product(first: &Rules, second: &Rules, engine: Engine) -> Vec<Verdict> {
    let (left, right) = (verdicts(first, engine), verdicts(second, engine));
    left.iter()
        .flat_map(|v| right.iter().map(|w| joined_verdict(first, second, v, w)))
        .collect()
}

#[test]
fn the_example_with_itself() {
    let bench = rules(BENCH);
    let joined = join(&bench, &bench).unwrap();
    assert_eq!(joined.fields(), 4);
    assert_eq!(joined.constraints(), 6);
    for engine in ENGINES {
        assert_eq!(verdicts(&joined, engine), product(&bench, &bench, engine));
    }
}

#[test]
fn small_files() {
    let mut random = Random::new(4);
    let mut joins = 0;
    while joins < 100 {
        let (first, second) = (small_file(&mut random), small_file(&mut random));
        for engine in ENGINES {
            let (Ok(left), Ok(right)) = (first.count(engine), second.count(engine)) else {
                continue;
            };
            let joined = join(&first, &second).unwrap();
            let counts = joined.count(engine).unwrap();
            assert_eq!(verdicts(&joined, engine), product(&first, &second, engine));
            assert_eq!(counts.total, left.total * right.total);
            assert_eq!(counts.emitted, left.emitted * right.emitted);
            assert_eq!(counts.passed, left.passed * right.passed);
            joins += 1;
        }
    }
}

#[test]
fn a_lone_sum_changes_nothing() {
    let sum = rules("sum");
    let bench = rules(BENCH);
    assert_eq!(join(&sum, &bench).unwrap(), bench);
    assert_eq!(join(&bench, &sum).unwrap(), bench);
}

#[test]
fn bytes_are_taken_too() {
    let joined = join(bytes("field 0\nsum"), bytes("field 0 range 0 1\nsum")).unwrap();
    assert_eq!(joined.as_bytes(), bytes("field 0\nfield 1 range 0 1\nsum"));
}
