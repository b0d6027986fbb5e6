//! The example of `docs/FORMAT.md`, against what the proved programs read and print.

mod common;

use common::{bytes, listing, root, rules, BENCH, ENGINES};
use rule_enumerator::{Engine, Rules};
use std::fs;

/// The listing as a program prints it.
fn printed(rules: &Rules, engine: Engine) -> String {
    let mut lines = listing(rules, engine);
    lines.push(rules.count(engine).unwrap().to_string());
    lines.join("\n") + "\n"
}

#[test]
fn the_text_gives_the_bytes_that_the_programs_read() {
    for program in ["structural", "exhaustive", "validate"] {
        let stdin = fs::read(root().join("crates").join(program).join("stdin")).unwrap();
        assert_eq!(bytes(BENCH), stdin, "{program}");
    }
}

#[test]
fn the_listings_are_those_of_the_programs() {
    for (engine, program) in ENGINES.into_iter().zip(["structural", "exhaustive"]) {
        let stdout = root().join("crates").join(program).join("stdout");
        let stdout = fs::read_to_string(stdout).unwrap();
        assert_eq!(printed(&rules(BENCH), engine), stdout, "{program}");
    }
}

#[test]
fn the_structural_listing() {
    assert_eq!(
        printed(&rules(BENCH), Engine::Structural),
        "P 0 0 0 0\nP 0 1 0 1\nF 5 - 0 2\nF 5 - 1 2\nP 0 2 2 0\nP 0 2 2 0\nP 0 2 2 0\nend 9 7 5 4\n"
    );
}

#[test]
fn the_shape_and_the_counts() {
    let rules = rules(BENCH);
    assert_eq!(rules.fields(), 2);
    assert_eq!(rules.constraints(), 3);
    assert_eq!(rules.total(), 9);
    assert_eq!(rules.scratch(), 6);
    assert_eq!(rules.as_bytes(), bytes(BENCH));
    let counts = ENGINES.map(|engine| rules.count(engine).unwrap().to_string());
    assert_eq!(counts, ["end 9 7 5 4", "end 9 9 5 4"]);
}

#[test]
fn the_passed_rows() {
    for engine in ENGINES {
        let rows: Result<Vec<_>, _> = rules(BENCH).passed_rows(engine).collect();
        assert_eq!(rows.unwrap(), [[0, 0], [0, 1], [2, 0], [2, 0], [2, 0]]);
    }
}
