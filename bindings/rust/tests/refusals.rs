//! Each refusal, with its record.

mod common;

use common::{bytes, root, rules, BENCH, ENGINES};
use rule_enumerator::{ffi, join, Engine, Error, File, Refused, Rules};
use std::fs;

fn refused(number: usize, record: usize, file: File) -> Refused {
    Refused {
        number,
        record,
        file,
    }
}

/// What `Rules::new` says of bytes that it refuses.
fn judged(file: impl Into<Vec<u8>>) -> (usize, usize) {
    let refused = Rules::new(file).unwrap_err();
    assert_eq!(refused.file, File::Only);
    (refused.number, refused.record)
}

fn judged_text(text: &str) -> (usize, usize) {
    judged(bytes(text))
}

fn repeat(count: usize, line: impl Fn(usize) -> String) -> String {
    (0..count).map(line).collect()
}

#[test]
fn refusals_1_to_10() {
    assert_eq!(judged([0; 33]), (1, 0));
    assert_eq!(judged(vec![0; 65_568]), (1, 0));
    assert_eq!(judged([9; 32]), (2, 1));
    assert_eq!(
        judged_text(&format!("bytes 1e01{}", "0".repeat(60))),
        (3, 1)
    );
    assert_eq!(judged([]), (4, 1));
    assert_eq!(judged_text("field 1\nsum"), (4, 1));
    let fields = repeat(33, |i| format!("field {i} range 0 0\n"));
    assert_eq!(judged_text(&fields), (5, 33));
    let constraints = "field 0\n".to_owned() + &repeat(257, |_| "even 0\n".into());
    assert_eq!(judged_text(&constraints), (5, 258));
    assert_eq!(judged_text("field 0\neven 1\nsum"), (6, 2));
    assert_eq!(judged_text("field 0\nlt 0 72057594037927937\nsum"), (7, 2));
    assert_eq!(judged_text("field 0 range -7 -5 step 4\nsum"), (8, 1));
    assert_eq!(judged_text("field 0\ndecompose 0 base 0"), (9, 2));
    let large = "field 0 range 1 1000\nfield 1 range 1 1000\nfield 2 range 1 1001\nsum";
    assert_eq!(judged_text(large), (10, 0));
}

/// The answers of the proved program `validate_files` to its files.
#[test]
fn the_files_of_validate_files() {
    let folder = root().join("crates/validate_files");
    let answers = fs::read_to_string(folder.join("stdout")).unwrap();
    assert!(answers.lines().count() > 100);
    for line in answers.lines() {
        let (name, answer) = line.split_once(' ').unwrap();
        let file = fs::read(folder.join("data").join(name)).unwrap();
        let given = match Rules::new(file) {
            Ok(rules) => format!("accepted {}", rules.total()),
            Err(refused) => format!("refused {} {}", refused.number, refused.record),
        };
        assert_eq!(given, answer, "{name}");
    }
}

/// The error is the first and the last item.
fn iterators_give(rules: &Rules, engine: Engine, refused: Refused) {
    let error = Error::Refused(refused);
    assert_eq!(rules.count(engine), Err(error));
    assert_eq!(rules.count_by_pages(engine, |_| {}), Err(error));
    let mut verdicts = rules.verdicts(engine);
    assert_eq!(verdicts.next(), Some(Err(error)));
    assert_eq!(verdicts.next(), None);
    let mut rows = rules.passed_rows(engine);
    assert_eq!(rows.next(), Some(Err(error)));
    assert_eq!(rows.next(), None);
}

#[test]
fn refusal_11() {
    let file = bytes(BENCH);
    let mut answer = [0; ffi::ANSWER];
    for engine in [ffi::STRUCTURAL, ffi::EXHAUSTIVE] {
        let status = ffi::count(engine, &file, &mut [7; 5], &mut answer);
        assert_eq!((status, answer), (ffi::REFUSED, [11, 0, 0, 0]));
    }
}

#[test]
fn refusals_12_and_13() {
    let ring = rules("field 0 range 0 1\nfield 1 range 0 1\ncross 0 1\ncross 1 0\nsum");
    iterators_give(&ring, Engine::Structural, refused(12, 0, File::Only));
    assert_eq!(ring.count(Engine::Exhaustive).unwrap().emitted, 4);

    let barren = rules("field 0 range 0 1\nfield 1 range 0 1\ncross 0 1\nkey 1\nsum");
    iterators_give(&barren, Engine::Structural, refused(13, 0, File::Only));
    assert_eq!(barren.count(Engine::Exhaustive).unwrap().passed, 2);
}

#[test]
fn refusal_14_for_a_page_of_no_verdicts() {
    for engine in ENGINES {
        let rules = rules(BENCH);
        let mut verdicts = rules.verdicts(engine).page_size(0);
        let error = Error::Refused(refused(14, 0, File::Only));
        assert_eq!(verdicts.next(), Some(Err(error)));
        assert_eq!(verdicts.next(), None);
    }
}

#[test]
fn refusal_15() {
    let mut start = [0; ffi::TUPLE];
    start[0] = 3;
    let mut answer = [7; ffi::PAGE_ANSWER];
    let file = bytes(BENCH);
    let status = ffi::page(0, &file, &mut [0; 6], &mut [0; 6], &start, &mut answer);
    assert_eq!(status, ffi::REFUSED);
    assert_eq!(answer[0], 15);
    assert_eq!(answer[1..], [0; 33]);
}

#[test]
fn refusal_16() {
    let sum = bytes("field 0\nsum");
    let parity = bytes("field 0\neven 0\nparity 0");
    let first = refused(16, 3, File::First);
    assert_eq!(join(&parity, &sum), Err(first.into()));
    assert_eq!(join(&parity, &parity), Err(first.into()));
    assert_eq!(
        join(&sum, &parity),
        Err(refused(16, 3, File::Second).into())
    );
}

#[test]
fn refusals_of_a_join() {
    let sum = bytes("sum");
    assert_eq!(join([0], &sum), Err(refused(1, 0, File::First).into()));
    assert_eq!(join(&sum, [0]), Err(refused(1, 0, File::Second).into()));
    assert_eq!(join(&sum, []), Err(refused(4, 1, File::Second).into()));

    let fields = bytes(&(repeat(17, |i| format!("field {i} range 0 0\n")) + "sum"));
    assert_eq!(
        join(&fields, &fields),
        Err(refused(5, 0, File::Joined).into())
    );

    let long = "field 0 listed\n".to_owned() + &repeat(1025, |i| format!("value {i}\n")) + "sum";
    let long = bytes(&long);
    assert_eq!(join(&long, &long), Err(refused(1, 0, File::Joined).into()));

    let large = bytes("field 0 range 1 40000\nsum");
    assert_eq!(
        join(&large, &large),
        Err(refused(10, 0, File::Joined).into())
    );
}

#[test]
fn each_refusal_has_its_own_sentence() {
    let sentences: Vec<_> = (1..=16)
        .map(|number| refused(number, 0, File::Only).sentence())
        .collect();
    for (i, sentence) in sentences.iter().enumerate() {
        assert!(!sentences[..i].contains(sentence));
        assert_ne!(*sentence, refused(17, 0, File::Only).sentence());
    }
}

#[test]
fn errors_in_words() {
    assert_eq!(
        refused(8, 3, File::Only).to_string(),
        "refused 8 at record 3: the field's domain is empty"
    );
    assert_eq!(
        Error::from(refused(10, 0, File::Joined)).to_string(),
        "joined file: refused 10: the total is above 1,000,000,000"
    );
    assert_eq!(
        Error::OutOfMemory(9).to_string(),
        "no memory for a buffer of length 9"
    );
}
