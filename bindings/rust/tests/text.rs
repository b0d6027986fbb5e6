//! The text form.

mod common;

use common::{bytes, files, root, small_file, Random};
use rule_enumerator::text::{assemble, lines, show};
use std::fs;

/// A record without stray bytes.
fn record(kind: u8, a: u8, b: u8, p: i64, q: i64, r: i64) -> Vec<u8> {
    let mut record = vec![kind, a, b, 0, 0, 0, 0, 0];
    for number in [p, q, r] {
        record.extend(number.to_le_bytes());
    }
    record
}

fn unreadable(text: &str) -> String {
    assemble(text).unwrap_err().to_string()
}

/// Shows the bytes, and assembles what is shown.
fn round_trip(file: &[u8]) {
    let text = show(file).unwrap();
    assert_eq!(text.lines().count(), file.len() / 32);
    assert_eq!(assemble(&text).unwrap(), file, "{text}");
}

#[test]
fn each_word() {
    let table = [
        ("field 3", record(1, 3, 0, 0, 0, 0)),
        ("field 3 step 5", record(1, 3, 0, 0, 0, 5)),
        ("field 3 range -1 2", record(1, 3, 1, -1, 2, 0)),
        ("field 3 range 0 10 step 5", record(1, 3, 1, 0, 10, 5)),
        ("field 3 listed", record(1, 3, 2, 0, 0, 0)),
        ("  value -7 field 4", record(2, 4, 0, -7, 0, 0)),
        ("  item 3", record(3, 0, 0, 3, 0, 0)),
        ("  pair 1 2", record(4, 0, 0, 1, 2, 0)),
        ("  key 3", record(5, 0, 0, 3, 0, 0)),
        ("  disable 1", record(6, 1, 0, 0, 0, 0)),
        ("  assign 1 7", record(7, 1, 0, 7, 0, 0)),
        ("  axis shift 4 width 2", record(8, 2, 4, 0, 0, 0)),
        ("  axis shift 0 width 2 radix 3", record(8, 2, 0, 3, 0, 0)),
        ("range 1 0 5", record(10, 1, 0, 0, 5, 0)),
        ("even 9", record(11, 9, 0, 0, 0, 0)),
        ("eq 1 2", record(12, 1, 2, 0, 0, 0)),
        ("neq 1 2", record(13, 1, 2, 0, 0, 0)),
        ("lt 1 2", record(14, 1, 0, 2, 0, 0)),
        ("gt 1 2", record(15, 1, 0, 2, 0, 0)),
        ("le 1 2", record(16, 1, 0, 2, 0, 0)),
        ("ge 1 2", record(17, 1, 0, 2, 0, 0)),
        ("oneof 1", record(18, 1, 0, 0, 0, 0)),
        ("cross 0 1", record(19, 0, 1, 0, 0, 0)),
        ("enable_mask 0 2", record(20, 0, 0, 2, 0, 0)),
        ("bitmask 0 6 2", record(21, 0, 0, 6, 2, 0)),
        ("enable_set 0 2", record(22, 0, 0, 2, 0, 0)),
        ("sum", record(30, 0, 0, 0, 0, 0)),
        ("identity 1", record(31, 1, 0, 0, 0, 0)),
        ("parity 1", record(32, 1, 0, 0, 0, 0)),
        ("decompose 0 base 3", record(33, 0, 0, 3, -1, 0)),
        ("decompose 0 base 3 offset 8", record(33, 0, 0, 3, 8, 0)),
    ];
    for (line, record) in table {
        assert_eq!(assemble(line).unwrap(), record, "{line}");
        assert_eq!(lines(&record).unwrap(), [line]);
    }
}

#[test]
fn a_value_belongs_to_the_last_field() {
    let file = bytes("field 0 listed\nvalue 5\nfield 7 listed\nvalue 6\nvalue 6 field 0");
    assert_eq!(file[32..64], record(2, 0, 0, 5, 0, 0));
    assert_eq!(file[96..128], record(2, 7, 0, 6, 0, 0));
    assert_eq!(
        lines(&file).unwrap()[3..],
        ["  value 6", "  value 6 field 0"]
    );
    assert_eq!(
        unreadable("value 5"),
        "line 1: expected `field`, found the end of the line"
    );
}

#[test]
fn blanks_and_comments() {
    let text = "# rules\n\n\t field 0   range 0 2 # role\r\n   \n#\nsum#sum\n";
    assert_eq!(bytes(text), bytes("field 0 range 0 2\nsum"));
    assert_eq!(bytes(""), []);
}

#[test]
fn the_ends_of_the_numbers() {
    let text = "range 255 -9223372036854775808 9223372036854775807";
    assert_eq!(bytes(text), record(10, 255, 0, i64::MIN, i64::MAX, 0));
    round_trip(&bytes(text));
}

#[test]
fn lines_that_cannot_be_read() {
    let table = [
        (
            "field 0\nsum\nfield x",
            "line 3: expected a field number 0 to 255, found `x`",
        ),
        (
            "\n# none\nfield",
            "line 3: expected a field number 0 to 255, found the end of the line",
        ),
        (
            "even 256",
            "line 1: expected a field number 0 to 255, found `256`",
        ),
        (
            "even -1",
            "line 1: expected a field number 0 to 255, found `-1`",
        ),
        (
            "lt 0 9223372036854775808",
            "line 1: expected a signed 64-bit number, found `9223372036854775808`",
        ),
        (
            "lt 0 1.5",
            "line 1: expected a signed 64-bit number, found `1.5`",
        ),
        (
            "lt 0 0x1",
            "line 1: expected a signed 64-bit number, found `0x1`",
        ),
        (
            "lt 0",
            "line 1: expected a signed 64-bit number, found the end of the line",
        ),
        (
            "lt 0 1 2",
            "line 1: expected the end of the line, found `2`",
        ),
        ("Sum", "line 1: expected the word of a record, found `Sum`"),
        (
            "field 0 0 2",
            "line 1: expected `range`, `listed`, `step` or the end of the line, found `0`",
        ),
        (
            "field 0 listed 1",
            "line 1: expected the end of the line, found `1`",
        ),
        (
            "field 0 range 1 2 3",
            "line 1: expected `step` or the end of the line, found `3`",
        ),
        (
            "field 0 range 1 2 step 3 4",
            "line 1: expected the end of the line, found `4`",
        ),
        ("axis 0 2", "line 1: expected `shift`, found `0`"),
        (
            "axis shift 0 width",
            "line 1: expected a width 0 to 255, found the end of the line",
        ),
        (
            "axis shift 0 width 2 3",
            "line 1: expected `radix` or the end of the line, found `3`",
        ),
        ("decompose 0 3", "line 1: expected `base`, found `3`"),
        (
            "decompose 0 base 3 8",
            "line 1: expected `offset` or the end of the line, found `8`",
        ),
        (
            "bytes 00",
            "line 1: expected 64 hexadecimal digits, found `00`",
        ),
        (
            "su\u{7}m",
            "line 1: expected the word of a record, found `su\\u{7}m`",
        ),
    ];
    for (text, message) in table {
        assert_eq!(unreadable(text), message);
    }
    for digits in [
        "g".repeat(64),
        "é".repeat(32),
        "0".repeat(63),
        "0".repeat(65),
        format!("+{}", "0".repeat(63)),
    ] {
        let message = format!("line 1: expected 64 hexadecimal digits, found `{digits}`");
        assert_eq!(unreadable(&format!("bytes {digits}")), message);
    }
}

#[test]
fn a_length_that_is_no_multiple_of_32() {
    for len in [1, 31, 33, 65_537] {
        let refused = show(&vec![0; len]).unwrap_err();
        assert_eq!((refused.number, refused.record), (1, 0));
    }
    assert_eq!(show(&[]).unwrap(), "");
}

#[test]
fn the_files_of_the_repository_round_trip() {
    for folder in ["examples", "crates/validate_files/data"] {
        for path in files(&root().join(folder), "rules") {
            let file = fs::read(path).unwrap();
            if file.len() % 32 == 0 {
                round_trip(&file);
            }
        }
    }
}

#[test]
fn the_examples_are_their_texts() {
    for path in files(&root().join("examples"), "txt") {
        let file = fs::read(path.with_extension("rules")).unwrap();
        assert_eq!(bytes(&fs::read_to_string(path).unwrap()), file);
    }
}

#[test]
fn files_of_words_are_shown_as_words() {
    let mut random = Random::new(5);
    for _ in 0..300 {
        let rules = small_file(&mut random);
        round_trip(rules.as_bytes());
        assert!(!show(rules.as_bytes()).unwrap().contains("bytes"));
    }
}

/// Bytes that are mostly near to a record: a kind, and some of its parts.
fn some_record(random: &mut Random) -> Vec<u8> {
    let kind = random.below(36) as u8;
    let mut some = || match random.below(4) {
        0 => random.next() as i64,
        1 => -1,
        _ => random.below(3) as i64,
    };
    let (a, b, p, q, r) = (some() as u8, some() as u8, some(), some(), some());
    let used = random.below(6);
    let keep = |part: u64, number: i64| if part < used { number } else { 0 };
    let b = keep(2, b.into()) as u8;
    record(kind, a, b, keep(1, p), keep(3, q), keep(4, r))
}

#[test]
fn all_bytes_round_trip() {
    let mut random = Random::new(6);
    for _ in 0..500 {
        let mut file = Vec::new();
        for _ in 0..random.below(12) {
            file.extend(some_record(&mut random));
        }
        round_trip(&file);
        if !file.is_empty() {
            let at = random.below(file.len() as u64) as usize;
            file[at] = random.byte();
            round_trip(&file);
        }
    }
    for _ in 0..500 {
        let file: Vec<u8> = (0..96).map(|_| random.byte()).collect();
        round_trip(&file);
    }
}

/// Each kind with a stray mark in each byte.
#[test]
fn a_mark_in_each_byte_round_trips() {
    for kind in 0..=255 {
        for at in 1..32 {
            for mark in [1, 2, 255] {
                let mut file = record(kind, 0, 0, 0, 0, 0);
                file[at] = mark;
                round_trip(&file);
                round_trip(&[bytes("field 1"), file].concat());
            }
        }
    }
}
