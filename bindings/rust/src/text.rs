//! The text form of a rules file: one record a line.
//!
//! `docs/FORMAT.md` has the table of words. [`assemble`] goes from text to bytes and [`show`] from
//! bytes to text. Neither judges the rules. What [`show`] gives for some bytes, [`assemble`] turns
//! into the same bytes.

use std::error;
use std::fmt;
use std::str::SplitAsciiWhitespace;

use crate::error::{File, Refused};

const RECORD: usize = 32;

const FIELD: u8 = 1;
const VALUE: u8 = 2;
const AXIS: u8 = 8;
const DECOMPOSE: u8 = 33;

const NO_RANGE: u8 = 0;
const RANGE: u8 = 1;
const LISTED: u8 = 2;

/// The offset of a decompose that has none.
const NO_OFFSET: i64 = -1;

/// A number after the word of a record: where it stands in the record.
#[derive(Clone, Copy)]
enum Slot {
    A,
    B,
    P,
    Q,
}

/// The records that are a word and then numbers.
const PLAIN: [(&str, u8, &[Slot]); 21] = [
    ("item", 3, &[Slot::P]),
    ("pair", 4, &[Slot::P, Slot::Q]),
    ("key", 5, &[Slot::P]),
    ("disable", 6, &[Slot::A]),
    ("assign", 7, &[Slot::A, Slot::P]),
    ("range", 10, &[Slot::A, Slot::P, Slot::Q]),
    ("even", 11, &[Slot::A]),
    ("eq", 12, &[Slot::A, Slot::B]),
    ("neq", 13, &[Slot::A, Slot::B]),
    ("lt", 14, &[Slot::A, Slot::P]),
    ("gt", 15, &[Slot::A, Slot::P]),
    ("le", 16, &[Slot::A, Slot::P]),
    ("ge", 17, &[Slot::A, Slot::P]),
    ("oneof", 18, &[Slot::A]),
    ("cross", 19, &[Slot::A, Slot::B]),
    ("enable_mask", 20, &[Slot::A, Slot::P]),
    ("bitmask", 21, &[Slot::A, Slot::P, Slot::Q]),
    ("enable_set", 22, &[Slot::A, Slot::P]),
    ("sum", 30, &[]),
    ("identity", 31, &[Slot::A]),
    ("parity", 32, &[Slot::A]),
];

/// A record without stray bytes.
#[derive(Clone, Copy, Default)]
struct Record {
    kind: u8,
    a: u8,
    b: u8,
    p: i64,
    q: i64,
    r: i64,
}

type Bytes = [u8; RECORD];

fn number_at(bytes: &Bytes, at: usize) -> i64 {
    let mut number = [0; 8];
    number.copy_from_slice(&bytes[at..at + 8]);
    i64::from_le_bytes(number)
}

impl Record {
    /// The record in these bytes, whatever stands in bytes 3 to 7.
    fn from_bytes(bytes: &Bytes) -> Record {
        Record {
            kind: bytes[0],
            a: bytes[1],
            b: bytes[2],
            p: number_at(bytes, 8),
            q: number_at(bytes, 16),
            r: number_at(bytes, 24),
        }
    }

    fn to_bytes(self) -> Bytes {
        let mut bytes = [0; RECORD];
        bytes[0] = self.kind;
        bytes[1] = self.a;
        bytes[2] = self.b;
        bytes[8..16].copy_from_slice(&self.p.to_le_bytes());
        bytes[16..24].copy_from_slice(&self.q.to_le_bytes());
        bytes[24..].copy_from_slice(&self.r.to_le_bytes());
        bytes
    }
}

/// The field that a value without a number belongs to: that of the last field record.
type Head = Option<u8>;

fn head_after(bytes: &Bytes, head: Head) -> Head {
    if bytes[0] == FIELD {
        Some(bytes[1])
    } else {
        head
    }
}

/// A line of text that cannot be read.
#[derive(Clone, Debug, PartialEq, Eq, Hash)]
pub struct Unreadable {
    /// The line, counted from 1.
    pub line: usize,
    /// What would be right there.
    pub expected: String,
    /// The word that stands there instead; none at the end of the line.
    pub found: Option<String>,
}

impl fmt::Display for Unreadable {
    fn fmt(&self, f: &mut fmt::Formatter<'_>) -> fmt::Result {
        write!(f, "line {}: expected {}, found ", self.line, self.expected)?;
        match &self.found {
            Some(word) => write!(f, "`{}`", word.escape_debug()),
            None => f.write_str("the end of the line"),
        }
    }
}

impl error::Error for Unreadable {}

/// What was expected in a line, and the word that was found.
struct Fault<'a> {
    expected: String,
    found: Option<&'a str>,
}

fn fault<T>(expected: impl Into<String>, found: Option<&str>) -> Result<T, Fault<'_>> {
    Err(Fault {
        expected: expected.into(),
        found,
    })
}

/// The words of a line that are still to be read.
struct Words<'a> {
    rest: SplitAsciiWhitespace<'a>,
}

impl<'a> Words<'a> {
    fn next(&mut self) -> Option<&'a str> {
        self.rest.next()
    }

    /// Reads the word, if it is next.
    fn takes(&mut self, word: &str) -> bool {
        let next = self.rest.clone().next();
        if next == Some(word) {
            self.rest.next();
        }
        next == Some(word)
    }

    fn word(&mut self, word: &str) -> Result<(), Fault<'a>> {
        match self.next() {
            Some(found) if found == word => Ok(()),
            found => fault(format!("`{word}`"), found),
        }
    }

    fn byte(&mut self, what: &str) -> Result<u8, Fault<'a>> {
        let found = self.next();
        match found.and_then(|word| word.parse().ok()) {
            Some(byte) => Ok(byte),
            None => fault(format!("a {what} 0 to 255"), found),
        }
    }

    fn field(&mut self) -> Result<u8, Fault<'a>> {
        self.byte("field number")
    }

    fn number(&mut self) -> Result<i64, Fault<'a>> {
        let found = self.next();
        match found.and_then(|word| word.parse().ok()) {
            Some(number) => Ok(number),
            None => fault("a signed 64-bit number", found),
        }
    }

    /// Reads the word and a number, if the word is next; else it is the number `absent`.
    fn option(&mut self, word: &str, absent: i64) -> Result<i64, Fault<'a>> {
        if self.takes(word) {
            self.number()
        } else {
            Ok(absent)
        }
    }

    fn end(&mut self, expected: &str) -> Result<(), Fault<'a>> {
        match self.next() {
            None => Ok(()),
            found => fault(expected, found),
        }
    }
}

const END: &str = "the end of the line";

fn read_field<'a>(words: &mut Words<'a>) -> Result<Record, Fault<'a>> {
    let mut record = Record {
        kind: FIELD,
        a: words.field()?,
        ..Record::default()
    };
    if words.takes("listed") {
        record.b = LISTED;
        words.end(END)?;
        return Ok(record);
    }
    let mut expected = "`range`, `listed`, `step` or the end of the line";
    if words.takes("range") {
        record.b = RANGE;
        record.p = words.number()?;
        record.q = words.number()?;
        expected = "`step` or the end of the line";
    }
    record.r = words.option("step", 0)?;
    words.end(if record.r == 0 { expected } else { END })?;
    Ok(record)
}

fn read_value<'a>(words: &mut Words<'a>, head: Head) -> Result<Record, Fault<'a>> {
    let p = words.number()?;
    let a = match head {
        Some(a) if !words.takes("field") => a,
        Some(_) => words.field()?,
        None => {
            words.word("field")?;
            words.field()?
        }
    };
    words.end(END)?;
    Ok(Record {
        kind: VALUE,
        a,
        p,
        ..Record::default()
    })
}

fn read_axis<'a>(words: &mut Words<'a>) -> Result<Record, Fault<'a>> {
    words.word("shift")?;
    let b = words.byte("shift")?;
    words.word("width")?;
    let a = words.byte("width")?;
    let p = words.option("radix", 0)?;
    words.end("`radix` or the end of the line")?;
    Ok(Record {
        kind: AXIS,
        a,
        b,
        p,
        ..Record::default()
    })
}

fn read_decompose<'a>(words: &mut Words<'a>) -> Result<Record, Fault<'a>> {
    let a = words.field()?;
    words.word("base")?;
    let p = words.number()?;
    let q = words.option("offset", NO_OFFSET)?;
    words.end("`offset` or the end of the line")?;
    Ok(Record {
        kind: DECOMPOSE,
        a,
        p,
        q,
        ..Record::default()
    })
}

fn read_plain<'a>(word: &'a str, words: &mut Words<'a>) -> Result<Record, Fault<'a>> {
    let Some((_, kind, slots)) = PLAIN.iter().find(|(name, ..)| *name == word) else {
        return fault("the word of a record", Some(word));
    };
    let mut record = Record {
        kind: *kind,
        ..Record::default()
    };
    for slot in *slots {
        match slot {
            Slot::A => record.a = words.field()?,
            Slot::B => record.b = words.field()?,
            Slot::P => record.p = words.number()?,
            Slot::Q => record.q = words.number()?,
        }
    }
    words.end(END)?;
    Ok(record)
}

fn hex_pair(pair: &[u8]) -> Option<u8> {
    let high = char::from(pair[0]).to_digit(16)?;
    let low = char::from(pair[1]).to_digit(16)?;
    u8::try_from(high * 16 + low).ok()
}

fn hex_bytes(word: &str) -> Option<Bytes> {
    if word.len() != 2 * RECORD {
        return None;
    }
    let mut bytes = [0; RECORD];
    for (byte, pair) in bytes.iter_mut().zip(word.as_bytes().chunks_exact(2)) {
        *byte = hex_pair(pair)?;
    }
    Some(bytes)
}

fn read_bytes<'a>(words: &mut Words<'a>) -> Result<Bytes, Fault<'a>> {
    let found = words.next();
    let Some(bytes) = found.and_then(hex_bytes) else {
        return fault("64 hexadecimal digits", found);
    };
    words.end(END)?;
    Ok(bytes)
}

/// The record of a line; none for a line without words.
fn read_line(line: &str, head: Head) -> Result<Option<Bytes>, Fault<'_>> {
    let before_comment = line.split('#').next().unwrap_or_default();
    let mut words = Words {
        rest: before_comment.split_ascii_whitespace(),
    };
    let Some(word) = words.next() else {
        return Ok(None);
    };
    let record = match word {
        "bytes" => return read_bytes(&mut words).map(Some),
        "field" => read_field(&mut words)?,
        "value" => read_value(&mut words, head)?,
        "axis" => read_axis(&mut words)?,
        "decompose" => read_decompose(&mut words)?,
        _ => read_plain(word, &mut words)?,
    };
    Ok(Some(record.to_bytes()))
}

/// The bytes of a rules file in its text form. The rules are not judged.
///
/// # Errors
///
/// The first line that cannot be read.
///
/// ```
/// use rule_enumerator::text::assemble;
///
/// let file = assemble("field 0 range 0 2  # the role\n\nsum")?;
/// assert_eq!(file.len(), 64);
///
/// let unreadable = assemble("field 0\nfield x\nsum").unwrap_err();
/// assert_eq!(unreadable.to_string(), "line 2: expected a field number 0 to 255, found `x`");
/// # Ok::<(), rule_enumerator::text::Unreadable>(())
/// ```
pub fn assemble(text: &str) -> Result<Vec<u8>, Unreadable> {
    let mut file = Vec::new();
    let mut head = None;
    for (i, line) in text.lines().enumerate() {
        let record = read_line(line, head).map_err(|fault| Unreadable {
            line: i + 1,
            expected: fault.expected,
            found: fault.found.map(String::from),
        })?;
        if let Some(bytes) = record {
            head = head_after(&bytes, head);
            file.extend_from_slice(&bytes);
        }
    }
    Ok(file)
}

/// A word and a number, or nothing where the number is the one that stands for absent.
fn option_text(word: &str, number: i64, absent: i64) -> String {
    if number == absent {
        String::new()
    } else {
        format!(" {word} {number}")
    }
}

fn field_text(record: &Record) -> Option<String> {
    let Record { a, b, p, q, r, .. } = *record;
    let step = option_text("step", r, 0);
    match b {
        NO_RANGE => Some(format!("field {a}{step}")),
        RANGE => Some(format!("field {a} range {p} {q}{step}")),
        LISTED => Some(format!("field {a} listed")),
        _ => None,
    }
}

fn value_text(record: &Record, head: Head) -> String {
    let Record { a, p, .. } = *record;
    if head == Some(a) {
        format!("value {p}")
    } else {
        format!("value {p} field {a}")
    }
}

fn axis_text(record: &Record) -> String {
    let Record { a, b, p, .. } = *record;
    let radix = option_text("radix", p, 0);
    format!("axis shift {b} width {a}{radix}")
}

fn decompose_text(record: &Record) -> String {
    let Record { a, p, q, .. } = *record;
    let offset = option_text("offset", q, NO_OFFSET);
    format!("decompose {a} base {p}{offset}")
}

fn plain_text(record: &Record) -> Option<String> {
    let (word, _, slots) = PLAIN.iter().find(|(_, kind, _)| *kind == record.kind)?;
    let mut line = String::from(*word);
    for slot in *slots {
        let number = match slot {
            Slot::A => i64::from(record.a),
            Slot::B => i64::from(record.b),
            Slot::P => record.p,
            Slot::Q => record.q,
        };
        line.push_str(&format!(" {number}"));
    }
    Some(line)
}

/// The words for what the record's kind uses; none for an unknown kind or form.
fn words_text(record: &Record, head: Head) -> Option<String> {
    match record.kind {
        FIELD => field_text(record),
        VALUE => Some(value_text(record, head)),
        AXIS => Some(axis_text(record)),
        DECOMPOSE => Some(decompose_text(record)),
        _ => plain_text(record),
    }
}

fn bytes_text(bytes: &Bytes) -> String {
    let digits: String = bytes.iter().map(|byte| format!("{byte:02x}")).collect();
    format!("bytes {digits}")
}

/// The line of a record: words if reading them gives the record back, else its bytes.
fn line_text(bytes: &Bytes, head: Head) -> String {
    let record = Record::from_bytes(bytes);
    let reads_back =
        |line: &String| matches!(read_line(line, head), Ok(Some(read)) if read == *bytes);
    match words_text(&record, head).filter(reads_back) {
        Some(line) if (VALUE..=AXIS).contains(&record.kind) => format!("  {line}"),
        Some(line) => line,
        None => bytes_text(bytes),
    }
}

/// The lines of a rules file in its text form, one for each record.
///
/// # Errors
///
/// Refusal 1 for a length that is no multiple of 32. The rules are not judged.
pub fn lines(file: &[u8]) -> Result<Vec<String>, Refused> {
    let records = file.chunks_exact(RECORD);
    if !records.remainder().is_empty() {
        return Err(Refused {
            number: 1,
            record: 0,
            file: File::Only,
        });
    }
    let mut head = None;
    let mut lines = Vec::new();
    for record in records {
        let mut bytes = [0; RECORD];
        bytes.copy_from_slice(record);
        lines.push(line_text(&bytes, head));
        head = head_after(&bytes, head);
    }
    Ok(lines)
}

/// The text form of a rules file: its [`lines`], each with its line end.
///
/// # Errors
///
/// As [`lines`].
///
/// ```
/// use rule_enumerator::text::{assemble, show};
///
/// let file = assemble("field 0 listed\nvalue 7\nvalue 9\nsum")?;
/// assert_eq!(show(&file)?, "field 0 listed\n  value 7\n  value 9\nsum\n");
/// # Ok::<(), Box<dyn std::error::Error>>(())
/// ```
pub fn show(file: &[u8]) -> Result<String, Refused> {
    let mut text = String::new();
    for line in lines(file)? {
        text.push_str(&line);
        text.push('\n');
    }
    Ok(text)
}
