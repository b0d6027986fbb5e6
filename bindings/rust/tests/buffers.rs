//! Lent memory of every length: what the header says of each buffer, word by word.

mod common;

use common::{bytes, BENCH};
use rule_enumerator::ffi;

/// What the buffers hold before a call.
const MARK: i64 = -77;
const MARKED: usize = 7_777;
const MARKED_BYTE: u8 = 0xA5;

/// A buffer with guards before and behind it, which no call may change.
struct Guarded<T> {
    all: Vec<T>,
    mark: T,
}

const GUARD: usize = 8;

impl<T: Copy + PartialEq + std::fmt::Debug> Guarded<T> {
    fn new(mark: T, len: usize) -> Guarded<T> {
        Guarded {
            all: vec![mark; len + 2 * GUARD],
            mark,
        }
    }

    fn lent(&mut self) -> &mut [T] {
        let end = self.all.len() - GUARD;
        &mut self.all[GUARD..end]
    }

    /// What the call left, once the guards are seen to be unchanged.
    fn left(&self) -> &[T] {
        let end = self.all.len() - GUARD;
        assert_eq!(self.all[..GUARD], [self.mark; GUARD]);
        assert_eq!(self.all[end..], [self.mark; GUARD]);
        &self.all[GUARD..end]
    }

    fn untouched(&self) -> bool {
        self.left().iter().all(|word| *word == self.mark)
    }
}

/// The structural rows of the bench file, as words.
const ROWS: [[i64; 6]; 7] = [
    [1, 0, 1, 0, 0, 0],
    [1, 0, 1, 1, 0, 1],
    [0, 5, 0, 0, 0, 2],
    [0, 5, 0, 0, 1, 2],
    [1, 0, 1, 2, 2, 0],
    [1, 0, 1, 2, 2, 0],
    [1, 0, 1, 2, 2, 0],
];

/// The tuples of those rows.
const TUPLES: [[usize; 2]; 7] = [[0, 0], [0, 1], [0, 2], [1, 2], [2, 0], [2, 1], [2, 2]];

#[test]
fn a_short_answer_touches_nothing() {
    let file = bytes(BENCH);
    for len in 0..ffi::ANSWER {
        for engine in [0, 1, 2, 255] {
            let mut answer = Guarded::new(MARKED, len);
            let mut scratch = Guarded::new(MARK, 6);
            let status = ffi::count(engine, &file, scratch.lent(), answer.lent());
            assert_eq!(status, ffi::TOO_SHORT);
            assert!(answer.untouched() && scratch.untouched());
        }
        let mut answer = Guarded::new(MARKED, len);
        assert_eq!(ffi::validate(&file, answer.lent()), ffi::TOO_SHORT);
        let mut out = Guarded::new(MARKED_BYTE, 2 * file.len());
        let status = ffi::join(&file, &file, out.lent(), answer.lent());
        assert_eq!(status, ffi::TOO_SHORT);
        assert!(answer.untouched() && out.untouched());
    }
}

#[test]
fn a_page_with_a_short_answer_or_start_touches_nothing() {
    let file = bytes(BENCH);
    let short_answers = (0..ffi::PAGE_ANSWER).map(|len| (len, 0));
    let short_starts = (1..ffi::TUPLE).map(|len| (ffi::PAGE_ANSWER, len));
    for (answer_len, start_len) in short_answers.chain(short_starts) {
        for engine in [0, 1, 2, 255] {
            let mut answer = Guarded::new(MARKED, answer_len);
            let mut scratch = Guarded::new(MARK, 6);
            let mut out = Guarded::new(MARK, 60);
            let start = vec![0; start_len];
            let status = ffi::page(
                engine,
                &file,
                scratch.lent(),
                out.lent(),
                &start,
                answer.lent(),
            );
            assert_eq!(status, ffi::TOO_SHORT);
            assert!(answer.untouched() && scratch.untouched() && out.untouched());
        }
    }
}

#[test]
fn an_unknown_engine_touches_nothing() {
    let file = bytes(BENCH);
    for engine in 2..=255 {
        let mut answer = Guarded::new(MARKED, ffi::PAGE_ANSWER);
        let mut scratch = Guarded::new(MARK, 6);
        let mut out = Guarded::new(MARK, 60);
        let status = ffi::count(engine, &file, scratch.lent(), answer.lent());
        assert_eq!(status, ffi::NO_ENGINE);
        let status = ffi::page(
            engine,
            &file,
            scratch.lent(),
            out.lent(),
            &[],
            answer.lent(),
        );
        assert_eq!(status, ffi::NO_ENGINE);
        assert!(answer.untouched() && scratch.untouched() && out.untouched());
    }
}

#[test]
fn a_long_answer_keeps_its_later_words() {
    let file = bytes(BENCH);
    let mut answer = Guarded::new(MARKED, 9);
    assert_eq!(ffi::validate(&file, answer.lent()), ffi::ACCEPTED);
    assert_eq!(answer.left()[..4], [2, 3, 9, 6]);
    assert_eq!(answer.left()[4..], [MARKED; 5]);

    let mut answer = Guarded::new(MARKED, 9);
    assert_eq!(ffi::validate(&file[1..], answer.lent()), ffi::REFUSED);
    assert_eq!(answer.left()[..4], [1, 0, 0, 0]);
    assert_eq!(answer.left()[4..], [MARKED; 5]);
}

#[test]
fn scratch_of_each_length() {
    let file = bytes(BENCH);
    for len in 0..12 {
        let mut answer = Guarded::new(MARKED, ffi::ANSWER);
        let mut scratch = Guarded::new(MARK, len);
        let status = ffi::count(0, &file, scratch.lent(), answer.lent());
        if len < 6 {
            assert_eq!(status, ffi::REFUSED);
            assert_eq!(answer.left(), [11, 0, 0, 0]);
            assert!(scratch.untouched());
        } else {
            assert_eq!(status, ffi::ACCEPTED);
            assert_eq!(answer.left(), [9, 7, 5, 4]);
            assert_eq!(scratch.left(), vec![0; len]);
        }
    }
}

#[test]
fn scratch_after_a_refusal() {
    let ring = bytes("field 0 range 0 1\nfield 1 range 0 1\ncross 0 1\ncross 1 0\nsum");
    let mut answer = Guarded::new(MARKED, ffi::ANSWER);
    let mut scratch = Guarded::new(MARK, 9);
    assert_eq!(
        ffi::count(0, &ring, scratch.lent(), answer.lent()),
        ffi::REFUSED
    );
    assert_eq!(answer.left(), [12, 0, 0, 0]);
    assert_eq!(scratch.left(), [0; 9]);

    let mut scratch = Guarded::new(MARK, 9);
    let status = ffi::count(0, &ring[32..], scratch.lent(), answer.lent());
    assert_eq!(status, ffi::REFUSED);
    assert_eq!(answer.left(), [4, 1, 0, 0]);
    assert!(scratch.untouched());
}

/// The answer of an accepted page that wrote this many rows, the last of them this one.
fn page_answer(rows: usize, last: usize) -> Vec<usize> {
    let mut answer = vec![0; ffi::PAGE_ANSWER];
    answer[0] = rows;
    answer[1] = usize::from(last == ROWS.len() - 1);
    answer[2..4].copy_from_slice(&TUPLES[last]);
    answer
}

#[test]
fn an_output_of_each_length_from_each_start() {
    let file = bytes(BENCH);
    for after in 0..=ROWS.len() {
        let start: Vec<usize> = match after {
            0 => Vec::new(),
            _ => [TUPLES[after - 1].as_slice(), &[0; 30]].concat(),
        };
        for len in 0..60 {
            let mut answer = Guarded::new(MARKED, ffi::PAGE_ANSWER);
            let mut scratch = Guarded::new(MARK, 6);
            let mut out = Guarded::new(MARK, len);
            let status = ffi::page(0, &file, scratch.lent(), out.lent(), &start, answer.lent());
            assert_eq!(scratch.left(), [0; 6]);
            if len < 6 {
                assert_eq!(status, ffi::REFUSED);
                assert_eq!(answer.left()[0], 14);
                assert_eq!(answer.left()[1..], [0; 33]);
                assert!(out.untouched());
                continue;
            }
            let rows = (ROWS.len() - after).min(len / 6);
            assert_eq!(status, ffi::ACCEPTED);
            assert_eq!(answer.left(), page_answer(rows, after + rows - 1));
            assert_eq!(out.left()[..rows * 6], ROWS[after..after + rows].concat());
            assert!(out.left()[rows * 6..].iter().all(|word| *word == MARK));
        }
    }
}

#[test]
fn a_start_longer_than_a_tuple_is_its_first_numbers() {
    let file = bytes(BENCH);
    let mut answer = Guarded::new(MARKED, 40);
    let start = [[0; ffi::TUPLE].as_slice(), &[9, 9, 9]].concat();
    let status = ffi::page(0, &file, &mut [0; 6], &mut [0; 6], &start, answer.lent());
    assert_eq!(status, ffi::ACCEPTED);
    assert_eq!(answer.left()[..34], page_answer(1, 1));
    assert_eq!(answer.left()[34..], [MARKED; 6]);
}

#[test]
fn a_start_that_is_not_emitted() {
    let file = bytes(BENCH);
    for tuple in [[1, 0], [3, 0], [0, 3], [usize::MAX, 0]] {
        let start = [tuple.as_slice(), &[0; 30]].concat();
        let mut answer = Guarded::new(MARKED, ffi::PAGE_ANSWER);
        let mut out = Guarded::new(MARK, 12);
        let status = ffi::page(0, &file, &mut [0; 6], out.lent(), &start, answer.lent());
        assert_eq!(status, ffi::REFUSED);
        assert_eq!(answer.left()[0], 15);
        assert_eq!(answer.left()[1..], [0; 33]);
        assert!(out.untouched());
    }
}

#[test]
fn a_joined_file_of_each_room() {
    let first = bytes("field 0 range 0 1\nsum");
    let second = bytes("field 0\neven 0\nsum");
    let joined = bytes("field 0 range 0 1\nfield 1\neven 1\nsum");
    for len in 0..joined.len() + 40 {
        let mut answer = Guarded::new(MARKED, ffi::ANSWER);
        let mut out = Guarded::new(MARKED_BYTE, len);
        let status = ffi::join(&first, &second, out.lent(), answer.lent());
        if len < joined.len() {
            assert_eq!(status, ffi::REFUSED);
            assert_eq!(answer.left(), [14, 0, 3, 0]);
            assert!(out.untouched());
        } else {
            assert_eq!(status, ffi::ACCEPTED);
            assert_eq!(answer.left(), [joined.len(), 0, 0, 0]);
            assert_eq!(out.left()[..joined.len()], joined);
            assert!(out.left()[joined.len()..].iter().all(|b| *b == MARKED_BYTE));
        }
    }
}
