//! The four functions of `libexports.a`, over slices.
//!
//! This is the only module with unsafe code. Each function takes any slices, returns the status
//! and leaves in the slices what `bindings/c/rules.h` says. The rest of the crate calls them with
//! slices that are long enough; they are public for callers who lend their own memory.

#![allow(unsafe_code)]

/// The status of an accepted call.
pub const ACCEPTED: u8 = 0;
/// The status of a refused call: the answer says why.
pub const REFUSED: u8 = 1;
/// The status of a call whose answer, or start of 1 to 31 numbers, is too short: nothing is touched.
pub const TOO_SHORT: u8 = 2;
/// The status of a call with an engine that there is not: nothing is touched.
pub const NO_ENGINE: u8 = 3;

/// The number of the structural engine.
pub const STRUCTURAL: u8 = 0;
/// The number of the exhaustive engine.
pub const EXHAUSTIVE: u8 = 1;

/// The length of the answer of [`validate`], [`count`] and [`join`].
pub const ANSWER: usize = 4;
/// The length of the answer of [`page`].
pub const PAGE_ANSWER: usize = 34;
/// The length of a start, and of the last tuple in the answer of [`page`].
pub const TUPLE: usize = 32;
/// The words of a verdict before its values.
pub const ROW: usize = 4;

mod exports {
    extern "C" {
        pub fn rules_validate(
            file: *const u8,
            file_len: usize,
            answer: *mut usize,
            answer_len: usize,
        ) -> u8;

        pub fn rules_count(
            engine: u8,
            file: *const u8,
            file_len: usize,
            scratch: *mut i64,
            scratch_len: usize,
            answer: *mut usize,
            answer_len: usize,
        ) -> u8;

        pub fn rules_page(
            engine: u8,
            file: *const u8,
            file_len: usize,
            scratch: *mut i64,
            scratch_len: usize,
            out: *mut i64,
            out_len: usize,
            start: *const usize,
            start_len: usize,
            answer: *mut usize,
            answer_len: usize,
        ) -> u8;

        pub fn rules_join(
            first: *const u8,
            first_len: usize,
            second: *const u8,
            second_len: usize,
            out: *mut u8,
            out_len: usize,
            answer: *mut usize,
            answer_len: usize,
        ) -> u8;
    }
}

/// Judges a rules file. Accepted, the answer is: fields, constraints, total, numbers of scratch.
pub fn validate(file: &[u8], answer: &mut [usize]) -> u8 {
    // SAFETY: each pointer and length is that of a slice; a slice lent by `&mut` overlaps no other.
    unsafe { exports::rules_validate(file.as_ptr(), file.len(), answer.as_mut_ptr(), answer.len()) }
}

/// Counts the verdicts. Accepted, the answer is: total, emitted, passed, failed.
pub fn count(engine: u8, file: &[u8], scratch: &mut [i64], answer: &mut [usize]) -> u8 {
    // SAFETY: as in `validate`.
    unsafe {
        exports::rules_count(
            engine,
            file.as_ptr(),
            file.len(),
            scratch.as_mut_ptr(),
            scratch.len(),
            answer.as_mut_ptr(),
            answer.len(),
        )
    }
}

/// Writes the next verdicts that fit into `out`, from the beginning or after the tuple `start`.
///
/// Accepted, the answer is: how many verdicts, 1 if none follow, the last tuple.
pub fn page(
    engine: u8,
    file: &[u8],
    scratch: &mut [i64],
    out: &mut [i64],
    start: &[usize],
    answer: &mut [usize],
) -> u8 {
    // SAFETY: as in `validate`.
    unsafe {
        exports::rules_page(
            engine,
            file.as_ptr(),
            file.len(),
            scratch.as_mut_ptr(),
            scratch.len(),
            out.as_mut_ptr(),
            out.len(),
            start.as_ptr(),
            start.len(),
            answer.as_mut_ptr(),
            answer.len(),
        )
    }
}

/// Writes the join of two files into `out`. Accepted, the answer is its length and three zeros.
pub fn join(first: &[u8], second: &[u8], out: &mut [u8], answer: &mut [usize]) -> u8 {
    // SAFETY: as in `validate`.
    unsafe {
        exports::rules_join(
            first.as_ptr(),
            first.len(),
            second.as_ptr(),
            second.len(),
            out.as_mut_ptr(),
            out.len(),
            answer.as_mut_ptr(),
            answer.len(),
        )
    }
}
