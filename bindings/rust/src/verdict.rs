//! Verdicts and counts, and their lines in a listing.

use std::fmt;

use crate::ffi;

/// The verdict on one row.
///
/// It displays as its line in the listing: `P` or `F`, the place, the projection or `-`, the
/// values.
///
/// ```
/// let verdict = rule_enumerator::Verdict {
///     passed: false,
///     place: 5,
///     projection: None,
///     values: vec![0, 2],
/// };
/// assert_eq!(verdict.to_string(), "F 5 - 0 2");
/// ```
#[derive(Clone, Debug, PartialEq, Eq, Hash)]
pub struct Verdict {
    /// Whether the row passed.
    pub passed: bool,
    /// 0 for passed; field number + 1 for the first field check that fails; or the number of
    /// fields + the number of the constraint, counted from 1.
    pub place: usize,
    /// The projection. A failed row has none; a passed row may have none, with decompose.
    pub projection: Option<i64>,
    /// The value of each field.
    pub values: Vec<i64>,
}

/// A word that is 0 or 1.
pub(crate) fn flag(word: i64) -> bool {
    match word {
        0 => false,
        1 => true,
        _ => panic!("libexports wrote {word} where 0 or 1 stands"),
    }
}

impl Verdict {
    /// The verdict that a page has as these words.
    pub(crate) fn from_words(words: &[i64]) -> Verdict {
        let (head, values) = words.split_at(ffi::ROW);
        Verdict {
            passed: flag(head[0]),
            place: usize::try_from(head[1]).expect("libexports wrote a negative place"),
            projection: flag(head[2]).then_some(head[3]),
            values: values.to_vec(),
        }
    }
}

impl fmt::Display for Verdict {
    fn fmt(&self, f: &mut fmt::Formatter<'_>) -> fmt::Result {
        let letter = if self.passed { 'P' } else { 'F' };
        write!(f, "{letter} {} ", self.place)?;
        match self.projection {
            Some(projection) => write!(f, "{projection}")?,
            None => f.write_str("-")?,
        }
        for value in &self.values {
            write!(f, " {value}")?;
        }
        Ok(())
    }
}

/// The counts of a listing.
///
/// They display as the last line of the listing: `end`, total, emitted, passed, failed.
///
/// ```
/// let counts = rule_enumerator::Counts { total: 9, emitted: 7, passed: 5, failed: 4 };
/// assert_eq!(counts.to_string(), "end 9 7 5 4");
/// ```
#[derive(Clone, Copy, Debug, PartialEq, Eq, Hash)]
pub struct Counts {
    /// The product of the domain lengths; 0 without fields.
    pub total: usize,
    /// How many verdicts there are.
    pub emitted: usize,
    /// How many of them passed.
    pub passed: usize,
    /// The total less the passed.
    pub failed: usize,
}

impl fmt::Display for Counts {
    fn fmt(&self, f: &mut fmt::Formatter<'_>) -> fmt::Result {
        write!(
            f,
            "end {} {} {} {}",
            self.total, self.emitted, self.passed, self.failed
        )
    }
}
