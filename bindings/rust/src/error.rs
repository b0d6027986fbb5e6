//! What can go wrong.

use std::error;
use std::fmt;

/// Which file a refusal is about.
#[derive(Clone, Copy, Debug, PartialEq, Eq, Hash)]
pub enum File {
    /// The one file of the call.
    Only,
    /// The first file of a join.
    First,
    /// The second file of a join.
    Second,
    /// The file that a join would give.
    Joined,
}

/// A refusal: a number of the table in `docs/FORMAT.md`, and the record that it is about.
#[derive(Clone, Copy, Debug, PartialEq, Eq, Hash)]
pub struct Refused {
    /// The number of the refusal, 1 to 16.
    pub number: usize,
    /// The record, counted from 1; 0 for the whole.
    pub record: usize,
    /// The file.
    pub file: File,
}

impl Refused {
    /// The condition in words.
    ///
    /// ```
    /// use rule_enumerator::Rules;
    ///
    /// let refused = Rules::new(vec![0; 33]).unwrap_err();
    /// assert_eq!(refused.sentence(), "the length is no multiple of 32, or above 65,536");
    /// ```
    pub fn sentence(&self) -> &'static str {
        match self.number {
            1 => "the length is no multiple of 32, or above 65,536",
            2 => "the kind, or a field's form, is unknown",
            3 => "something that the kind does not use is not 0",
            4 => "the record is out of its order, or its field is not the one due, or there is no projector",
            5 => "there are more than 32 fields, or more than 256 constraints",
            6 => "a named field is not below the number of fields before it",
            7 => "a number is beyond ±2^56, or a mask or step is negative",
            8 => "the field's domain is empty",
            9 => "the rules of decompose are broken",
            10 => "the total is above 1,000,000,000",
            11 => "the scratch holds fewer numbers than the domain lengths' sum",
            12 => "the kept maps lead from a field back to it",
            13 => "a kept map leaves some allowed parent value no allowed child value",
            14 => "the output is too short",
            15 => "the start is no emitted tuple",
            16 => "the projector is not a sum",
            _ => "the refusal is unknown to this crate",
        }
    }
}

impl fmt::Display for Refused {
    fn fmt(&self, f: &mut fmt::Formatter<'_>) -> fmt::Result {
        match self.file {
            File::Only => {}
            File::First => f.write_str("first file: ")?,
            File::Second => f.write_str("second file: ")?,
            File::Joined => f.write_str("joined file: ")?,
        }
        write!(f, "refused {}", self.number)?;
        if self.record != 0 {
            write!(f, " at record {}", self.record)?;
        }
        write!(f, ": {}", self.sentence())
    }
}

impl error::Error for Refused {}

/// Why a count, a listing or a join did not come to its end.
#[derive(Clone, Copy, Debug, PartialEq, Eq, Hash)]
#[non_exhaustive]
pub enum Error {
    /// The library refused the call.
    Refused(Refused),
    /// There is no memory for this many numbers of scratch or output, or bytes of a joined file.
    OutOfMemory(usize),
}

impl fmt::Display for Error {
    fn fmt(&self, f: &mut fmt::Formatter<'_>) -> fmt::Result {
        match self {
            Error::Refused(refused) => refused.fmt(f),
            Error::OutOfMemory(len) => write!(f, "no memory for a buffer of length {len}"),
        }
    }
}

impl error::Error for Error {}

impl From<Refused> for Error {
    fn from(refused: Refused) -> Error {
        Error::Refused(refused)
    }
}
