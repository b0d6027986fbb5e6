//! What the calls of the library share: the buffers lent to it, and its status.

use crate::error::{Error, File, Refused};
use crate::ffi;

/// A buffer of zeros. It is an error, and no abort, if there is no memory for it.
pub fn buffer<T: Clone + Default>(len: usize) -> Result<Vec<T>, Error> {
    let mut numbers = Vec::new();
    numbers
        .try_reserve_exact(len)
        .map_err(|_| Error::OutOfMemory(len))?;
    numbers.resize(len, T::default());
    Ok(numbers)
}

fn file_of(number: usize) -> File {
    match number {
        0 => File::Only,
        1 => File::First,
        2 => File::Second,
        3 => File::Joined,
        _ => panic!("libexports refused file {number}"),
    }
}

/// The outcome of a call whose answer is long enough and whose engine there is.
pub fn outcome(status: u8, answer: &[usize]) -> Result<(), Refused> {
    match status {
        ffi::ACCEPTED => Ok(()),
        ffi::REFUSED => Err(Refused {
            number: answer[0],
            record: answer[1],
            file: file_of(answer[2]),
        }),
        _ => panic!("libexports gave status {status}"),
    }
}

#[cfg(test)]
mod tests {
    use super::*;

    #[test]
    fn no_memory_is_an_error() {
        for len in [usize::MAX, usize::MAX / 8, 1 << 59] {
            assert_eq!(buffer::<i64>(len), Err(Error::OutOfMemory(len)));
        }
    }

    #[test]
    #[should_panic(expected = "status 2")]
    fn a_status_that_cannot_be_is_loud() {
        let _ = outcome(ffi::TOO_SHORT, &[0; ffi::ANSWER]);
    }
}
