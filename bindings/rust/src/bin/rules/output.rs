//! Standard output, and why a call failed.

use std::io::{self, BufWriter, StdoutLock, Write};

use rule_enumerator::{Error, Refused};

/// Why a call failed.
pub enum Failure {
    /// Nobody reads standard output any more. This is not worth a message.
    Closed,
    /// All else, in words.
    Message(String),
}

impl Failure {
    pub fn message(&self) -> Option<&str> {
        match self {
            Failure::Closed => None,
            Failure::Message(message) => Some(message),
        }
    }
}

/// Standard output. What is written is there only after `finish`.
pub struct Output {
    out: BufWriter<StdoutLock<'static>>,
}

fn failure(error: io::Error) -> Failure {
    if error.kind() == io::ErrorKind::BrokenPipe {
        Failure::Closed
    } else {
        Failure::Message(format!("standard output: {error}"))
    }
}

impl Output {
    pub fn new() -> Output {
        Output {
            out: BufWriter::with_capacity(1 << 16, io::stdout().lock()),
        }
    }

    /// Writes with `write`, and fails if that does.
    pub fn put(
        &mut self,
        write: impl FnOnce(&mut BufWriter<StdoutLock<'static>>) -> io::Result<()>,
    ) -> Result<(), Failure> {
        write(&mut self.out).map_err(failure)
    }

    /// Writes out what is still held back.
    pub fn finish(mut self) -> Result<(), Failure> {
        self.out.flush().map_err(failure)
    }

    /// Prints the line of a refusal, and gives the failure that says it in words.
    pub fn refuse(mut self, refused: Refused) -> Failure {
        let Refused { number, record, .. } = refused;
        let printed = self
            .put(|out| writeln!(out, "refused {number} {record}"))
            .and_then(|()| self.finish());
        match printed {
            Ok(()) => Failure::Message(refused.to_string()),
            Err(failure) => failure,
        }
    }

    /// The failure of a count or of a listing.
    pub fn fail(self, error: Error) -> Failure {
        match error {
            Error::Refused(refused) => self.refuse(refused),
            _ => match self.finish() {
                Ok(()) => Failure::Message(error.to_string()),
                Err(failure) => failure,
            },
        }
    }
}
