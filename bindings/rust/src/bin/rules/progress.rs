//! How far a long count or listing is.

use std::io::{self, IsTerminal, Write};
use std::time::{Duration, Instant};

/// From this total on it is said how far a run is.
const LONG: usize = 10_000_000;

/// The time between two lines.
const PAUSE: Duration = Duration::from_millis(250);

/// The time is asked for once in so many rows.
const STRIDE: usize = 4096;

/// A line on standard error, written anew from time to time and erased in the end.
pub struct Progress {
    total: usize,
    next: Instant,
    shown: bool,
}

impl Progress {
    /// None for a short run, and where standard error is no terminal.
    pub fn new(total: usize) -> Option<Progress> {
        let wanted = total >= LONG && io::stderr().is_terminal();
        wanted.then(|| Progress {
            total,
            next: Instant::now() + PAUSE,
            shown: false,
        })
    }

    /// None where standard output is a terminal too, because its lines would be mixed with it.
    pub fn beside_output(total: usize) -> Option<Progress> {
        if io::stdout().is_terminal() {
            None
        } else {
            Progress::new(total)
        }
    }

    /// Says that this many rows are done, if it is time to.
    pub fn at(&mut self, rows: usize) {
        let now = Instant::now();
        if now < self.next {
            return;
        }
        self.next = now + PAUSE;
        self.shown = true;
        // A run does not fail because this line cannot be written.
        let _ = write!(
            io::stderr(),
            "\r{rows} rows of at most {}\x1b[K",
            self.total
        );
    }

    /// As `at`, for a call at each row.
    pub fn at_row(&mut self, rows: usize) {
        if rows.is_multiple_of(STRIDE) {
            self.at(rows);
        }
    }
}

impl Drop for Progress {
    fn drop(&mut self) {
        if self.shown {
            let _ = write!(io::stderr(), "\r\x1b[K");
        }
    }
}
