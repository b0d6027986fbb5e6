//! A listing, page by page.

use std::fmt;
use std::iter::FusedIterator;
use std::slice::ChunksExact;

use crate::call::{buffer, outcome};
use crate::error::Error;
use crate::ffi;
use crate::rules::{Engine, Rules};
use crate::verdict::{flag, Verdict};

/// The fewest and the most words of a page, where its size is not chosen.
const FEWEST: usize = 1 << 16;
const MOST: usize = 1 << 22;

/// The pages of a listing, one at a time.
pub struct Pages<'a> {
    rules: &'a Rules,
    engine: Engine,
    size: usize,
    scratch: Vec<i64>,
    out: Vec<i64>,
    /// The tuple after which the next page starts; empty for the beginning.
    start: Vec<usize>,
    /// The last page was read, or an error was given.
    ended: bool,
    /// How many verdicts the present page has.
    len: usize,
    /// How many verdicts the pages had so far.
    read: usize,
}

impl<'a> Pages<'a> {
    /// No memory is taken before the first page.
    ///
    /// Each page lays the engine's lists anew, so a page is the longer the more scratch there is.
    pub fn new(rules: &'a Rules, engine: Engine) -> Pages<'a> {
        let words = rules.scratch().clamp(FEWEST, MOST);
        Pages {
            rules,
            engine,
            size: words / (rules.fields() + ffi::ROW),
            scratch: Vec::new(),
            out: Vec::new(),
            start: Vec::new(),
            ended: false,
            len: 0,
            read: 0,
        }
    }

    /// The words of a verdict.
    fn width(&self) -> usize {
        self.rules.fields() + ffi::ROW
    }

    /// How many verdicts the present page has.
    pub fn len(&self) -> usize {
        self.len
    }

    /// Goes to the next page, which has a verdict or more; false after the last page and after an
    /// error.
    pub fn advance(&mut self) -> Result<bool, Error> {
        self.len = 0;
        if !self.ended {
            // Stays so if there is an error.
            self.ended = true;
            self.read_page()?;
        }
        Ok(self.len > 0)
    }

    fn read_page(&mut self) -> Result<(), Error> {
        // No listing has more verdicts than the total, so this does not overflow.
        let out_len = self.size.min(self.rules.total()) * self.width();
        if self.scratch.len() != self.rules.scratch() {
            self.scratch = buffer(self.rules.scratch())?;
        }
        if self.out.len() != out_len {
            self.out = buffer(out_len)?;
        }
        let mut answer = [0; ffi::PAGE_ANSWER];
        let status = ffi::page(
            self.engine.number(),
            self.rules.as_bytes(),
            &mut self.scratch,
            &mut self.out,
            &self.start,
            &mut answer,
        );
        outcome(status, &answer)?;
        self.take(answer);
        Ok(())
    }

    /// Takes an accepted page. With an answer that the contract excludes, rows would be lost or
    /// repeated.
    fn take(&mut self, answer: [usize; ffi::PAGE_ANSWER]) {
        let [len, done, tuple @ ..] = answer;
        assert!(
            len <= self.out.len() / self.width(),
            "libexports wrote {len} verdicts, which do not fit"
        );
        self.ended = match done {
            0 if len > 0 => false,
            1 => true,
            _ => panic!("libexports wrote {len} verdicts and gave done as {done}"),
        };
        self.start = tuple.to_vec();
        self.len = len;
        self.read += len;
        assert!(
            self.read <= self.rules.total(),
            "libexports wrote more verdicts than the total"
        );
    }

    fn rows(&self) -> ChunksExact<'_, i64> {
        let width = self.width();
        self.out[..self.len * width].chunks_exact(width)
    }

    /// How many verdicts of the present page passed.
    pub fn passed(&self) -> usize {
        self.rows().filter(|row| flag(row[0])).count()
    }

    /// A verdict of the present page.
    fn verdict(&self, row: usize) -> Verdict {
        let width = self.width();
        Verdict::from_words(&self.out[row * width..(row + 1) * width])
    }
}

/// The buffers can be long, and are left out.
impl fmt::Debug for Pages<'_> {
    fn fmt(&self, f: &mut fmt::Formatter<'_>) -> fmt::Result {
        f.debug_struct("Pages")
            .field("engine", &self.engine)
            .field("size", &self.size)
            .field("read", &self.read)
            .field("ended", &self.ended)
            .finish_non_exhaustive()
    }
}

/// The verdicts of a listing, from [`Rules::verdicts`].
#[derive(Debug)]
#[must_use = "iterators do nothing until they are read"]
pub struct Verdicts<'a> {
    pages: Pages<'a>,
    row: usize,
}

impl<'a> Verdicts<'a> {
    pub(crate) fn new(pages: Pages<'a>) -> Verdicts<'a> {
        Verdicts { pages, row: 0 }
    }

    /// Sets how many verdicts are asked for at a time, from the next page on.
    ///
    /// The verdicts are the same for every size but 0, which is refusal 14 where there are fields.
    pub fn page_size(mut self, verdicts: usize) -> Verdicts<'a> {
        self.pages.size = verdicts;
        self
    }
}

impl Iterator for Verdicts<'_> {
    type Item = Result<Verdict, Error>;

    fn next(&mut self) -> Option<Self::Item> {
        if self.row == self.pages.len() {
            self.row = 0;
            match self.pages.advance() {
                Ok(true) => {}
                Ok(false) => return None,
                Err(error) => return Some(Err(error)),
            }
        }
        let verdict = self.pages.verdict(self.row);
        self.row += 1;
        Some(Ok(verdict))
    }
}

impl FusedIterator for Verdicts<'_> {}

/// The values of the passed verdicts, from [`Rules::passed_rows`].
#[derive(Debug)]
#[must_use = "iterators do nothing until they are read"]
pub struct PassedRows<'a> {
    verdicts: Verdicts<'a>,
}

impl<'a> PassedRows<'a> {
    pub(crate) fn new(verdicts: Verdicts<'a>) -> PassedRows<'a> {
        PassedRows { verdicts }
    }
}

impl Iterator for PassedRows<'_> {
    type Item = Result<Vec<i64>, Error>;

    fn next(&mut self) -> Option<Self::Item> {
        loop {
            match self.verdicts.next()? {
                Ok(verdict) if verdict.passed => return Some(Ok(verdict.values)),
                Ok(_) => {}
                Err(error) => return Some(Err(error)),
            }
        }
    }
}

impl FusedIterator for PassedRows<'_> {}
