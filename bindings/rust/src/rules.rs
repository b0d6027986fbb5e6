//! Rules files that the library accepted.

use crate::call::{buffer, outcome};
use crate::error::{Error, Refused};
use crate::ffi;
use crate::pages::{Pages, PassedRows, Verdicts};
use crate::verdict::Counts;

/// Which engine goes through the combinations.
#[derive(Clone, Copy, Debug, Default, PartialEq, Eq, Hash)]
pub enum Engine {
    /// Leaves out combinations that single constraints on a field or maps between fields rule out.
    #[default]
    Structural,
    /// Goes through all combinations.
    Exhaustive,
}

impl Engine {
    pub(crate) fn number(self) -> u8 {
        match self {
            Engine::Structural => ffi::STRUCTURAL,
            Engine::Exhaustive => ffi::EXHAUSTIVE,
        }
    }
}

/// The bytes of a rules file that [`Rules::new`] accepted.
#[derive(Clone, Debug, PartialEq, Eq, Hash)]
pub struct Rules {
    bytes: Vec<u8>,
    fields: usize,
    constraints: usize,
    total: usize,
    scratch: usize,
}

impl Rules {
    /// Judges a rules file.
    ///
    /// # Errors
    ///
    /// Refusals 1 to 10.
    ///
    /// ```
    /// use rule_enumerator::{text, Rules};
    ///
    /// let rules = Rules::new(text::assemble("field 0 range 0 10 step 5\nsum")?)?;
    /// assert_eq!(rules.total(), 3);
    ///
    /// let refused = Rules::new(text::assemble("field 0 range 1 4 step 5\nsum")?).unwrap_err();
    /// assert_eq!((refused.number, refused.record), (8, 1));
    /// # Ok::<(), Box<dyn std::error::Error>>(())
    /// ```
    pub fn new(bytes: impl Into<Vec<u8>>) -> Result<Rules, Refused> {
        let bytes = bytes.into();
        let mut answer = [0; ffi::ANSWER];
        outcome(ffi::validate(&bytes, &mut answer), &answer)?;
        let [fields, constraints, total, scratch] = answer;
        Ok(Rules {
            bytes,
            fields,
            constraints,
            total,
            scratch,
        })
    }

    /// How many fields there are.
    pub fn fields(&self) -> usize {
        self.fields
    }

    /// How many constraints there are.
    pub fn constraints(&self) -> usize {
        self.constraints
    }

    /// The product of the domain lengths; 0 without fields.
    pub fn total(&self) -> usize {
        self.total
    }

    /// How many numbers of scratch an engine needs: the sum of the domain lengths. While a count
    /// or an iterator runs, it holds as many.
    pub fn scratch(&self) -> usize {
        self.scratch
    }

    /// The bytes of the file.
    pub fn as_bytes(&self) -> &[u8] {
        &self.bytes
    }

    /// Counts the verdicts.
    ///
    /// # Errors
    ///
    /// Refusals 12 and 13, and [`Error::OutOfMemory`] for the scratch.
    ///
    /// ```
    /// use rule_enumerator::{text, Engine, Rules};
    ///
    /// let rules = Rules::new(text::assemble("field 0 range 0 9\neven 0\nsum")?)?;
    /// let counts = rules.count(Engine::Structural)?;
    /// assert_eq!((counts.total, counts.passed, counts.failed), (10, 5, 5));
    /// # Ok::<(), Box<dyn std::error::Error>>(())
    /// ```
    pub fn count(&self, engine: Engine) -> Result<Counts, Error> {
        let mut scratch = buffer(self.scratch)?;
        let mut answer = [0; ffi::ANSWER];
        let status = ffi::count(engine.number(), &self.bytes, &mut scratch, &mut answer);
        outcome(status, &answer)?;
        let [total, emitted, passed, failed] = answer;
        Ok(Counts {
            total,
            emitted,
            passed,
            failed,
        })
    }

    /// Counts the verdicts page by page, and gives `progress` how many there were so far. The
    /// counts are those of [`Rules::count`]; it takes longer.
    ///
    /// # Errors
    ///
    /// As [`Rules::count`].
    pub fn count_by_pages(
        &self,
        engine: Engine,
        mut progress: impl FnMut(usize),
    ) -> Result<Counts, Error> {
        let mut pages = Pages::new(self, engine);
        let mut emitted = 0;
        let mut passed = 0;
        while pages.advance()? {
            emitted += pages.len();
            passed += pages.passed();
            progress(emitted);
        }
        Ok(Counts {
            total: self.total,
            emitted,
            passed,
            failed: self.total - passed,
        })
    }

    /// The verdicts in the order of the engine.
    ///
    /// The items are errors for refusals 12 and 13 and for [`Error::OutOfMemory`]. An error is the
    /// last item.
    ///
    /// ```
    /// use rule_enumerator::{text, Engine, Rules};
    ///
    /// let rules = Rules::new(text::assemble("field 0 range 1 2\nlt 0 2\nsum")?)?;
    /// let mut lines = Vec::new();
    /// for verdict in rules.verdicts(Engine::Exhaustive) {
    ///     lines.push(verdict?.to_string());
    /// }
    /// assert_eq!(lines, ["P 0 1 1", "F 2 - 2"]);
    /// # Ok::<(), Box<dyn std::error::Error>>(())
    /// ```
    pub fn verdicts(&self, engine: Engine) -> Verdicts<'_> {
        Verdicts::new(Pages::new(self, engine))
    }

    /// The values of the passed verdicts, in the order of the engine and with repeats.
    ///
    /// The items are errors as for [`Rules::verdicts`].
    ///
    /// ```
    /// use rule_enumerator::{text, Engine, Rules};
    ///
    /// let rules = Rules::new(text::assemble("field 0 range 0 4\neven 0\nsum")?)?;
    /// let rows: Vec<Vec<i64>> = rules.passed_rows(Engine::Structural).collect::<Result<_, _>>()?;
    /// assert_eq!(rows, [[0], [2], [4]]);
    /// # Ok::<(), Box<dyn std::error::Error>>(())
    /// ```
    pub fn passed_rows(&self, engine: Engine) -> PassedRows<'_> {
        PassedRows::new(self.verdicts(engine))
    }
}

impl AsRef<[u8]> for Rules {
    fn as_ref(&self) -> &[u8] {
        &self.bytes
    }
}

/// Joins two rules files, each closed by a sum. It takes [`Rules`] or bytes.
///
/// The verdicts of the joined file are, for each of the first's in order, each of the second's.
///
/// # Errors
///
/// Refusals 1 to 10 and 16 of either file; 5, 1 and 10 of the joined file;
/// [`Error::OutOfMemory`] for the joined file.
///
/// ```
/// use rule_enumerator::{join, text, Engine, Rules};
///
/// let first = Rules::new(text::assemble("field 0 range 0 1\nsum")?)?;
/// let second = Rules::new(text::assemble("field 0 range 5 6\nsum")?)?;
/// let joined = join(&first, &second)?;
/// let rows: Vec<Vec<i64>> = joined.passed_rows(Engine::Structural).collect::<Result<_, _>>()?;
/// assert_eq!(rows, [[0, 5], [0, 6], [1, 5], [1, 6]]);
/// # Ok::<(), Box<dyn std::error::Error>>(())
/// ```
pub fn join(first: impl AsRef<[u8]>, second: impl AsRef<[u8]>) -> Result<Rules, Error> {
    let (first, second) = (first.as_ref(), second.as_ref());
    let mut joined = buffer(first.len().saturating_add(second.len()))?;
    let mut answer = [0; ffi::ANSWER];
    let status = ffi::join(first, second, &mut joined, &mut answer);
    outcome(status, &answer)?;
    joined.truncate(answer[0]);
    // The joined file is accepted; this reads its shape.
    Ok(Rules::new(joined)?)
}
