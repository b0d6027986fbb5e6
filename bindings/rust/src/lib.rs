//! The rule enumerator.
//!
//! A rules file describes integer fields, constraints on them, and one number to compute. The
//! enumerator goes through the combinations of field values in a fixed order. For each it says
//! whether it passed, which check failed first, the number and the values; and it counts them.
//! `docs/FORMAT.md` describes the file and the refusals.
//!
//! The engines are proved, and stand in `libexports.a`. This crate lends them memory, goes from
//! page to page and turns their answers into Rust values.
//!
//! ```
//! use rule_enumerator::{text, Engine, Rules};
//!
//! let file = text::assemble(
//!     "field 0 range 0 1   # 0 technician, 1 pathologist
//!      field 1 range 0 1   # 0 read, 1 relabel
//!      cross 0 1           # a technician may only read
//!        pair 0 0
//!      sum",
//! )?;
//! let rules = Rules::new(file)?;
//! let rows: Vec<Vec<i64>> = rules.passed_rows(Engine::Structural).collect::<Result<_, _>>()?;
//! assert_eq!(rows, [[0, 0], [1, 0], [1, 1]]);
//! # Ok::<(), Box<dyn std::error::Error>>(())
//! ```
//!
//! A row that was skipped looks just like a row that the rules forbid. So the iterators yield a
//! [`Result`] for each row, and an error ends them: a listing is whole only if no item is an
//! error. Collect into a `Result`, as above, or use `?` on each item; `flatten`, `skip` and the
//! like would drop the error.
//!
//! # Panics
//!
//! The functions of this crate panic if the linked library answers what its contract excludes,
//! which means that another library was linked. They do not panic for any file.

#![deny(unsafe_code)]
#![warn(missing_docs)]

mod call;
mod error;
pub mod ffi;
mod pages;
mod rules;
pub mod text;
mod verdict;

pub use error::{Error, File, Refused};
pub use pages::{PassedRows, Verdicts};
pub use rules::{join, Engine, Rules};
pub use verdict::{Counts, Verdict};
