//! `rules list`.

use std::io::{self, Write};

use rule_enumerator::{Counts, Rules, Verdict};

use crate::arguments::List;
use crate::output::{Failure, Output};
use crate::progress::Progress;

fn put_header(out: &mut impl Write, fields: usize) -> io::Result<()> {
    write!(out, "passed,place,projection")?;
    for field in 0..fields {
        write!(out, ",field{field}")?;
    }
    writeln!(out)
}

fn put_csv(out: &mut impl Write, verdict: &Verdict) -> io::Result<()> {
    write!(out, "{},{},", u8::from(verdict.passed), verdict.place)?;
    if let Some(projection) = verdict.projection {
        write!(out, "{projection}")?;
    }
    for value in &verdict.values {
        write!(out, ",{value}")?;
    }
    writeln!(out)
}

fn put_verdict(out: &mut impl Write, csv: bool, verdict: &Verdict) -> io::Result<()> {
    if csv {
        put_csv(out, verdict)
    } else {
        writeln!(out, "{verdict}")
    }
}

fn put_end(out: &mut impl Write, csv: bool, counts: &Counts) -> io::Result<()> {
    let line = counts.to_string();
    if csv {
        writeln!(out, "{}", line.replace(' ', ","))
    } else {
        writeln!(out, "{line}")
    }
}

fn put_cut(out: &mut impl Write, csv: bool, rows: usize) -> io::Result<()> {
    let comma = if csv { ',' } else { ' ' };
    writeln!(out, "cut{comma}{rows}")
}

/// How many rows were read, and how many of them passed.
#[derive(Default)]
struct Tally {
    emitted: usize,
    passed: usize,
}

impl Tally {
    fn add(&mut self, verdict: &Verdict) {
        self.emitted += 1;
        self.passed += usize::from(verdict.passed);
    }

    fn agrees(&self, counts: &Counts) -> bool {
        self.emitted == counts.emitted && self.passed == counts.passed
    }
}

/// Lists accepted rules. The end line is printed only if the rows that were read are as many as
/// the library counts.
pub fn list(rules: &Rules, options: &List) -> Result<(), Failure> {
    let mut out = Output::new();
    let mut verdicts = rules.verdicts(options.engine).peekable();
    if let Some(Err(error)) = verdicts.peek() {
        return Err(out.fail(*error));
    }
    if options.csv {
        out.put(|out| put_header(out, rules.fields()))?;
    }
    let mut progress = Progress::beside_output(rules.total());
    let mut tally = Tally::default();
    let mut printed = 0;
    for verdict in verdicts {
        let verdict = match verdict {
            Ok(verdict) => verdict,
            Err(error) => return Err(out.fail(error)),
        };
        tally.add(&verdict);
        if let Some(progress) = &mut progress {
            progress.at_row(tally.emitted);
        }
        if options.passed && !verdict.passed {
            continue;
        }
        if options.limit == Some(printed) {
            out.put(|out| put_cut(out, options.csv, printed))?;
            return out.finish();
        }
        out.put(|out| put_verdict(out, options.csv, &verdict))?;
        printed += 1;
    }
    let counts = match rules.count(options.engine) {
        Ok(counts) => counts,
        Err(error) => return Err(out.fail(error)),
    };
    if !tally.agrees(&counts) {
        out.finish()?;
        return Err(Failure::Message(String::from(
            "the rows are not as many as the library counts",
        )));
    }
    out.put(|out| put_end(out, options.csv, &counts))?;
    out.finish()
}
