//! The subcommands.

use std::ffi::OsStr;
use std::fs;
use std::io::{self, Read, Write};
use std::str;

use rule_enumerator::text::{self, Unreadable};
use rule_enumerator::{join, Counts, Engine, Error, Rules};

use crate::arguments::Call;
use crate::list::list;
use crate::output::{Failure, Output};
use crate::progress::Progress;

/// A failure about a file.
fn about(name: &OsStr, what: impl std::fmt::Display) -> Failure {
    let name = if name == "-" {
        "standard input".into()
    } else {
        name.to_string_lossy()
    };
    Failure::Message(format!("{name}: {what}"))
}

/// Reads a file, or standard input for `-`.
fn read(name: &OsStr) -> Result<Vec<u8>, Failure> {
    let bytes = if name == "-" {
        let mut bytes = Vec::new();
        io::stdin().lock().read_to_end(&mut bytes).map(|_| bytes)
    } else {
        fs::read(name)
    };
    bytes.map_err(|error| about(name, error))
}

/// Writes a file, or standard output for `-`.
fn write(name: &OsStr, bytes: &[u8]) -> Result<(), Failure> {
    if name == "-" {
        let mut out = Output::new();
        out.put(|out| out.write_all(bytes))?;
        out.finish()
    } else {
        fs::write(name, bytes).map_err(|error| about(name, error))
    }
}

/// Reads and judges a rules file. A refusal is printed.
fn read_rules(name: &OsStr) -> Result<Rules, Failure> {
    Rules::new(read(name)?).map_err(|refused| Output::new().refuse(refused))
}

fn as_text(bytes: &[u8]) -> Result<&str, Unreadable> {
    str::from_utf8(bytes).map_err(|error| {
        let at = error.valid_up_to();
        Unreadable {
            line: 1 + bytes[..at].iter().filter(|byte| **byte == b'\n').count(),
            expected: String::from("UTF-8"),
            found: Some(format!("byte {:#04x}", bytes[at])),
        }
    })
}

fn assemble(name: &OsStr, output: &OsStr) -> Result<(), Failure> {
    let text = read(name)?;
    let file = as_text(&text)
        .and_then(text::assemble)
        .map_err(|unreadable| about(name, unreadable))?;
    write(output, &file)
}

fn show(name: &OsStr, numbers: bool) -> Result<(), Failure> {
    let file = read(name)?;
    let lines = text::lines(&file).map_err(|refused| about(name, refused))?;
    let mut out = Output::new();
    for (i, line) in lines.iter().enumerate() {
        out.put(|out| {
            if numbers {
                writeln!(out, "{line}  # {}", i + 1)
            } else {
                writeln!(out, "{line}")
            }
        })?;
    }
    out.finish()
}

fn check(name: &OsStr) -> Result<(), Failure> {
    let rules = read_rules(name)?;
    let mut out = Output::new();
    out.put(|out| writeln!(out, "accepted {}", rules.total()))?;
    out.finish()
}

/// Counts in one call, or by pages where it is said how far it is.
fn counts(rules: &Rules, engine: Engine) -> Result<Counts, Error> {
    match Progress::new(rules.total()) {
        Some(mut progress) => rules.count_by_pages(engine, |rows| progress.at(rows)),
        None => rules.count(engine),
    }
}

fn count(name: &OsStr, engine: Engine) -> Result<(), Failure> {
    let rules = read_rules(name)?;
    let mut out = Output::new();
    let counts = match counts(&rules, engine) {
        Ok(counts) => counts,
        Err(error) => return Err(out.fail(error)),
    };
    out.put(|out| {
        writeln!(out, "total {}", counts.total)?;
        writeln!(out, "emitted {}", counts.emitted)?;
        writeln!(out, "passed {}", counts.passed)?;
        writeln!(out, "failed {}", counts.failed)
    })?;
    out.finish()
}

fn join_files(first: &OsStr, second: &OsStr, output: &OsStr) -> Result<(), Failure> {
    let joined =
        join(read(first)?, read(second)?).map_err(|error| Failure::Message(error.to_string()))?;
    write(output, joined.as_bytes())
}

/// Does what the command line asks for.
pub fn perform(call: Call) -> Result<(), Failure> {
    match call {
        Call::Print(words) => write(OsStr::new("-"), words.as_bytes()),
        Call::Assemble { text, output } => assemble(&text, &output),
        Call::Show { file, numbers } => show(&file, numbers),
        Call::Check { file } => check(&file),
        Call::Count { file, engine } => count(&file, engine),
        Call::List { file, options } => list(&read_rules(&file)?, &options),
        Call::Join {
            files: [first, second],
            output,
        } => join_files(&first, &second, &output),
    }
}
