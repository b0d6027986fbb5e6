//! The command `rules`.

#![forbid(unsafe_code)]

mod arguments;
mod command;
mod help;
mod list;
mod output;
mod progress;

use std::env;
use std::io::{self, Write};
use std::process::ExitCode;

/// Says what went wrong. Where standard error cannot be written, the exit status still says it.
fn tell(message: &str) {
    let _ = writeln!(io::stderr(), "rules: {message}");
}

fn main() -> ExitCode {
    let call = match arguments::read(env::args_os().skip(1)) {
        Ok(call) => call,
        Err(wrong) => {
            tell(&format!("{wrong}; `rules --help` says how to call it"));
            return ExitCode::from(2);
        }
    };
    match command::perform(call) {
        Ok(()) => ExitCode::SUCCESS,
        Err(failure) => {
            if let Some(message) = failure.message() {
                tell(message);
            }
            ExitCode::FAILURE
        }
    }
}
