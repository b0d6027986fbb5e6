//! An engine's program made from the second reading; selftest builds it with one thing wrong.
//! It takes its engine from the name that it is run by.

mod reading;
mod record;

use reading::{judge, Engine};
use std::io::Read;

fn main() {
    let mut file = Vec::new();
    std::io::stdin().read_to_end(&mut file).expect("no input");
    let name = std::env::args().next().unwrap_or_default();
    let engine = if name.ends_with("structural") {
        Engine::Structural
    } else {
        Engine::Exhaustive
    };
    let listing = judge(&file).and_then(|rules| match rules.refuses(engine) {
        Some(r) => Err(r),
        None => Ok(rules.list(engine, usize::MAX).expect("no listing")),
    });
    match listing {
        Ok(listing) => print!("{}", listing.print()),
        Err((number, record)) => println!("refused {number} {record}"),
    }
}
