//! compare BIN WORK --seed N --files N: the proved programs in BIN against the original.
//! compare BIN WORK --seed N --sample FOLDER N: a sample of the original's answers.
//! compare BIN WORK --file FILE: one file, and what the original says of it.

mod coverage;
mod examine;
mod programs;
mod sample;
mod shrink;

use common::generate::{Aim, Focus, DENSE, LARGE, SMALL, USUAL, WIDE};
use common::random::Random;
use common::{faults, generate, oracle, reading, record};
use coverage::Coverage;
use examine::{examine, examine_join, Tally, ENGINES};
use programs::Programs;
use std::path::Path;
use std::process::exit;

/// With so many files nothing may be left uncovered.
const ENOUGH: usize = 5_000;

struct Run {
    programs: Programs,
    tally: Tally,
    coverage: Coverage,
    files: usize,
    products: usize,
}

impl Run {
    fn one(&mut self, what: &str, file: &[u8]) {
        self.files += 1;
        let said = examine(&self.programs, file, &mut self.tally, &mut self.coverage);
        if let Err(text) = said {
            println!("DIFFERENCE ({what}): {text}");
            let mut differs = |f: &[u8]| {
                let (mut tally, mut coverage) = (Tally::default(), Coverage::new());
                examine(&self.programs, f, &mut tally, &mut coverage).is_err()
            };
            let least = shrink::shrink(file, &mut differs);
            let again = examine(&self.programs, &least, &mut self.tally, &mut self.coverage);
            println!("smallest: {}", again.unwrap_err());
            println!(
                "kind, a, b, p, q, r of its records:\n{}",
                record::show(&least)
            );
            self.stop(&[&least]);
        }
    }

    fn pair(&mut self, first: &[u8], second: &[u8]) {
        self.files += 2;
        let (tally, coverage) = (&mut self.tally, &mut self.coverage);
        let said = examine_join(&self.programs, first, second, tally, coverage);
        match said {
            Ok(n) => self.products += n,
            Err(text) => {
                println!("DIFFERENCE (join): {text}");
                let (first, second) = self.least_pair(first, second);
                println!("first:\n{}", record::show(&first));
                println!("second:\n{}", record::show(&second));
                self.stop(&[&first, &second]);
            }
        }
    }

    fn least_pair(&self, first: &[u8], second: &[u8]) -> (Vec<u8>, Vec<u8>) {
        let differs = |a: &[u8], b: &[u8]| {
            let (mut tally, mut coverage) = (Tally::default(), Coverage::new());
            examine_join(&self.programs, a, b, &mut tally, &mut coverage).is_err()
        };
        let first = shrink::shrink(first, &mut |f| differs(f, second));
        let second = shrink::shrink(second, &mut |f| differs(&first, f));
        (first, second)
    }

    /// Keeps the files that show a difference, and ends.
    fn stop(&self, files: &[&[u8]]) -> ! {
        for (i, f) in files.iter().enumerate() {
            let path = self.programs.work.join(format!("smallest.{i}.rules"));
            std::fs::write(&path, f).expect("cannot write");
            println!("kept in {}", path.display());
        }
        exit(1);
    }
}

fn aim(random: &mut Random) -> Aim {
    let focus = random.pick(&[Focus::None, Focus::None, Focus::Maps, Focus::Enables]);
    let size = match random.below(40) {
        0 | 1 => LARGE,
        2 => WIDE,
        3 => DENSE,
        4..=10 => SMALL,
        _ => USUAL,
    };
    Aim { focus, ..size }
}

fn compare(run: &mut Run, seed: u64, files: usize) {
    let mut random = Random::new(seed);
    let edges = faults::boundaries();
    println!("boundaries: {} files", edges.len());
    for file in &edges {
        run.one("boundary", file);
    }
    println!("accepted: {files} files");
    for _ in 0..files {
        let aim = aim(&mut random);
        let file = generate::accepted(&mut random, aim);
        run.one("accepted", &file);
    }
    let each = (files / 100).max(5);
    println!("refused: {each} files for each number from 1 to 13");
    for number in 1..=13 {
        for _ in 0..each {
            let file = faults::refused(&mut random, number);
            run.one("refused", &file);
        }
    }
    let damaged = files / 4;
    println!("damaged: {damaged} copies");
    for _ in 0..damaged {
        let aim = aim(&mut random);
        let whole = generate::accepted(&mut random, aim);
        let file = faults::damaged(&mut random, &whole);
        run.one("damaged", &file);
    }
    let pairs = files / 10;
    println!("joins: {pairs} pairs closed by sums, {} others", pairs / 4);
    for (first, second) in faults::joins() {
        run.pair(&first, &second);
    }
    for i in 0..pairs + pairs / 4 {
        let sum = Aim { sum: true, ..SMALL };
        let mut first = generate::accepted(&mut random, sum);
        let mut second = generate::accepted(&mut random, sum);
        if i >= pairs {
            match random.below(4) {
                0 => first = faults::damaged(&mut random, &first),
                1 => second = faults::damaged(&mut random, &second),
                2 => first = generate::accepted(&mut random, SMALL),
                _ => second = generate::accepted(&mut random, SMALL),
            }
        }
        run.pair(&first, &second);
    }
}

/// What was never met.
fn missing(run: &Run) -> Vec<String> {
    let mut all: Vec<String> = Vec::new();
    all.extend(run.coverage.missing().iter().map(|t| t.to_string()));
    for number in 1..=13 {
        if !run.tally.refused.contains_key(&number) {
            all.push(format!("refusal {number}"));
        }
    }
    let joins = ["joined  1", "joined  5", "joined 10", "first 16"];
    for key in joins.iter().chain(&["second 16"]) {
        if !run.tally.unjoined.contains_key(*key) {
            all.push(format!("join refused, {key}"));
        }
    }
    all
}

fn report(run: &Run, files: usize) {
    let tally = &run.tally;
    println!("\nof the files that both engines of both programs listed, so many had:");
    run.coverage.print();
    println!("\nrefused, by number:");
    for (number, n) in &tally.refused {
        println!("{n:8}  {number}");
    }
    println!("\njudged alike by the original's own functions:");
    for (what, n) in &tally.judged {
        println!("{n:8}  {what}");
    }
    println!("\njoins refused, by file and number:");
    for (key, n) in &tally.unjoined {
        println!("{n:8}  {key}");
    }
    println!("\njoined listings that are the product: {}", run.products);
    println!("\nleft out:");
    for (reason, n) in &tally.skipped {
        println!("{n:8}  {reason}");
    }
    println!(
        "\n{} listings equal the original's, {} rows; {} files under both engines",
        tally.listings, tally.rows, tally.both
    );
    let missing = missing(run);
    for thing in &missing {
        println!("NOT COVERED: {thing}");
    }
    if files >= ENOUGH && !missing.is_empty() {
        exit(1);
    }
    if tally.both < files {
        println!("TOO FEW: {} files of {files}", tally.both);
        exit(1);
    }
    println!("compare: {} files, 0 differences", run.files);
}

/// Compares one file, and prints what the original says of it.
fn show(run: &mut Run, file: &[u8]) {
    run.one("file", file);
    match reading::judge(file) {
        Err((number, record)) => println!("refused {number} {record}"),
        Ok(rules) => {
            for (engine, name) in ENGINES {
                println!("{name}\n{}", oracle::list(engine, &rules));
            }
        }
    }
}

fn main() {
    let words: Vec<String> = std::env::args().collect();
    let after = |word: &str, n: usize| {
        let at = words.iter().position(|w| w == word)?;
        words.get(at + n).cloned()
    };
    let number = |word: &str, n: usize, else_: usize| {
        after(word, n).map_or(else_, |w| w.parse().expect("not a number"))
    };
    let seed = number("--seed", 1, 1) as u64;
    let files = number("--files", 1, 5_000);
    if let Some(folder) = after("--sample", 1) {
        let many = number("--sample", 2, 300);
        sample::write(Path::new(&folder), many, seed);
        return;
    }
    // A panic of the original is an answer, not a message.
    std::panic::set_hook(Box::new(|info| {
        let place = info.location().map_or("", |l| l.file());
        if place.contains("compare/src") {
            eprintln!("{info}");
        }
    }));
    let mut run = Run {
        programs: Programs {
            bin: words[1].clone().into(),
            work: words[2].clone().into(),
        },
        tally: Tally::default(),
        coverage: Coverage::new(),
        files: 0,
        products: 0,
    };
    if let Some(path) = after("--file", 1) {
        let file = std::fs::read(path).expect("cannot read the file");
        show(&mut run, &file);
        return;
    }
    println!("seed {seed}");
    compare(&mut run, seed, files);
    report(&run, files);
}
