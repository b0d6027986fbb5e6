//! A sample of small accepted files with the original's answers.

use crate::coverage::Coverage;
use crate::examine::ENGINES;
use common::generate::{self, Aim, Focus, SMALL};
use common::random::Random;
use common::reading::Engine;
use common::{oracle, reading};
use std::collections::BTreeSet;
use std::fs;
use std::path::Path;

const MOST_RECORDS: usize = 25;
const MOST_TOTAL: u128 = 60;

/// A listing as the program `replay` prints it: the original knows no places, 0 stands for each.
fn replayed(listing: &str) -> String {
    let row = |line: &str| match line.split_once(' ') {
        Some((letter @ ("P" | "F"), rest)) => format!("{letter} 0 {rest}\n"),
        _ => format!("{line}\n"),
    };
    listing.lines().map(row).collect()
}

/// Writes what the program `replay` is run on: `data/NNN.rules`, their names in `args`, and in
/// `stdout` for each file its name, then for each engine its name and the original's listing.
pub fn write(folder: &Path, many: usize, seed: u64) {
    let data = folder.join("data");
    fs::create_dir_all(&data).expect("cannot make the folder");
    let mut random = Random::new(seed);
    let mut seen = BTreeSet::new();
    let mut names = String::new();
    let mut answers = String::new();
    let mut coverage = Coverage::new();
    while seen.len() < many {
        let focus = random.pick(&[Focus::None, Focus::None, Focus::Maps, Focus::Enables]);
        let file = generate::accepted(&mut random, Aim { focus, ..SMALL });
        let rules = reading::judge(&file).expect("not accepted");
        let small = file.len() <= 32 * MOST_RECORDS && rules.total <= MOST_TOTAL;
        if !small || oracle::walked(&rules) > 100_000 || !seen.insert(file.clone()) {
            continue;
        }
        let name = format!("{:03}.rules", seen.len() - 1);
        fs::write(data.join(&name), &file).expect("cannot write");
        names += &format!("{name}\n");
        answers += &format!("file {name}\n");
        let list = |engine| rules.list(engine, usize::MAX).expect("no listing");
        let lists = [list(Engine::Structural), list(Engine::Exhaustive)];
        coverage.note(&file, &rules, &lists[0], &lists[1]);
        for (engine, word) in ENGINES {
            answers += &format!("{word}\n{}", replayed(&oracle::list(engine, &rules)));
        }
    }
    fs::write(folder.join("args"), &names).expect("cannot write");
    fs::write(folder.join("stdout"), &answers).expect("cannot write");
    for thing in coverage.missing() {
        println!("not in the sample: {thing}");
    }
    println!("{many} files and {} bytes of answers", answers.len());
}
