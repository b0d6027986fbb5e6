//! What the tests share. Each test file uses a part of it.
#![allow(dead_code)]

use std::fs;
use std::path::{Path, PathBuf};

use rule_enumerator::{text, Engine, Rules};

pub const ENGINES: [Engine; 2] = [Engine::Structural, Engine::Exhaustive];

/// The example of `docs/FORMAT.md`.
pub const BENCH: &str = "
field 0 listed
  value 0
  value 1
  value 2
field 1 range 0 2
cross 0 1
  pair 1 2
enable_mask 0 2
  disable 1
lt 1 2
sum
";

/// The root of the repository.
pub fn root() -> PathBuf {
    Path::new(env!("CARGO_MANIFEST_DIR")).join("../..")
}

/// The bytes of a text form.
pub fn bytes(text: &str) -> Vec<u8> {
    text::assemble(text).unwrap()
}

/// The rules of a text form that is accepted.
pub fn rules(text: &str) -> Rules {
    Rules::new(bytes(text)).unwrap()
}

/// The lines of the verdicts.
pub fn listing(rules: &Rules, engine: Engine) -> Vec<String> {
    rules
        .verdicts(engine)
        .map(|verdict| verdict.unwrap().to_string())
        .collect()
}

/// The files with an ending in a folder, in the order of their names.
pub fn files(folder: &Path, ending: &str) -> Vec<PathBuf> {
    let mut files: Vec<PathBuf> = fs::read_dir(folder)
        .unwrap()
        .map(|entry| entry.unwrap().path())
        .filter(|path| path.extension().is_some_and(|found| found == ending))
        .collect();
    files.sort();
    assert!(!files.is_empty());
    files
}

/// Numbers that look random and are the same in each run.
pub struct Random(u64);

impl Random {
    pub fn new(seed: u64) -> Random {
        Random(seed.wrapping_mul(2) + 1)
    }

    pub fn next(&mut self) -> u64 {
        self.0 ^= self.0 << 13;
        self.0 ^= self.0 >> 7;
        self.0 ^= self.0 << 17;
        self.0.wrapping_mul(0x2545_F491_4F6C_DD1D)
    }

    pub fn below(&mut self, bound: u64) -> u64 {
        (self.next() >> 32) % bound
    }

    pub fn byte(&mut self) -> u8 {
        self.next().to_le_bytes()[5]
    }
}

/// A constraint on fields below `fields`, with its members.
fn constraint(random: &mut Random, fields: u64) -> String {
    let a = random.below(fields);
    let b = random.below(fields);
    let p = random.below(4);
    let q = random.below(4);
    match random.below(10) {
        0 => format!("range {a} {p} {q}\n"),
        1 => format!("even {a}\n"),
        2 => format!("neq {a} {b}\n"),
        3 => format!("lt {a} {p}\n"),
        4 => format!("ge {a} {p}\n"),
        5 => format!("oneof {a}\nitem {p}\nitem {q}\n"),
        6 => format!("cross {a} {b}\npair {p} {q}\npair {q} {p}\n"),
        7 => format!("enable_mask {a} {p}\ndisable {b}\n"),
        8 => format!("enable_set {a} {p}\nassign {b} {q}\n"),
        _ => format!("bitmask {a} {p} {q}\n"),
    }
}

/// A small file closed by a sum. An engine may refuse it with 12 or 13.
pub fn small_file(random: &mut Random) -> Rules {
    let fields = 1 + random.below(3);
    let mut text = String::new();
    for field in 0..fields {
        text += &match random.below(3) {
            0 => format!("field {field} range 0 {}\n", random.below(4)),
            1 => format!("field {field} range -4 4 step 2\n"),
            _ => format!("field {field} listed\nvalue 1\nvalue {}\n", random.below(3)),
        };
    }
    for _ in 0..random.below(4) {
        text += &constraint(random, fields);
    }
    rules(&(text + "sum\n"))
}
