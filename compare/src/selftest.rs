//! selftest SRC OUT BIN: whether the comparison finds programs that are wrong in one thing.
//! SRC has these sources, OUT the built driver, BIN the proved programs.

use std::fs;
use std::path::Path;
use std::process::{exit, Command};

/// What is wrong, the words of the second reading that are changed, and to what.
const WRONG: [(&str, &str, &str); 17] = [
    ("nothing", "Some(rows)", "Some(rows)"),
    (
        "the first map onto a child is kept",
        "kept.insert(usize::from(c.head.b), c);",
        "kept.entry(usize::from(c.head.b)).or_insert(c);",
    ),
    (
        "a filter that keeps none empties the list",
        "filtered(&list, c).unwrap_or(list)",
        "filtered(&list, c).unwrap_or_default()",
    ),
    (
        "raw values are checked",
        "self.place(&values)",
        "self.place(&raw)",
    ),
    (
        "repeated rows are dropped",
        "Some(rows)",
        "Some({ rows.dedup(); rows })",
    ),
    (
        "exhaustive forces in file order",
        "of(ENABLE_MASK).chain(of(ENABLE_SET)).collect()",
        "self.enables(Engine::Structural)",
    ),
    (
        "fields go in number order",
        "self.order()?,",
        "(0..n).collect::<Vec<_>>(),",
    ),
    (
        "parity is the remainder",
        "value().rem_euclid(2)",
        "value() % 2",
    ),
    (
        "an axis without radix takes all off",
        "let mut digit = left;",
        "let mut digit = left; if axis.p == 0 { left = 0; }",
    ),
    (
        "a digit that is too wide is cut",
        "if digit >= 1 << axis.a {",
        "digit &= (1 << axis.a) - 1; if digit < 0 {",
    ),
    (
        "bitmask looks at the magnitude",
        "v & h.p == h.q",
        "v.abs() & h.p == h.q",
    ),
    (
        "a trigger is looked at for each member",
        "row[usize::from(m.a)] = if",
        "if row[usize::from(e.head.a)] != e.head.p { break; } row[usize::from(m.a)] = if",
    ),
    (
        "form 0 is checked against 0..255",
        "form == 0 || (head.p <= v && v <= head.q)",
        "if form == 0 { v >= 0 && v <= 255 } else { head.p <= v && v <= head.q }",
    ),
    (
        "a key without a pair is no key",
        "c.members.iter().any(|m| m.p == parent)",
        "c.members.iter().any(|m| m.kind == PAIR && m.p == parent)",
    ),
    ("lt is le", "LT => v < h.p", "LT => v <= h.p"),
    (
        "listed values are sorted",
        "return field.members.iter().map(|m| m.p).collect();",
        "let l: BTreeSet<i64> = field.members.iter().map(|m| m.p).collect(); return l.into_iter().collect();",
    ),
    (
        "a total of 1,000,000,000 is refused",
        "MOST_TOTAL: u128 = 1_000_000_000",
        "MOST_TOTAL: u128 = 999_999_999",
    ),
];

fn build(source: &Path, work: &Path, from: &str, to: &str) {
    let text = fs::read_to_string(source.join("reading.rs")).expect("no second reading");
    assert_eq!(text.matches(from).count(), 1, "not there once: {from}");
    fs::write(work.join("reading.rs"), text.replace(from, to)).expect("cannot write");
    for name in ["record.rs", "wrong.rs"] {
        fs::copy(source.join(name), work.join(name)).expect("cannot copy");
    }
    let built = Command::new("rustc")
        .args(["--edition", "2021", "-O", "--cap-lints", "allow", "-o"])
        .args([work.join("wrong"), work.join("wrong.rs")])
        .status();
    assert!(built.is_ok_and(|s| s.success()), "cannot build");
}

fn main() {
    let words: Vec<String> = std::env::args().collect();
    let [_, source, out, bin] = &words[..] else {
        panic!("selftest SRC OUT BIN");
    };
    let work = Path::new(out).join("wrong-programs");
    let programs = work.join("bin");
    fs::create_dir_all(&programs).expect("cannot make a folder");
    for name in ["validate", "join_files"] {
        fs::copy(Path::new(bin).join(name), programs.join(name)).expect("cannot copy");
    }
    let mut missed = 0;
    for (what, from, to) in WRONG {
        build(Path::new(source), &work, from, to);
        for name in ["structural", "exhaustive"] {
            fs::copy(work.join("wrong"), programs.join(name)).expect("cannot copy");
        }
        let run = Command::new(Path::new(out).join("compare"))
            .args([&programs, &work])
            .args(["--files", "1000"])
            .output()
            .expect("cannot run");
        let text = String::from_utf8_lossy(&run.stdout);
        let found = text.lines().find(|l| l.starts_with("smallest"));
        let right = found.is_some() != (what == "nothing");
        missed += usize::from(!right);
        let mark = if right { "" } else { "MISSED: " };
        println!("{mark}{what}: {}", found.unwrap_or("no difference"));
    }
    println!("selftest: {} programs, {missed} missed", WRONG.len());
    exit(i32::from(missed > 0));
}
