//! bench: times count and page of the static library, and the original, over the same files.
//! Each (file, engine, side) has a process of its own, so that its peak memory is its own.

mod bench_files;
mod search;

use bench_files::Timed;

use common::reading::Engine;
use common::oracle;
use ev::classification::Classification;
use ev::spec::VerificationSpec;
use ev::verify::classifier::{Classify, NaiveClassifier};
use ev::verify::evaluate::evaluate_structural;
use ev::verify::registry::{ConstraintRegistry, ProjectorRegistry};
use std::hint::black_box;
use std::process::{exit, Command};

#[link(name = "exports", kind = "static")]
extern "C" {
    fn rules_validate(file: *const u8, len: usize, answer: *mut usize, answer_len: usize) -> u8;
    fn rules_count(
        engine: u8,
        file: *const u8,
        len: usize,
        scratch: *mut i64,
        scratch_len: usize,
        answer: *mut usize,
        answer_len: usize,
    ) -> u8;
    fn rules_page(
        engine: u8,
        file: *const u8,
        len: usize,
        scratch: *mut i64,
        scratch_len: usize,
        out: *mut i64,
        out_len: usize,
        start: *const usize,
        start_len: usize,
        answer: *mut usize,
        answer_len: usize,
    ) -> u8;
}

const ENGINES: [(Engine, &str); 2] = [
    (Engine::Structural, "structural"),
    (Engine::Exhaustive, "exhaustive"),
];

/// Time goes by batches of calls, each long enough for the clock.
const BATCH: f64 = 2e6;
/// Enough batches that their median says something, and no more.
const LONG_ENOUGH: f64 = 8e8;
const FEWEST_BATCHES: usize = 3;

#[repr(C)]
struct Time {
    seconds: i64,
    nanoseconds: i64,
}

extern "C" {
    fn clock_gettime(clock: i32, time: *mut Time) -> i32;
}

/// Processor time of this thread, in nanoseconds, so that other work on the machine does not count.
fn now() -> f64 {
    const THREAD_CPUTIME: i32 = 3;
    let mut t = Time {
        seconds: 0,
        nanoseconds: 0,
    };
    let status = unsafe { clock_gettime(THREAD_CPUTIME, &mut t) };
    assert_eq!(status, 0, "no clock");
    t.seconds as f64 * 1e9 + t.nanoseconds as f64
}

/// The median time of a call, after a batch that is not counted.
fn median(mut call: impl FnMut()) -> f64 {
    let start = now();
    let mut calls = 0;
    while calls == 0 || now() - start < BATCH {
        call();
        calls += 1;
    }
    let begin = now();
    let mut times = Vec::new();
    while times.len() < FEWEST_BATCHES || now() - begin < LONG_ENOUGH {
        let start = now();
        for _ in 0..calls {
            call();
        }
        times.push((now() - start) / f64::from(calls));
    }
    times.sort_by(f64::total_cmp);
    times[times.len() / 2]
}

/// The most memory that this process has held, in KiB.
fn peak() -> usize {
    let text = std::fs::read_to_string("/proc/self/status").expect("no /proc");
    let line = text.lines().find(|l| l.starts_with("VmHWM"));
    let digits = line.and_then(|l| l.split_whitespace().nth(1));
    digits.map_or(0, |d| d.parse().unwrap())
}

/// Total, emitted, passed, failed; and nanoseconds for a call.
type Measured = ([usize; 4], f64);

/// Fields, constraints, total, scratch needed.
fn needs(file: &[u8]) -> [usize; 4] {
    let mut needs = [0usize; 4];
    let status = unsafe { rules_validate(file.as_ptr(), file.len(), needs.as_mut_ptr(), 4) };
    assert_eq!(status, 0, "refused: {needs:?}");
    needs
}

fn code(engine: Engine) -> u8 {
    u8::from(engine == Engine::Exhaustive)
}

/// The counts, unless the engine refuses the file.
fn count_once(engine: Engine, file: &[u8], scratch: &mut [i64]) -> Option<[usize; 4]> {
    let file = black_box(file);
    let mut answer = [0usize; 4];
    let status = unsafe {
        rules_count(
            code(engine),
            file.as_ptr(),
            file.len(),
            scratch.as_mut_ptr(),
            scratch.len(),
            answer.as_mut_ptr(),
            answer.len(),
        )
    };
    (status == 0).then_some(black_box(answer))
}

fn counted(engine: Engine, file: &[u8]) -> Measured {
    // Lent as zeros; an accepted count leaves zeros.
    let mut scratch = vec![0i64; needs(file)[3]];
    let mut answer = [0usize; 4];
    let time = median(|| {
        answer = count_once(engine, file, &mut scratch).expect("refused");
    });
    (answer, time)
}

/// All verdicts, a page of 65,536 words after the other; passed ones are counted as a caller would.
fn paged(engine: Engine, file: &[u8]) -> Measured {
    let [fields, _, total, numbers] = needs(file);
    let mut scratch = vec![0i64; numbers];
    let mut out = vec![0i64; 65_536];
    let mut counts = [0usize; 4];
    let engine = code(engine);
    let time = median(|| {
        let file = black_box(file);
        let (mut emitted, mut passed) = (0, 0);
        let mut start: Vec<usize> = Vec::new();
        // How many, whether done, the last tuple.
        let mut answer = [0usize; 34];
        while answer[1] == 0 {
            let status = unsafe {
                rules_page(
                    engine,
                    file.as_ptr(),
                    file.len(),
                    scratch.as_mut_ptr(),
                    scratch.len(),
                    out.as_mut_ptr(),
                    out.len(),
                    start.as_ptr(),
                    start.len(),
                    answer.as_mut_ptr(),
                    answer.len(),
                )
            };
            assert_eq!(status, 0, "refused: {answer:?}");
            emitted += answer[0];
            let rows = out.chunks(fields + 4).take(answer[0]);
            passed += rows.filter(|r| r[0] == 1).count();
            start = answer[2..].to_vec();
        }
        counts = [total, emitted, passed, total - passed];
        black_box(&counts);
    });
    (counts, time)
}

/// The original counts its verdicts.
fn original_once(
    engine: Engine,
    spec: &VerificationSpec,
    constraints: &ConstraintRegistry,
    projectors: &ProjectorRegistry,
) -> [usize; 4] {
    let c: Classification = match engine {
        Engine::Structural => evaluate_structural(spec, constraints, projectors),
        Engine::Exhaustive => NaiveClassifier.classify(spec, constraints, projectors),
    }
    .expect("the original refuses");
    let (passed, failed) = c.counts();
    black_box([c.total, c.verdicts.len(), passed, failed])
}

/// Its registries are made before, and its specification too unless it is read in the call.
fn original(engine: Engine, file: &[u8], read: bool) -> Measured {
    let constraints = ConstraintRegistry::default();
    let projectors = ProjectorRegistry::default();
    let ready = oracle::read(file);
    let mut answer = [0usize; 4];
    let time = median(|| {
        let made = read.then(|| oracle::read(black_box(file)));
        let spec = black_box(made.as_ref().unwrap_or(&ready));
        answer = original_once(engine, spec, &constraints, &projectors);
    });
    (answer, time)
}

/// One measurement, in this process.
fn one(side: &str, engine: &str, name: &str) {
    let timed = bench_files::all();
    let timed = timed.iter().find(|t| t.name == name).expect("no such file");
    let engine = ENGINES.iter().find(|e| e.1 == engine).expect("no engine").0;
    let (answer, time) = match side {
        "count" => counted(engine, &timed.file),
        "page" => paged(engine, &timed.file),
        "read" => original(engine, &timed.file, true),
        _ => original(engine, &timed.file, false),
    };
    let [total, emitted, passed, failed] = answer;
    println!("{total} {emitted} {passed} {failed} {time} {}", peak());
}

struct Said {
    counts: Vec<String>,
    time: f64,
    peak: f64,
}

fn ask(side: &str, engine: &str, name: &str) -> Said {
    let me = std::env::current_exe().expect("no path");
    let out = Command::new(me).args([side, engine, name]).output();
    let out = out.expect("cannot run");
    let text = String::from_utf8_lossy(&out.stdout).into_owned();
    let words: Vec<String> = text.split_whitespace().map(str::to_string).collect();
    if words.len() != 6 {
        println!("{side} {engine} {name}: {} {text}", out.status);
        println!("{}", String::from_utf8_lossy(&out.stderr));
        exit(1);
    }
    Said {
        counts: words[..4].to_vec(),
        time: words[4].parse().unwrap(),
        peak: words[5].parse::<f64>().unwrap() / 1024.0,
    }
}

fn table(only: Option<&str>) {
    println!("| file | what | engine | verdicts | count ns/verdict | page ns/verdict | Rust ns/verdict | Rust : count | Rust : page | Rust reading too : count | count peak MiB | page peak MiB | Rust peak MiB |");
    println!("|---|---|---|---|---|---|---|---|---|---|---|---|---|");
    let wanted = |name: &str| only.is_none_or(|o| o.split(',').any(|n| n == name));
    for t in bench_files::all().iter().filter(|t| wanted(t.name)) {
        for (engine, word) in ENGINES {
            if engine == Engine::Structural || t.exhaustive {
                println!("{}", line(t, word));
            }
        }
    }
}

/// A line of the table; the counts must be the same on all sides.
fn line(t: &Timed, engine: &str) -> String {
    let mut sides = vec![ask("count", engine, t.name), ask("page", engine, t.name)];
    if t.original {
        sides.push(ask("original", engine, t.name));
        sides.push(ask("read", engine, t.name));
    }
    if sides.iter().any(|s| s.counts != sides[0].counts) {
        let all: Vec<_> = sides.iter().map(|s| &s.counts).collect();
        println!("{} {engine}: the counts differ: {all:?}", t.name);
        exit(1);
    }
    let emitted: f64 = sides[0].counts[1].parse().unwrap();
    let column = |of: &dyn Fn(&Said) -> f64| -> String {
        let mut cells = String::new();
        for side in 0..3 {
            match sides.get(side) {
                Some(s) => cells += &format!(" {:.1} |", of(s)),
                None => cells += " |",
            }
        }
        cells
    };
    let ratio = |rust: usize, side: usize| match sides.get(rust) {
        Some(rust) => format!(" {:.2} |", rust.time / sides[side].time),
        None => " |".to_string(),
    };
    format!(
        "| {} | {} | {engine} | {emitted} |{}{}{}{}{}",
        t.name,
        t.what,
        column(&|s| s.time / emitted),
        ratio(2, 0),
        ratio(2, 1),
        ratio(3, 0),
        column(&|s| s.peak)
    )
}

fn main() {
    let words: Vec<String> = std::env::args().skip(1).collect();
    match &words[..] {
        [option, names] if option == "--only" => table(Some(names)),
        [option, seconds, seed @ ..] if option == "--search" => {
            let seed = seed.first().map_or(1, |s| s.parse().expect("a seed"));
            search::search(seconds.parse().expect("seconds"), seed)
        }
        [side, engine, name] => one(side, engine, name),
        _ => table(None),
    }
}
