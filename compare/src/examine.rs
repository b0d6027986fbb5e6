//! One file, or a pair of them, through all programs.

use crate::coverage::Coverage;
use crate::programs::Programs;
use common::oracle;
use common::reading::{self, Engine, Listing, Refusal, Rules, Which};
use common::record::*;
use std::collections::BTreeMap;

/// More rows than this are not listed.
const MOST_ROWS: usize = 20_000;
/// The original is not asked to walk more numbers of ranges than this.
const MOST_WALKED: i128 = 4_000_000;

pub const ENGINES: [(Engine, &str); 2] = [
    (Engine::Structural, "structural"),
    (Engine::Exhaustive, "exhaustive"),
];

#[derive(Default)]
pub struct Tally {
    /// Listings that equal the original's, and their rows.
    pub listings: usize,
    pub rows: usize,
    /// Files of which both listings equal the original's.
    pub both: usize,
    /// Answers 8 to 10, and totals, that the original's own functions give too.
    pub judged: BTreeMap<&'static str, usize>,
    /// Refusals by number, as the structural program gives them.
    pub refused: BTreeMap<u8, usize>,
    /// Refusals of joins by which file and number.
    pub unjoined: BTreeMap<String, usize>,
    /// Listings that were not made or not compared with the original, by reason.
    pub skipped: BTreeMap<&'static str, usize>,
}

impl Tally {
    fn skip(&mut self, reason: &'static str) {
        *self.skipped.entry(reason).or_default() += 1;
    }
}

fn refusal(r: Refusal) -> String {
    format!("refused {} {}\n", r.0, r.1)
}

/// A listing without its places.
fn unplaced(listing: &str) -> String {
    let mut text = String::new();
    for line in listing.lines() {
        let mut words = line.splitn(3, ' ');
        let first = words.next().unwrap_or("");
        if first == "P" || first == "F" {
            words.next();
            text += &format!("{first} {}\n", words.next().unwrap_or(""));
        } else {
            text += &format!("{line}\n");
        }
    }
    text
}

/// The first line in which two texts differ.
fn differ(what: &str, ours: &str, other: &str, theirs: &str) -> String {
    let (mut a, mut b) = (ours.lines(), theirs.lines());
    let mut line = 0;
    loop {
        line += 1;
        let (x, y) = (a.next(), b.next());
        if x != y || x.is_none() {
            let (x, y) = (x.unwrap_or("(none)"), y.unwrap_or("(none)"));
            return format!("{what}, line {line}: ours `{x}`, {other} `{y}`");
        }
    }
}

fn same(what: &str, ours: &str, other: &str, theirs: &str) -> Result<(), String> {
    if ours == theirs {
        Ok(())
    } else {
        Err(differ(what, ours, other, theirs))
    }
}

/// What the original has of judging: empty domains, bad packings, the total.
fn judged_too(file: &[u8], tally: &mut Tally) -> Result<(), String> {
    let records = read(file);
    let (what, agrees) = match reading::decode(file) {
        Err((8, r)) if records[r - 1].b != 2 => {
            ("8 by `FieldSpec::len`", oracle::is_empty(&records[r - 1]))
        }
        Err((9, r)) => {
            let head = records.iter().position(|r| r.kind == DECOMPOSE).unwrap();
            // The original's offset is a u32, or absent.
            if !(-1..=i64::from(u32::MAX)).contains(&records[head].q) {
                return Ok(());
            }
            let member = |r: &&Record| r.kind == AXIS;
            let axes: Vec<Record> = records[head + 1..]
                .iter()
                .take_while(member)
                .copied()
                .collect();
            let faulted = oracle::bad_axis(&records[head], &axes);
            (
                "9 by `ProjectorSpec::validate`",
                faulted == Some(r - head - 1),
            )
        }
        Ok(rules) => {
            let total = Some(rules.total).filter(|t| *t <= reading::MOST_TOTAL);
            let what = match total {
                Some(_) => "totals by `raw_total_combinations`",
                None => "10 by `raw_total_combinations`",
            };
            (what, oracle::total(&rules) == total)
        }
        _ => return Ok(()),
    };
    if !agrees {
        return Err(format!("{what}: the original says otherwise"));
    }
    *tally.judged.entry(what).or_default() += 1;
    Ok(())
}

/// The expected listing; none where it is too long to make.
fn expected(rules: &Rules, engine: Engine) -> Option<Result<Listing, Refusal>> {
    match rules.refuses(engine) {
        Some(r) => Some(Err(r)),
        None => rules.list(engine, MOST_ROWS).map(Ok),
    }
}

/// Ours against the second reading and, where the file is accepted, against the original.
pub fn examine(
    programs: &Programs,
    file: &[u8],
    tally: &mut Tally,
    coverage: &mut Coverage,
) -> Result<(), String> {
    let judged = reading::judge(file);
    let said = match &judged {
        Ok(rules) => format!("accepted {}\n", rules.total),
        Err(r) => refusal(*r),
    };
    let ours = programs.run("validate", file);
    same("validate", &ours, "the second reading", &said)?;
    judged_too(file, tally)?;
    let rules = match judged {
        Ok(rules) => rules,
        Err(r) => {
            for (_, name) in ENGINES {
                let ours = programs.run(name, file);
                same(name, &ours, "the second reading", &refusal(r))?;
            }
            *tally.refused.entry(r.0).or_default() += 1;
            return Ok(());
        }
    };
    let mut listings = Vec::new();
    for (engine, name) in ENGINES {
        let listing = match expected(&rules, engine) {
            None => {
                tally.skip("more than 20,000 rows, not listed");
                continue;
            }
            Some(Err(r)) => {
                let ours = programs.run(name, file);
                same(name, &ours, "the second reading", &refusal(r))?;
                if engine == Engine::Structural {
                    *tally.refused.entry(r.0).or_default() += 1;
                }
                continue;
            }
            Some(Ok(listing)) => listing,
        };
        let ours = programs.run(name, file);
        if oracle::walked(&rules) > MOST_WALKED {
            tally.skip("ranges too long for the original to walk");
        } else if engine == Engine::Exhaustive && rules.total > MOST_ROWS as u128 {
            tally.skip("a total too large for the original to hold");
        } else {
            let rust = oracle::list(engine, &rules);
            same(name, &unplaced(&ours), "the original", &rust)?;
            tally.listings += 1;
            tally.rows += listing.rows.len();
            listings.push(listing.clone());
        }
        same(name, &ours, "the second reading", &listing.print())?;
    }
    if let [structural, exhaustive] = &listings[..] {
        tally.both += 1;
        coverage.note(file, &rules, structural, exhaustive);
    }
    Ok(())
}

/// Joins two files and checks that the joined listing is the product of theirs.
pub fn examine_join(
    programs: &Programs,
    first: &[u8],
    second: &[u8],
    tally: &mut Tally,
    coverage: &mut Coverage,
) -> Result<usize, String> {
    let joined = programs.join(first, second);
    let wanted = reading::join(first, second);
    let file = match (joined, wanted) {
        (Ok(ours), Ok(theirs)) if ours == theirs => ours,
        (Err(ours), Err((which, number, record))) => {
            let which = match which {
                Which::First => "first",
                Which::Second => "second",
                Which::Joined => "joined",
            };
            let said = format!("refused {which} {number} {record}\n");
            same("join_files", &ours, "the second reading", &said)?;
            let key = format!("{which} {number:2}");
            *tally.unjoined.entry(key).or_default() += 1;
            return Ok(0);
        }
        (ours, theirs) => {
            let ours = ours.map(|f| f.len());
            let theirs = theirs.map(|f| f.len());
            return Err(format!(
                "join_files: ours {ours:?}, the second reading {theirs:?} (lengths), or other bytes"
            ));
        }
    };
    // The joined file is a rules file like any other.
    examine(programs, &file, tally, coverage)?;
    let (a, b) = (reading::judge(first), reading::judge(second));
    let (a, b) = (a.unwrap(), b.unwrap());
    let (n, c, m) = (a.fields.len(), a.constraints.len(), b.fields.len());
    if n == 0 || m == 0 {
        return Ok(0);
    }
    let mut products = 0;
    for (engine, name) in ENGINES {
        let both = [expected(&a, engine), expected(&b, engine)];
        let [Some(Ok(x)), Some(Ok(y))] = both else {
            continue;
        };
        if x.rows.len() * y.rows.len() > MOST_ROWS {
            tally.skip("a product of more than 20,000 rows, not listed");
            continue;
        }
        // The two listings are what the programs print: see `examine`.
        let parts = [programs.run(name, first), programs.run(name, second)];
        same(name, &parts[0], "the second reading", &x.print())?;
        same(name, &parts[1], "the second reading", &y.print())?;
        let ours = programs.run(name, &file);
        if reading::judge(&file).unwrap().lengths_sum() > reading::SCRATCH {
            tally.skip("a joined file that needs more scratch than the programs lend");
            continue;
        }
        let product = reading::product(&x, &y, n, c, m);
        same(name, &ours, "the product", &product.print())?;
        products += 1;
    }
    Ok(products)
}
