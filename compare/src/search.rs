//! bench --search: random files, plainer and longer than those of the comparison, to find such as take longer than in the original.

use crate::{count_once, needs, original_once, ENGINES};
use common::random::Random;
use common::reading::Engine;
use common::record::*;
use common::{oracle, reading};
use ev::verify::registry::{ConstraintRegistry, ProjectorRegistry};
use std::time::Instant;

/// How many rows a file may have without maps, where it does not say otherwise.
const ROWS: usize = 1_000_000;
/// No engine is tried on more verdicts than this: they are what such a call spends its time on, and the table times them.
const VERDICTS: usize = 100_000;
/// So often is a file timed again on which the original seems faster.
const ROUNDS: usize = 8;
/// What a file may have left for members.
const RECORDS: usize = 2_000;

struct Maker {
    random: Random,
    records: Vec<Record>,
    values: Vec<Vec<i64>>,
    what: String,
}

impl Maker {
    fn put(&mut self, kind: u8, a: usize, b: usize, p: i64, q: i64) {
        self.records.push(record(kind, a as u8, b as u8, p, q, 0));
    }

    fn room(&self) -> usize {
        RECORDS.saturating_sub(self.records.len())
    }

    /// A number up to n; a short one is as likely as a long one.
    fn up_to(&mut self, n: usize) -> usize {
        let share = self.random.below(1001) as f64 / 1000.0;
        (n as f64).powf(share).round() as usize
    }

    /// A range, or so many listed values that rise, fall or lie in no order: multiples of one number, or numbers far apart.
    fn field(&mut self, length: usize) {
        let f = self.values.len();
        let form = self.random.below(4);
        let mut values: Vec<i64> = (0..length as i64).collect();
        if form == 0 || length > self.room() / 2 {
            self.put(FIELD, f, 1, 0, length as i64 - 1);
            self.what += &format!("range {length}; ");
        } else {
            let step = [1, 1, 1_000, 65_536][self.random.below(4)];
            let far = self.random.chance(20);
            for v in &mut values {
                *v = if far {
                    (*v << 40) + self.random.below(1 << 40) as i64
                } else {
                    *v * step
                };
            }
            match form {
                1 => {}
                2 => values.reverse(),
                _ => self.random.shuffle(&mut values),
            }
            self.put(FIELD, f, 2, 0, 0);
            for v in &values {
                self.put(VALUE, f, 0, *v, 0);
            }
            let order = ["", "rising", "falling", "mixed"][form];
            let apart = if far { ", far apart" } else { "" };
            self.what += &format!("{length} {order}{apart}; ");
        }
        self.values.push(values);
    }

    fn value(&mut self, f: usize) -> i64 {
        let k = self.random.below(self.values[f].len());
        self.values[f][k]
    }

    fn map(&mut self, parent: usize, child: usize) {
        let most = self.room() / 2;
        if most < 2 {
            return;
        }
        let pairs = self.up_to(most);
        let many = self.values[parent].len().min(pairs);
        let keys = if self.random.chance(50) {
            many
        } else {
            self.up_to(many)
        };
        let each = (pairs / keys).max(1);
        self.put(CROSS, parent, child, 0, 0);
        let mut of = self.values[parent].clone();
        if self.random.chance(50) {
            self.random.shuffle(&mut of);
        }
        let said = [0, 0, 20, 100][self.random.below(4)];
        let mut members = Vec::new();
        for key in of.into_iter().take(keys) {
            if self.random.chance(said) && members.len() < most {
                members.push((key, 0, KEY));
            }
            for _ in 0..each {
                members.push((key, self.value(child), PAIR));
            }
        }
        match self.random.below(3) {
            0 => self.random.shuffle(&mut members),
            1 => members.sort(),
            _ => {}
        }
        for (p, q, kind) in members {
            self.put(kind, 0, 0, p, q);
        }
        self.what += &format!(
            "map {parent} to {child}, {keys} keys of {each}, {said} % of them said; "
        );
    }

    fn oneof(&mut self, f: usize) {
        let most = self.values[f].len().min(self.room() / 2);
        if most == 0 {
            return;
        }
        let items = self.up_to(most);
        self.put(ONEOF, f, 0, 0, 0);
        for _ in 0..items {
            let v = self.value(f);
            self.put(ITEM, 0, 0, v, 0);
        }
        self.what += &format!("oneof on {f} of {items}; ");
    }

    fn constraint(&mut self) {
        let n = self.values.len();
        let (a, b) = (self.random.below(n), self.random.below(n));
        let (v, w) = (self.value(a), self.value(b));
        match self.random.below(10) {
            0 => self.put(RANGE, a, 0, v.min(9), v.max(9)),
            1 => self.put(LT, a, 0, v, 0),
            2 => self.put(GE, a, 0, v, 0),
            3 => self.put(NEQ, a, b, 0, 0),
            4 => self.put(EVEN, a, 0, 0, 0),
            5 => self.put(BITMASK, a, 0, v, 0),
            6 => {
                self.put(ENABLE_MASK, a, 0, v, 0);
                self.put(DISABLE, b, 0, 0, 0);
            }
            7 => {
                self.put(ENABLE_SET, a, 0, v, 0);
                self.put(ASSIGN, b, 0, w, 0);
            }
            8 => return self.oneof(a),
            _ if a != b => return self.map(a, b),
            _ => return,
        }
        let kind = self.records.last().map_or(0, |r| r.kind);
        self.what += &format!("{kind} on {a}; ");
    }
}

/// A file of any constraints.
fn any(m: &mut Maker) {
    let fields = 1 + m.random.below(4);
    let mut rows = m.up_to(ROWS);
    for _ in 0..fields {
        let length = m.up_to(rows.min(300_000));
        rows /= length;
        m.field(length);
    }
    let constraints = m.random.below(6);
    for _ in 0..constraints {
        m.constraint();
    }
}

/// A map from the last field but one to the last, of whose child values some, or all but one of each key, are not in the child's list.
fn last_map(m: &mut Maker) {
    let child = m.values.len() - 1;
    let parent = child - 1;
    let (parents, children) = (m.values[parent].len(), m.values[child].len());
    let keys = m.up_to(parents.min(m.room()));
    let each = m.up_to(m.room() / keys);
    let foreign = [0, 50, 90, 100][m.random.below(4)];
    let width = [2, 20, 100_000, 1 << 40][m.random.below(4)];
    let mut members = Vec::new();
    for key in m.values[parent].clone().into_iter().take(keys) {
        let one = m.value(child);
        members.push((key, one));
        for _ in 1..each {
            let mut other = m.value(child);
            if m.random.chance(foreign) {
                other += (1 + m.random.below(width)) as i64 * children as i64;
            }
            members.push((key, other));
        }
    }
    match m.random.below(4) {
        0 => m.random.shuffle(&mut members),
        1 => members.sort(),
        2 => members.reverse(),
        _ => {}
    }
    m.put(CROSS, parent, child, 0, 0);
    for (p, q) in members {
        m.put(PAIR, 0, 0, p, q);
    }
    m.what += &format!("map, {keys} keys of {each}, {foreign} % not in the list; ");
}

/// A file of such a map and no field before its parent.
fn one_map(m: &mut Maker) {
    let rows = m.up_to(ROWS / 10);
    let parents = m.up_to(rows.min(1_000));
    m.field(parents);
    m.field((rows / parents).min(1_000));
    last_map(m);
}

/// A file of such a map, for each value of a field before its parent.
fn under_field(m: &mut Maker) {
    let rows = m.up_to(ROWS);
    let lead = m.up_to(rows.min(3_000));
    m.field(lead);
    let rows = rows / lead;
    let parents = m.up_to(rows.min(600));
    m.field(parents);
    m.field((rows / parents).min(600));
    last_map(m);
}

/// A file of two fields and of constraints that force values, in the list or not.
fn forced(m: &mut Maker) {
    let rows = m.up_to(ROWS / 10);
    let length = m.up_to(rows.min(1_500));
    m.field(length);
    m.field((rows / length).min(400));
    let many = 1 + m.up_to(60);
    for _ in 0..many {
        let (a, b) = (m.random.below(2), m.random.below(2));
        let (v, mut w) = (m.value(a), m.value(b));
        if m.random.chance(30) {
            w += 1;
        }
        if m.random.chance(50) {
            m.put(ENABLE_MASK, a, 0, v, 0);
            m.put(DISABLE, b, 0, 0, 0);
        } else {
            m.put(ENABLE_SET, a, 0, v, 0);
            m.put(ASSIGN, b, 0, w, 0);
        }
    }
    m.what += &format!("{many} enables; ");
}

/// A file of a field, most often a long range, that a few filters narrow.
fn filters(m: &mut Maker) {
    let length = m.up_to(ROWS);
    m.field(length);
    let many = 1 + m.random.below(4);
    for _ in 0..many {
        let (v, width) = (m.value(0), m.up_to(length) as i64);
        match m.random.below(4) {
            0 => m.put(BITMASK, 0, 0, v, 0),
            1 => m.put(LT, 0, 0, v, 0),
            _ => m.put(RANGE, 0, 0, v, v + width),
        }
    }
    m.what += &format!("{many} filters; ");
}

/// A file of up to three fields, most often of many listed values, that filters narrow to few.
fn few_left(m: &mut Maker) {
    let fields = 1 + m.random.below(3);
    for f in 0..fields {
        let length = 100 + m.random.below(1_800 / fields);
        m.field(length);
        let many = 1 + m.random.below(2);
        for _ in 0..many {
            let (v, width) = (m.value(f), m.up_to(10) as i64);
            let mask = (1 << m.random.below(40)) - 1;
            match m.random.below(4) {
                0 => m.put(BITMASK, f, 0, mask, v & mask),
                1 => {
                    m.put(ONEOF, f, 0, 0, 0);
                    for _ in 0..width {
                        let v = m.value(f);
                        m.put(ITEM, 0, 0, v, 0);
                    }
                    m.what += &format!("oneof of {width}; ");
                }
                _ => m.put(RANGE, f, 0, v, v + width),
            }
        }
    }
}

/// A file of few rows and many constraints.
fn few(m: &mut Maker) {
    let fields = 1 + m.random.below(8);
    for _ in 0..fields {
        let length = 1 + m.random.below(2);
        m.field(length);
    }
    let most = m.up_to(200);
    for _ in 0..most {
        m.constraint();
    }
}

/// A file of many short fields and many constraints.
fn many(m: &mut Maker) {
    let fields = 5 + m.random.below(28);
    let mut rows = 1;
    for _ in 0..fields {
        let length = 1 + m.random.below(6);
        let fits = rows * length <= VERDICTS;
        rows *= if fits { length } else { 1 };
        m.field(if fits { length } else { 1 });
    }
    let most = m.up_to(200);
    for _ in 0..most {
        m.constraint();
    }
}

/// A file of one or two fields under several oneofs.
fn oneofs(m: &mut Maker) {
    let rows = m.up_to(ROWS);
    let length = m.up_to(rows);
    m.field(length);
    m.field((rows / length).min(1_000));
    let many = 1 + m.random.below(4);
    for _ in 0..many {
        let f = m.random.below(2);
        m.oneof(f);
    }
}

/// A file of three fields and two maps; one of the fields may be a long range.
fn two_maps(m: &mut Maker) {
    let mut rows = m.up_to(ROWS / 10);
    let long = m.random.below(4);
    for f in 0..3 {
        let length = m.up_to(rows.min(600));
        if f == long {
            m.field(length * 500);
        } else {
            rows /= length;
            m.field(length);
        }
    }
    let maps = [
        [(0, 1), (1, 2)],
        [(0, 2), (1, 2)],
        [(2, 1), (1, 0)],
        [(0, 1), (0, 2)],
    ];
    for (parent, child) in maps[m.random.below(4)] {
        m.map(parent, child);
    }
}

/// A member for the list of a head; of a map, a key with this chance.
fn member(m: &mut Maker, head: u8, keys: usize) -> Record {
    let (f, v, w) = (m.random.below(2) as u8, m.value(0), m.value(1));
    match head {
        ONEOF => record(ITEM, 0, 0, v, 0, 0),
        ENABLE_MASK => record(DISABLE, f, 0, 0, 0, 0),
        ENABLE_SET => record(ASSIGN, f, 0, w, 0, 0),
        _ if m.random.chance(keys) => record(KEY, 0, 0, v, 0, 0),
        _ => record(PAIR, 0, 0, v, w, 0),
    }
}

/// A file of few rows and of one or two lists that say the same many times.
fn repeats(m: &mut Maker) {
    let rows = m.up_to(200);
    let length = m.up_to(rows);
    m.field(length);
    m.field(rows / length);
    let lists = 1 + m.random.below(2);
    for _ in 0..lists {
        let many = m.up_to(1_700 / lists);
        let distinct = m.up_to(many);
        let v = m.value(0);
        let head = [ONEOF, CROSS, ENABLE_MASK, ENABLE_SET][m.random.below(4)];
        match head {
            ONEOF => m.put(head, 0, 0, 0, 0),
            CROSS => m.put(head, 0, 1, 0, 0),
            _ => m.put(head, 0, 0, v, 0),
        }
        let keys = [0, 50, 100][m.random.below(3)];
        let members: Vec<Record> = (0..distinct).map(|_| member(m, head, keys)).collect();
        for _ in 0..many {
            let k = m.random.below(distinct);
            m.records.push(members[k]);
        }
        m.what += &format!("kind {head}, {many} members, {distinct} distinct; ");
    }
}

type Make = fn(&mut Maker);

const KINDS: [(&str, Make); 11] = [
    ("any", any),
    ("one map", one_map),
    ("under a field", under_field),
    ("two maps", two_maps),
    ("forced", forced),
    ("filters", filters),
    ("few left", few_left),
    ("few rows", few),
    ("many fields", many),
    ("oneofs", oneofs),
    ("repeats", repeats),
];

/// A file, what it has, and how many rows there are without constraints.
fn file(make: Make, seed: u64) -> (Vec<u8>, String, usize) {
    let mut m = Maker {
        random: Random::new(seed),
        records: Vec::new(),
        values: Vec::new(),
        what: String::new(),
    };
    make(&mut m);
    m.put(SUM, 0, 0, 0, 0);
    let rows = m.values.iter().map(Vec::len).product();
    (write(&m.records), m.what, rows)
}

/// The shortest of several calls, in nanoseconds.
fn shortest(times: usize, mut call: impl FnMut()) -> f64 {
    let mut best = f64::MAX;
    for _ in 0..times {
        let start = Instant::now();
        call();
        best = best.min(start.elapsed().as_nanos() as f64);
    }
    best
}

/// Tries files for so many seconds. Prints those on which count takes longer than the original does with its reading, and for each kind how many there are, also without its reading and with judging.
pub fn search(seconds: f64, seed: u64) {
    let constraints = ConstraintRegistry::default();
    let projectors = ProjectorRegistry::default();
    let start = Instant::now();
    let mut tried = [0; KINDS.len()];
    // With its specification ready; with its reading; with its reading and judging.
    let mut slower = [[0; 3]; KINDS.len()];
    let mut lowest = [[f64::INFINITY; 3]; KINDS.len()];
    let mut next = seed << 32;
    while start.elapsed().as_secs_f64() < seconds {
        next += 1;
        let kind = next as usize % KINDS.len();
        let (bytes, what, rows) = file(KINDS[kind].1, next);
        if reading::judge(&bytes).is_err() {
            continue;
        }
        let spec = oracle::read(&bytes);
        let mut scratch = vec![0i64; needs(&bytes)[3]];
        for (engine, word) in ENGINES {
            if rows > VERDICTS && engine == Engine::Exhaustive {
                continue;
            }
            let Some(counts) = count_once(engine, &bytes, &mut scratch) else {
                continue;
            };
            if counts[1] > VERDICTS {
                continue;
            }
            // The shortest of so many calls of each: ours, and the original's with its specification ready, with its reading, and with judging too.
            let mut time = |times: usize| {
                let ours = shortest(times, || {
                    count_once(engine, &bytes, &mut scratch);
                });
                let theirs = shortest(times, || {
                    let answer = original_once(engine, &spec, &constraints, &projectors);
                    assert_eq!(answer, counts, "{what}");
                });
                let reading = shortest(times, || {
                    let spec = oracle::read(&bytes);
                    original_once(engine, &spec, &constraints, &projectors);
                });
                let judging = shortest(times, || {
                    let rules = reading::judge(&bytes).expect("refused");
                    let spec = oracle::specification(&rules);
                    original_once(engine, &spec, &constraints, &projectors);
                });
                [ours, theirs, reading, judging]
            };
            tried[kind] += 1;
            let once = time(1);
            if once[1] >= 2.0 * once[0] {
                continue;
            }
            let mut best = time(9);
            // Again where the original seems faster: the machine is not always as fast.
            if best[1] < best[0] {
                for _ in 0..ROUNDS {
                    let more = time(9);
                    best = std::array::from_fn(|k| best[k].min(more[k]));
                }
            }
            let ours = best[0];
            let ratios = [best[1] / ours, best[2] / ours, best[3] / ours];
            for (side, ratio) in ratios.into_iter().enumerate() {
                lowest[kind][side] = lowest[kind][side].min(ratio);
                slower[kind][side] += usize::from(ratio < 1.0);
            }
            if ratios[1] < 1.0 {
                let [plain, read, judged] = ratios;
                println!(
                    "{}: {plain:.2}, with its reading {read:.2}, judging too {judged:.2}, {:.0} us, {word}, {} records, {} verdicts: {what}",
                    KINDS[kind].0,
                    ours / 1e3,
                    bytes.len() / 32,
                    counts[1]
                );
            }
        }
    }
    println!("| files | tried | the original faster | lowest | its reading counted | lowest | its judging too | lowest |");
    println!("|---|---|---|---|---|---|---|---|");
    for (k, (kind, _)) in KINDS.iter().enumerate() {
        let sides = slower[k].iter().zip(lowest[k]);
        let cells: String = sides.map(|(n, low)| format!(" {n} | {low:.2} |")).collect();
        println!("| {kind} | {} |{cells}", tried[k]);
    }
}
