//! The files that are timed.

use common::record::*;

pub struct Timed {
    pub name: &'static str,
    pub what: &'static str,
    pub file: Vec<u8>,
    /// Whether the original can hold the verdicts.
    pub original: bool,
    /// Whether exhaustive is timed.
    pub exhaustive: bool,
}

#[derive(Default)]
struct Maker(Vec<Record>);

impl Maker {
    fn put(&mut self, kind: u8, a: u8, b: u8, p: i64, q: i64) {
        self.0.push(record(kind, a, b, p, q, 0));
    }

    fn ranges(lengths: &[i64]) -> Maker {
        let mut m = Maker::default();
        for (f, n) in lengths.iter().enumerate() {
            m.put(FIELD, f as u8, 1, 0, n - 1);
        }
        m
    }

    /// Fields that list so many multiples of a number each.
    fn listed(lengths: &[i64], of: i64) -> Maker {
        let mut m = Maker::default();
        for (f, n) in lengths.iter().enumerate() {
            m.put(FIELD, f as u8, 2, 0, 0);
            for i in 0..*n {
                m.put(VALUE, f as u8, 0, i * of, 0);
            }
        }
        m
    }

    /// A map: each of so many keys has so many children, spread over the child's list.
    fn map(&mut self, a: u8, b: u8, keys: i64, each: i64, children: i64, of: i64) {
        self.put(CROSS, a, b, 0, 0);
        for k in 0..keys {
            for i in 0..each {
                let child = (k * 7 + i * children / each) % children;
                self.put(PAIR, 0, 0, k * of, child * of);
            }
        }
    }

    fn sum(mut self) -> Vec<u8> {
        self.put(SUM, 0, 0, 0, 0);
        write(&self.0)
    }
}

fn plain() -> Vec<u8> {
    let mut m = Maker::ranges(&[30, 30, 30, 30]);
    m.put(GE, 0, 0, 1, 0);
    m.put(LT, 1, 0, 29, 0);
    m.put(LE, 2, 0, 28, 0);
    m.put(GT, 3, 0, 0, 0);
    m.put(NEQ, 0, 1, 0, 0);
    m.put(NEQ, 1, 2, 0, 0);
    m.put(NEQ, 2, 3, 0, 0);
    m.put(EVEN, 0, 0, 0, 0);
    m.put(LT, 0, 0, 28, 0);
    m.put(GE, 1, 0, 2, 0);
    m.put(NEQ, 0, 3, 0, 0);
    m.put(LE, 3, 0, 27, 0);
    m.sum()
}

fn enables() -> Vec<u8> {
    let mut m = Maker::ranges(&[10, 10, 10, 10, 10]);
    for i in 0..50u8 {
        m.put(ENABLE_MASK, i % 5, 0, i64::from(i / 5), 0);
        m.put(DISABLE, (i + 1) % 5, 0, 0, 0);
        m.put(ENABLE_SET, (i + 2) % 5, 0, i64::from(i / 5), 0);
        m.put(ASSIGN, (i + 3) % 5, 0, i64::from(i % 10), 0);
    }
    m.sum()
}

fn decompose() -> Vec<u8> {
    let mut m = Maker::default();
    m.put(FIELD, 0, 1, 0xac00, 0xd7a3);
    m.put(FIELD, 1, 1, 0, 39);
    m.put(DECOMPOSE, 0, 0, 0xac00, 15);
    m.put(AXIS, 5, 0, 28, 0);
    m.put(AXIS, 5, 5, 21, 0);
    m.put(AXIS, 5, 10, 0, 0);
    write(&m.0)
}

pub fn all() -> Vec<Timed> {
    let timed = |name, what, file| Timed {
        name,
        what,
        file,
        original: true,
        exhaustive: true,
    };
    let map40 = {
        let mut m = Maker::ranges(&[20, 20, 50, 50]);
        m.map(0, 1, 20, 2, 20, 1);
        m.sum()
    };
    let map800 = {
        let mut m = Maker::listed(&[50, 200, 100], 1);
        m.map(0, 1, 50, 16, 200, 1);
        m.sum()
    };
    let fastest = {
        let mut m = Maker::listed(&[50, 100, 200], 1);
        m.map(0, 2, 50, 16, 200, 1);
        m.sum()
    };
    let one_key = {
        let mut m = Maker::ranges(&[10, 1600, 10]);
        m.map(0, 1, 1, 800, 1600, 1);
        m.sum()
    };
    let multiples = {
        let mut m = Maker::listed(&[50, 200, 100], 4096);
        m.map(0, 1, 50, 16, 200, 4096);
        m.sum()
    };
    let one_key_fastest = {
        let mut m = Maker::ranges(&[10, 10, 1600]);
        m.map(0, 2, 1, 800, 1600, 1);
        m.sum()
    };
    let multiples_fastest = {
        let mut m = Maker::listed(&[50, 100, 200], 4096);
        m.map(0, 2, 50, 16, 200, 4096);
        m.sum()
    };
    let large_table = {
        let mut m = Maker::ranges(&[10, 300, 300]);
        m.map(1, 2, 200, 4, 300, 1);
        m.sum()
    };
    let no_room = {
        let mut m = Maker::ranges(&[600, 600]);
        m.map(0, 1, 200, 4, 600, 1);
        m.sum()
    };
    let items = |values: i64, many: i64| {
        let mut m = Maker::ranges(&[values]);
        m.put(ONEOF, 0, 0, 0, 0);
        for i in 0..many {
            m.put(ITEM, 0, 0, i * (values / many), 0);
        }
        m.sum()
    };
    let parents = {
        let mut m = Maker::ranges(&[800, 20]);
        m.map(0, 1, 130, 13, 20, 1);
        m.sum()
    };
    let axes = {
        let mut m = Maker::ranges(&[100_000]);
        m.put(DECOMPOSE, 0, 0, 0, -1);
        for i in 0..12 {
            m.put(AXIS, 2, 2 * i, 3, 0);
        }
        write(&m.0)
    };
    let one_left = {
        let mut m = Maker::listed(&[1000], 1);
        m.put(RANGE, 0, 0, 0, 0);
        m.sum()
    };
    // So many parents, the first of which are keys; the child's values are listed from the highest down.
    let falling = |keys: i64, parents: i64, each: i64, children: i64| {
        let mut m = Maker::ranges(&[parents]);
        m.put(FIELD, 1, 2, 0, 0);
        for value in (0..children).rev() {
            m.put(VALUE, 1, 0, value, 0);
        }
        m.map(0, 1, keys, each, children, 1);
        m.sum()
    };
    let large = {
        let mut m = Maker::ranges(&[100, 100, 100, 100]);
        m.put(NEQ, 0, 1, 0, 0);
        m.put(LT, 2, 0, 90, 0);
        m.sum()
    };
    vec![
        timed("a", "four fields, a dozen plain constraints", plain()),
        timed("b", "a map of 40 pairs", map40),
        timed("c", "a map of 800 pairs, listed fields", map800),
        timed("d", "100 enable records", enables()),
        timed(
            "e",
            "twenty fields of two values",
            Maker::ranges(&[2; 20]).sum(),
        ),
        timed("f", "decompose", decompose()),
        timed("h1", "800 pairs, the child fastest", fastest),
        timed("h2", "one key with 800 pairs", one_key),
        timed("h3", "800 pairs, all multiples of 4096", multiples),
        timed("h4", "h2 with the child fastest", one_key_fastest),
        timed("h5", "h3 with the child fastest", multiples_fastest),
        timed("h6", "800 pairs, a table of 90,000 cells", large_table),
        timed("h7", "800 pairs, no room for a table", no_room),
        timed("h8", "130 keys of 13 pairs, 800 parents", parents),
        timed(
            "j",
            "a oneof of 1,000 items on 10,000 values",
            items(10_000, 1000),
        ),
        timed(
            "j2",
            "a oneof of 14 items on 300,000 values",
            items(300_000, 14),
        ),
        timed("k", "decompose with twelve axes", axes),
        timed(
            "i",
            "one verdict, the whole call",
            Maker::ranges(&[1]).sum(),
        ),
        timed("l", "1,000 listed values, one is left", one_left),
        timed(
            "m1",
            "a table of 70,000 cells, falling values",
            falling(100, 100, 10, 700),
        ),
        timed(
            "m2",
            "a table of 90,000 cells, falling values",
            falling(100, 300, 8, 300),
        ),
        timed(
            "m3",
            "no room for a table, 600 falling values",
            falling(500, 500, 2, 600),
        ),
        Timed {
            name: "g",
            what: "a total of 10^8",
            file: large,
            original: false,
            exhaustive: false,
        },
    ]
}
