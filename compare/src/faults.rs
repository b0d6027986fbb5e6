//! Files that are refused, damaged copies of accepted files, and the boundaries.

use crate::generate::{self, USUAL};
use crate::random::Random;
use crate::reading::{self, Engine};
use crate::record::*;

type Six = (u8, u8, u8, i64, i64, i64);

const SUMMED: Six = (SUM, 0, 0, 0, 0, 0);

pub fn file(records: &[Six]) -> Vec<u8> {
    let each = records.iter().map(|r| record(r.0, r.1, r.2, r.3, r.4, r.5));
    write(&each.collect::<Vec<_>>())
}

/// The number by which the structural program refuses a file; 0 for none.
pub fn number(bytes: &[u8]) -> u8 {
    match reading::judge(bytes) {
        Err((n, _)) => n,
        Ok(rules) => rules.refuses(Engine::Structural).map_or(0, |r| r.0),
    }
}

/// A file that is refused by this number, 1 to 13.
pub fn refused(random: &mut Random, wanted: u8) -> Vec<u8> {
    loop {
        let bytes = tried(random, wanted);
        if number(&bytes) == wanted {
            return bytes;
        }
    }
}

fn tried(random: &mut Random, wanted: u8) -> Vec<u8> {
    if wanted == 13 {
        return generate::any(random, USUAL);
    }
    let mut records = read(&generate::accepted(random, USUAL));
    let at = random.below(records.len());
    let n = records.iter().filter(|r| r.kind == FIELD).count() as u8;
    let heads = records.iter().position(|r| r.kind >= RANGE).unwrap_or(0);
    match wanted {
        1 => {
            let mut bytes = write(&records);
            if random.chance(5) {
                let long = 65_536 + 32 * (1 + random.below(3));
                while bytes.len() < long {
                    bytes.extend_from_within(..32.min(long - bytes.len()));
                }
            } else {
                let cut = 1 + random.below(31);
                bytes.truncate(bytes.len() - cut);
            }
            return bytes;
        }
        2 => {
            if random.chance(50) {
                records[at].kind = random.pick(&[0, 9, 23, 24, 29, 34, 64, 128, 255]);
            } else {
                records[at].b = 3 + random.below(253) as u8;
            }
        }
        3 => match random.below(6) {
            0 => records[at].a = 1,
            1 => records[at].b = 1,
            2 => records[at].p = random.pick(&[1, -1, i64::MIN]),
            3 => records[at].q = random.pick(&[1, -1, i64::MAX]),
            4 => records[at].r = random.pick(&[1, -1, i64::MIN]),
            _ => records[at].rest[random.below(5)] = 1 << random.below(8),
        },
        4 => match random.below(5) {
            0 => {
                records.pop();
            }
            1 => {
                let to = random.below(records.len());
                records.swap(at, to);
            }
            2 => records[at].a = records[at].a.wrapping_add(1),
            3 => {
                let moved = records.remove(at);
                records.push(moved);
            }
            _ => {
                let kind = random.between(2, 33) as u8;
                records.insert(at, record(kind, 0, 0, 0, 0, 0));
            }
        },
        5 => {
            if random.chance(50) {
                for f in n..33 {
                    let field = record(FIELD, f, 1, 0, 0, 0);
                    records.insert(heads.max(usize::from(f)), field);
                }
                records.retain(|r| r.kind <= VALUE || r.kind >= SUM);
                records.sort_by_key(|r| if r.kind > VALUE { 64 } else { r.a });
            } else {
                for _ in 0..257 {
                    records.insert(heads, record(EVEN, 0, 0, 0, 0, 0));
                }
            }
        }
        6 => {
            if random.chance(50) {
                records[at].a = n.wrapping_add(random.below(5) as u8);
            } else {
                records[at].b = n.wrapping_add(random.below(5) as u8);
            }
        }
        7 => {
            let far = random.pick(&[EDGE + 1, -EDGE - 1, i64::MAX, i64::MIN, -1, -7]);
            match random.below(3) {
                0 => records[at].p = far,
                1 => records[at].q = far,
                _ => records[at].r = far,
            }
        }
        8 => match random.below(3) {
            0 => records[at].r = random.between(2, 600),
            1 => records[at].q = records[at].p.saturating_sub(1),
            _ => {
                if records[at].kind == VALUE {
                    records.remove(at);
                }
            }
        },
        9 => {
            while records.last().is_some_and(|r| r.kind < SUM) {
                records.pop();
            }
            records.pop();
            records.push(record(DECOMPOSE, 0, 0, 0, random.between(-3, 66), 0));
            for _ in 0..random.below(4) {
                let (a, b) = (random.below(66) as u8, random.below(66) as u8);
                records.push(record(AXIS, a, b, random.between(-2, 9), 0, 0));
            }
        }
        10 => {
            for r in &mut records {
                if r.kind == FIELD && r.b == 1 {
                    r.q = random.between(0, EDGE);
                }
            }
        }
        11 => {
            for r in &mut records {
                if r.kind == FIELD && r.b == 1 {
                    r.q = r.p.saturating_add(random.between(3000, 5000)).min(EDGE);
                }
            }
        }
        _ => {
            let (a, b) = (random.below(32) as u8, random.below(32) as u8);
            let last = records.iter().rposition(|r| r.kind >= SUM).unwrap();
            records.insert(last, record(CROSS, a, b, 0, 0, 0));
            records.insert(last, record(CROSS, b, a, 0, 0, 0));
        }
    }
    write(&records)
}

/// A copy with one to three faults of storage or editing.
pub fn damaged(random: &mut Random, whole: &[u8]) -> Vec<u8> {
    let mut bytes = whole.to_vec();
    for _ in 0..1 + random.below(3) {
        if bytes.len() < SIZE {
            return bytes;
        }
        let many = bytes.len() / SIZE;
        let at = SIZE * random.below(many);
        match random.below(8) {
            0 => {
                let i = random.below(bytes.len());
                bytes[i] ^= 1 << random.below(8);
            }
            1 => {
                let i = at + random.below(3);
                bytes[i] = random.below(40) as u8;
            }
            2 => {
                let i = at + 8 * (1 + random.below(3));
                let v = random.pick(&[0, 1, -1, 2, 63, 64, EDGE, -EDGE, EDGE + 1, i64::MIN]);
                bytes[i..i + 8].copy_from_slice(&v.to_le_bytes());
            }
            3 => drop(bytes.drain(at..at + SIZE)),
            4 => {
                let copy = bytes[at..at + SIZE].to_vec();
                let to = SIZE * random.below(many + 1);
                bytes.splice(to..to, copy);
            }
            5 => {
                let to = SIZE * random.below(many);
                for i in 0..SIZE {
                    bytes.swap(at + i, to + i);
                }
            }
            6 => {
                let kind = random.between(0, 35) as u8;
                let (a, b) = (random.below(4) as u8, random.below(4) as u8);
                let (p, q) = (random.between(-2, 9), random.between(-2, 9));
                let new = record(kind, a, b, p, q, 0);
                bytes.splice(at..at, write(&[new]));
            }
            _ => {
                let len = if random.chance(80) {
                    SIZE * random.below(many + 1)
                } else {
                    random.below(bytes.len() + 1)
                };
                bytes.truncate(len);
            }
        }
    }
    bytes
}

fn fields(many: u8, form: Six) -> Vec<Six> {
    (0..many)
        .map(|f| (form.0, f, form.2, form.3, form.4, form.5))
        .collect()
}

/// A list of one field with this many values, then these records.
fn listed(values: usize, after: &[Six]) -> Vec<u8> {
    let mut all = vec![(FIELD, 0, 2, 0, 0, 0)];
    for i in 0..values {
        all.push((VALUE, 0, 0, i as i64 % 7, 0, 0));
    }
    all.extend(after);
    file(&all)
}

fn ranges(lengths: &[i64], after: &[Six]) -> Vec<u8> {
    let mut all = Vec::new();
    for (f, n) in lengths.iter().enumerate() {
        all.push((FIELD, f as u8, 1, 1, *n, 0));
    }
    all.extend(after);
    file(&all)
}

fn decomposed(values: &[i64], base: i64, offset: i64, axes: &[(u8, u8, i64)]) -> Vec<u8> {
    let mut all = vec![(FIELD, 0, 2, 0, 0, 0)];
    all.extend(values.iter().map(|v| (VALUE, 0, 0, *v, 0, 0)));
    all.push((DECOMPOSE, 0, 0, base, offset, 0));
    all.extend(axes.iter().map(|x| (AXIS, x.0, x.1, x.2, 0, 0)));
    file(&all)
}

/// The bench cases of document 01.
fn bench() -> Vec<Vec<u8>> {
    let one = |p, q, step| file(&[(FIELD, 0, 1, p, q, step), SUMMED]);
    vec![
        one(-7, 7, 4),
        one(-7, -5, 4),
        file(&[
            (FIELD, 0, 0, 0, 0, 0),
            (ENABLE_SET, 0, 0, 7, 0, 0),
            (ASSIGN, 0, 0, 300, 0, 0),
            SUMMED,
        ]),
        file(&[
            (FIELD, 0, 1, 0, 2, 0),
            (ONEOF, 0, 0, 0, 0, 0),
            (ITEM, 0, 0, 9, 0, 0),
            SUMMED,
        ]),
        file(&[
            (FIELD, 0, 2, 0, 0, 0),
            (VALUE, 0, 0, 5, 0, 0),
            (VALUE, 0, 0, 5, 0, 0),
            SUMMED,
        ]),
        ranges(
            &[2, 3, 2],
            &[(CROSS, 2, 0, 0, 0, 0), (PAIR, 0, 0, 1, 2, 0), SUMMED],
        ),
        ranges(
            &[2, 2],
            &[(CROSS, 0, 1, 0, 0, 0), (CROSS, 1, 0, 0, 0, 0), SUMMED],
        ),
        ranges(
            &[2, 2],
            &[(CROSS, 0, 1, 0, 0, 0), (KEY, 0, 0, 1, 0, 0), SUMMED],
        ),
        ranges(
            &[1, 5, 7],
            &[
                (ENABLE_SET, 0, 0, 1, 0, 0),
                (ASSIGN, 1, 0, 1, 0, 0),
                (ENABLE_MASK, 1, 0, 1, 0, 0),
                (DISABLE, 2, 0, 0, 0, 0),
                SUMMED,
            ],
        ),
        file(&[(FIELD, 0, 1, -3, 3, 0), (PARITY, 0, 0, 0, 0, 0)]),
        decomposed(&[13, 32, 31, 0], 0, -1, &[(2, 3, 4), (3, 0, 0)]),
        ranges(&[1000, 1000, 1000], &[SUMMED]),
        ranges(&[1000, 1000, 1001], &[SUMMED]),
        file(&[SUMMED]),
        file(&[
            (FIELD, 0, 2, 0, 0, 0),
            (VALUE, 0, 0, 0, 0, 0),
            (VALUE, 0, 0, 1, 0, 0),
            (VALUE, 0, 0, 2, 0, 0),
            (FIELD, 1, 1, 0, 2, 0),
            (CROSS, 0, 1, 0, 0, 0),
            (PAIR, 0, 0, 1, 2, 0),
            (ENABLE_MASK, 0, 0, 2, 0, 0),
            (DISABLE, 1, 0, 0, 0, 0),
            (LT, 1, 0, 2, 0, 0),
            SUMMED,
        ]),
    ]
}

/// Limits of numbers, in every kind that has them.
fn scales() -> Vec<Vec<u8>> {
    let mut all = Vec::new();
    for v in [EDGE, EDGE + 1, -EDGE, -EDGE - 1, i64::MAX, i64::MIN, -1] {
        for kind in [RANGE, LT, GT, LE, GE, ENABLE_MASK, BITMASK, ENABLE_SET] {
            all.push(ranges(&[3], &[(kind, 0, 0, v, 0, 0), SUMMED]));
        }
        for kind in [RANGE, BITMASK] {
            all.push(ranges(&[3], &[(kind, 0, 0, 0, v, 0), SUMMED]));
        }
        for (head, kind) in [
            (ONEOF, ITEM),
            (CROSS, PAIR),
            (CROSS, KEY),
            (ENABLE_SET, ASSIGN),
        ] {
            let b = u8::from(head == CROSS);
            all.push(ranges(
                &[3, 3],
                &[(head, 0, b, 0, 0, 0), (kind, 0, 0, v, 0, 0), SUMMED],
            ));
        }
        all.push(ranges(
            &[3, 3],
            &[(CROSS, 0, 1, 0, 0, 0), (PAIR, 0, 0, 1, v, 0), SUMMED],
        ));
        all.push(decomposed(&[1], v, -1, &[(3, 0, 0)]));
        all.push(decomposed(&[1], 0, v, &[(3, 0, 0)]));
        all.push(decomposed(&[1], 0, -1, &[(3, 0, v)]));
        all.push(file(&[(FIELD, 0, 1, v, v, 0), SUMMED]));
        all.push(file(&[(FIELD, 0, 1, v, 0, EDGE), SUMMED]));
        all.push(file(&[(FIELD, 0, 1, 0, v, EDGE), SUMMED]));
        all.push(file(&[(FIELD, 0, 1, 0, 1, v), SUMMED]));
        all.push(file(&[(FIELD, 0, 0, 0, 0, v), SUMMED]));
        all.push(file(&[
            (FIELD, 0, 2, 0, 0, 0),
            (VALUE, 0, 0, v, 0, 0),
            SUMMED,
        ]));
        all.push(file(&[(FIELD, 0, 1, -EDGE, EDGE, 1 << 55), SUMMED]));
    }
    all
}

fn packings() -> Vec<Vec<u8>> {
    let mut all = Vec::new();
    let values = [0, 1, 2, 3, 4, 7, 8, 255, 256, EDGE - 1, EDGE, -1, -EDGE];
    for base in [0, -EDGE, EDGE, 1, -1] {
        for width in [0, 1, 2, 56, 57, 62, 63, 64, 255] {
            for shift in [0, 1, 61, 62, 63, 64] {
                all.push(decomposed(&values, base, -1, &[(width, shift, 0)]));
            }
        }
    }
    for radix in [-1, 0, 1, 2, 3, 4, 5, 8, 9] {
        all.push(decomposed(&values, 0, -1, &[(2, 0, radix), (61, 2, 0)]));
        all.push(decomposed(&values, 0, -1, &[(3, 60, radix), (60, 0, 0)]));
    }
    for offset in [-2, -1, 0, 4, 5, 6, 7, 62, 63, 64, 65] {
        all.push(decomposed(&values, 0, offset, &[(3, 2, 5), (2, 0, 0)]));
        all.push(decomposed(&[0, 1], 0, offset, &[(63, 0, 0)]));
        all.push(decomposed(&[0, 1, 2, 3], 0, offset, &[(2, 3, 0)]));
    }
    for shift in [1, 2, 3, 4, 5] {
        all.push(decomposed(&values, 0, -1, &[(2, 3, 3), (2, shift, 0)]));
    }
    // The greatest projection, and one past it.
    for v in [127, 128] {
        all.push(decomposed(&[v], 0, 56, &[(56, 0, 0)]));
        all.push(decomposed(&[v << 49], 0, 7, &[(7, 0, 128)]));
    }
    all
}

/// Totals, lengths of lists and of files, counts of fields and of constraints.
fn sizes() -> Vec<Vec<u8>> {
    let first = |f: u8| (RANGE, f, 0, 1, 2, 0);
    let narrow = [first(0), first(1), first(2), SUMMED];
    let mut all = vec![
        Vec::new(),
        vec![0],
        vec![1; 31],
        ranges(&[1000, 1000, 1000], &narrow),
        ranges(&[1000, 1000, 1001], &narrow),
        ranges(&[4096], &[first(0), SUMMED]),
        ranges(&[4097], &[first(0), SUMMED]),
        ranges(&[2048, 2048], &[first(0), first(1), SUMMED]),
        ranges(&[2048, 2049], &[first(0), first(1), SUMMED]),
        ranges(&[1_000_000_000], &[SUMMED]),
        ranges(&[1_000_000_001], &[SUMMED]),
        ranges(&[EDGE, EDGE, EDGE], &[SUMMED]),
        listed(2046, &[SUMMED]),
        listed(2047, &[SUMMED]),
        listed(2046, &[(EVEN, 0, 0, 0, 0, 0)]),
        listed(0, &[]),
        listed(0, &[SUMMED]),
        listed(0, &[(99, 0, 0, 0, 0, 0)]),
        listed(0, &[(VALUE, 1, 0, 0, 0, 0), SUMMED]),
        listed(0, &[(ITEM, 0, 0, 0, 0, 0), SUMMED]),
        decomposed(&[1], 0, -1, &[]),
        decomposed(&[1], 0, 64, &[(0, 0, 0)]),
        decomposed(&[1], 0, 64, &[(1, 0, 0)]),
    ];
    for many in [31, 32, 33] {
        let mut form = fields(many, (FIELD, 0, 1, 1, 1, 0));
        form.push((EQ, 0, 30, 0, 0, 0));
        form.push((IDENTITY, 30, 0, 0, 0, 0));
        all.push(file(&form));
    }
    let mut wrong = fields(33, (FIELD, 0, 1, 1, 1, 0));
    wrong[32].1 = 31;
    all.push(file(&wrong));
    for many in [255, 256, 257] {
        let mut form = fields(2, (FIELD, 0, 1, 1, 2, 0));
        form.extend(vec![(LE, 1, 0, 2, 0, 0); many - 1]);
        form.extend([(NEQ, 0, 1, 0, 0, 0), SUMMED]);
        all.push(file(&form));
        let last = form.len() - 2;
        form[last] = (NEQ, 0, 9, 0, 0, 0);
        all.push(file(&form));
    }
    // Twelve fields of two values; every form with one value.
    all.push(ranges(&[2; 12], &[SUMMED]));
    for step in [0, 1, 255, 256, EDGE] {
        all.push(file(&[(FIELD, 0, 0, 0, 0, step), SUMMED]));
    }
    all
}

/// Every kind as the second record, and every kind after each kind of projector.
fn orders() -> Vec<Vec<u8>> {
    let mut all = Vec::new();
    for kind in 0..=36 {
        let any = (kind, 0, 0, 0, 0, 0);
        all.push(file(&[any]));
        all.push(ranges(&[2], &[any, SUMMED]));
        all.push(listed(2, &[any, SUMMED]));
        all.push(listed(0, &[any, SUMMED]));
        for last in [SUM, IDENTITY, PARITY] {
            all.push(ranges(&[2], &[(last, 0, 0, 0, 0, 0), any]));
        }
        let decompose = (DECOMPOSE, 0, 0, 0, -1, 0);
        all.push(ranges(&[2], &[decompose, any]));
        all.push(ranges(&[2], &[decompose, (AXIS, 1, 0, 0, 0, 0), any]));
        for head in [ONEOF, CROSS, ENABLE_MASK, ENABLE_SET] {
            all.push(ranges(&[2], &[(head, 0, 0, 0, 0, 0), any, SUMMED]));
        }
    }
    all
}

/// A map onto the last field: each of so many keys has two children, spread over so many values; the keys after them are none.
fn mapped(keys: i64, children: i64, child: &[Six]) -> Vec<u8> {
    let mut all = vec![(FIELD, 0, 1, 1, keys + 20, 0)];
    all.extend(child);
    all.push((CROSS, 0, 1, 0, 0, 0));
    for k in 0..keys {
        for i in 0..2 {
            let value = (k * 7 + i * children / 2) % children + 1;
            all.push((PAIR, 0, 0, k + 1, value, 0));
        }
    }
    all.push((KEY, 0, 0, 1, 0, 0));
    all.push(SUMMED);
    file(&all)
}

/// Field 1 lists so many values: from the highest down, in no order, or each twice.
fn unordered(order: i64, many: i64) -> Vec<Six> {
    let mut child = vec![(FIELD, 1, 2, 0, 0, 0)];
    for i in 0..many {
        let value = match order {
            -1 => many - i,
            0 => 1 + i * 7 % many,
            _ => 1 + i / 2 * 2,
        };
        child.push((VALUE, 1, 0, value, 0, 0));
    }
    child
}

/// Lengths at which the code takes another way: tables of 16,384 and of 262,144 cells, maps of 8, 16 and 32 members, maps from 32 values and onto 32, oneofs of 64 items, lists of 64 and of 512 values, 20 rows; members in no order, far apart or near; values of a list that have one remainder.
fn lengths() -> Vec<Vec<u8>> {
    let mut all = Vec::new();
    for (keys, children) in [
        (108, 128),
        (108, 129),
        (236, 256),
        (280, 300),
        (492, 512),
        (492, 513),
        (44, 40),
        (45, 40),
        (12, 40),
        (13, 40),
        (3, 32),
        (3, 33),
    ] {
        all.push(mapped(keys, children, &[(FIELD, 1, 1, 1, children, 0)]));
    }
    // The same over lists that do not ascend, or that repeat.
    for order in [-1, 0, 1] {
        for (keys, children) in [(180, 400), (505, 500), (12, 40), (13, 40), (44, 40), (45, 40), (3, 33)] {
            all.push(mapped(keys, children, &unordered(order, children)));
        }
    }
    for members in [7, 8, 9, 15, 16, 17] {
        let mut after = vec![(CROSS, 0, 1, 0, 0, 0)];
        after.extend((0..members).map(|i| (PAIR, 0, 0, 1 + i % 5, 1 + i % 4, 0)));
        after.extend([(NEQ, 0, 1, 0, 0, 0), SUMMED]);
        all.push(ranges(&[6, 4], &after));
        all.push(ranges(&[6, 4, 3], &after));
    }
    for (items, values, first) in [
        (64, 65, 0),
        (65, 64, 0),
        (65, 65, 0),
        (70, 200, -20),
        (70, 200, 300),
        (3, 512, 500),
        (3, 513, 500),
        (3, 513, 600),
        (900, 2000, 1),
    ] {
        let mut after = vec![(ONEOF, 0, 0, 0, 0, 0)];
        after.extend((0..items).map(|i| (ITEM, 0, 0, first + i * 7 % 97 * 3, 0, 0)));
        after.extend([(LE, 0, 0, values - 3, 0, 0), SUMMED]);
        all.push(ranges(&[values], &after));
    }
    // The same over lists that do not ascend, or that repeat.
    for order in [-1, 0, 1] {
        for items in [64, 65, 70] {
            let mut after = unordered(order, 200);
            after.push((ONEOF, 1, 0, 0, 0, 0));
            after.extend((0..items).map(|i| (ITEM, 0, 0, i * 7 % 97 * 3, 0, 0)));
            after.push(SUMMED);
            all.push(ranges(&[2], &after));
        }
    }
    all.extend(few_rows());
    all.extend(mixed());
    for order in [-1, 0, 1] {
        for members in [12, 13, 17, 63, 64, 65, 70, 71] {
            all.push(keyed(order, members));
        }
    }
    all
}

/// Rows for which an index of 20 or of 60 members is not worth its making, and one or two more.
fn few_rows() -> Vec<Vec<u8>> {
    let mut all = Vec::new();
    for members in [20, 60] {
        for rows in 19..=22 {
            for head in [CROSS, ONEOF] {
                let member = if head == CROSS { PAIR } else { ITEM };
                let of = |i| if head == CROSS { i % 4 } else { 0 };
                let mut after = vec![(head, 0, u8::from(head == CROSS), 0, 0, 0)];
                after.extend((0..members).map(|i| (member, 0, 0, 1 + i * 7 % 23, of(i), 0)));
                after.push(SUMMED);
                all.push(ranges(&[rows, 1], &after));
            }
        }
    }
    all
}

/// Maps whose members lie in no order: as many as are ordered by counting and one fewer, their values near each other, as far apart as a word can say and further, or all with one remainder.
fn mixed() -> Vec<Vec<u8>> {
    let mut all = Vec::new();
    for members in [31, 32, 33, 60, 300] {
        for far in [1, 255, 256, 16_381, 1 << 47, 1 << 48, EDGE / 40] {
            for below in [0, 1] {
                // 40 keys and 30 of 35 children, above 0 or on both sides of it.
                let value = |i: i64, many: i64| (i - below * many / 2) * far;
                let mut form = vec![(FIELD, 0, 2, 0, 0, 0)];
                form.extend((0..40).map(|i| (VALUE, 0, 0, value(i * 7 % 40, 40), 0, 0)));
                form.push((FIELD, 1, 2, 0, 0, 0));
                form.extend((0..35).map(|i| (VALUE, 1, 0, value(i * 11 % 35, 30), 0, 0)));
                form.push((CROSS, 0, 1, 0, 0, 0));
                form.extend((0..members).map(|i| {
                    let (key, child) = (i * 17 % 40, i * 13 % 30);
                    (PAIR, 0, 0, value(key, 40), value(child, 30), 0)
                }));
                form.push(SUMMED);
                all.push(file(&form));
            }
        }
    }
    all
}

/// A map of so many members from 70 values that do not ascend, of which some are no keys.
fn keyed(order: i64, members: i64) -> Vec<u8> {
    let mut all = vec![(FIELD, 0, 1, 1, 280, 0)];
    all.extend(unordered(order, 70));
    all.push((CROSS, 1, 0, 0, 0, 0));
    all.extend((0..members).map(|i| (PAIR, 0, 0, 1 + i * 3 % 60, 1 + i * 11 % 290, 0)));
    // No key is without a child.
    all.extend((0..20).map(|i| (PAIR, 0, 0, 1 + i * 3, 280 - i, 0)));
    all.push(SUMMED);
    file(&all)
}

/// Lists of twenty members of which one is at fault, or is of another kind.
fn long_lists() -> Vec<Vec<u8>> {
    let mut all = Vec::new();
    let lists: [(Six, Six); 3] = [
        ((FIELD, 1, 2, 0, 0, 0), (VALUE, 1, 0, 0, 0, 0)),
        ((ONEOF, 0, 0, 0, 0, 0), (ITEM, 0, 0, 0, 0, 0)),
        ((CROSS, 0, 1, 0, 0, 0), (PAIR, 0, 0, 0, 0, 0)),
    ];
    for (head, (kind, a, ..)) in lists {
        let fields: &[i64] = if head.0 == CROSS { &[4, 4] } else { &[4] };
        for at in [0, 9, 19] {
            for other in [
                (kind, a + 1, 0, 3, 0, 0),
                (kind, a, 1, 3, 0, 0),
                (kind, a, 0, EDGE, 0, 0),
                (kind, a, 0, -EDGE, 0, 0),
                (kind, a, 0, EDGE + 1, 0, 0),
                (kind, a, 0, -EDGE - 1, 0, 0),
                (kind, a, 0, 3, 1, 0),
                (kind, a, 0, 3, EDGE, 0),
                (kind, a, 0, 3, EDGE + 1, 0),
                (kind, a, 0, 3, -EDGE - 1, 0),
                (kind, a, 0, 3, 0, 1),
                (kind, a, 0, 3, 0, i64::MIN),
                (VALUE, 0, 0, 3, 0, 0),
                (ITEM, 0, 0, 3, 0, 0),
                (PAIR, 0, 0, 3, 0, 0),
                (KEY, 0, 0, 3, 0, 0),
                (DISABLE, 0, 0, 0, 0, 0),
            ] {
                let mut after = vec![head];
                after.extend((0..20).map(|i| match i {
                    i if i == at => other,
                    _ => (kind, a, 0, i, 0, 0),
                }));
                after.push(SUMMED);
                all.push(ranges(fields, &after));
            }
        }
    }
    all
}

pub fn boundaries() -> Vec<Vec<u8>> {
    let mut all = bench();
    all.extend(lengths());
    all.extend(long_lists());
    all.extend(scales());
    all.extend(packings());
    all.extend(sizes());
    all.extend(orders());
    all
}

/// Pairs whose join is at a limit or just past it.
pub fn joins() -> Vec<(Vec<u8>, Vec<u8>)> {
    let of = |n: u8| {
        let mut form = fields(n, (FIELD, 0, 1, 1, 1, 0));
        form.push(SUMMED);
        file(&form)
    };
    let bound = |n: usize| {
        let mut form = vec![(LE, 0, 0, 1, 0, 0); n];
        form.push(SUMMED);
        ranges(&[2], &form)
    };
    let items = |n: usize| {
        let mut form = vec![(ONEOF, 0, 0, 0, 0, 0)];
        form.extend(vec![(ITEM, 0, 0, 1, 0, 0); n]);
        form.push(SUMMED);
        ranges(&[2], &form)
    };
    let lone = file(&[SUMMED]);
    let narrow = |n: i64| ranges(&[n], &[(RANGE, 0, 0, 1, 1, 0), SUMMED]);
    let parity = ranges(&[2], &[(PARITY, 0, 0, 0, 0, 0)]);
    let packed = decomposed(&[3], 0, -1, &[(2, 0, 0)]);
    let none = Vec::new();
    vec![
        (of(16), of(16)),
        (of(16), of(17)),
        (of(32), lone.clone()),
        (lone.clone(), of(32)),
        (lone.clone(), lone.clone()),
        (bound(128), bound(128)),
        (bound(128), bound(129)),
        (items(1021), items(1021)),
        (items(1021), items(1022)),
        (items(1022), items(1022)),
        (narrow(2000), narrow(2000)),
        (narrow(31_250), narrow(32_000)),
        (narrow(31_251), narrow(32_000)),
        (narrow(1_000_000_000), narrow(1)),
        (narrow(1_000_000_000), narrow(2)),
        (parity.clone(), of(1)),
        (of(1), parity.clone()),
        (parity.clone(), packed.clone()),
        (packed.clone(), of(2)),
        (of(2), packed.clone()),
        (parity, none.clone()),
        (none.clone(), packed),
        (of(3), none.clone()),
        (none, of(3)),
    ]
}
