//! The record form of a rules file (docs/FORMAT.md).

pub const SIZE: usize = 32;
/// The furthest that p, q and r may be from 0.
pub const EDGE: i64 = 1 << 56;

pub const FIELD: u8 = 1;
pub const VALUE: u8 = 2;
pub const ITEM: u8 = 3;
pub const PAIR: u8 = 4;
pub const KEY: u8 = 5;
pub const DISABLE: u8 = 6;
pub const ASSIGN: u8 = 7;
pub const AXIS: u8 = 8;
pub const RANGE: u8 = 10;
pub const EVEN: u8 = 11;
pub const EQ: u8 = 12;
pub const NEQ: u8 = 13;
pub const LT: u8 = 14;
pub const GT: u8 = 15;
pub const LE: u8 = 16;
pub const GE: u8 = 17;
pub const ONEOF: u8 = 18;
pub const CROSS: u8 = 19;
pub const ENABLE_MASK: u8 = 20;
pub const BITMASK: u8 = 21;
pub const ENABLE_SET: u8 = 22;
pub const SUM: u8 = 30;
pub const IDENTITY: u8 = 31;
pub const PARITY: u8 = 32;
pub const DECOMPOSE: u8 = 33;

#[derive(Clone, Copy, Debug, PartialEq, Eq)]
pub struct Record {
    pub kind: u8,
    pub a: u8,
    pub b: u8,
    /// The five bytes that no kind uses.
    pub rest: [u8; 5],
    pub p: i64,
    pub q: i64,
    pub r: i64,
}

pub fn record(kind: u8, a: u8, b: u8, p: i64, q: i64, r: i64) -> Record {
    Record {
        kind,
        a,
        b,
        rest: [0; 5],
        p,
        q,
        r,
    }
}

fn number(bytes: &[u8]) -> i64 {
    let mut eight = [0; 8];
    eight.copy_from_slice(bytes);
    i64::from_le_bytes(eight)
}

impl Record {
    pub fn read(bytes: &[u8]) -> Record {
        let mut rest = [0; 5];
        rest.copy_from_slice(&bytes[3..8]);
        Record {
            kind: bytes[0],
            a: bytes[1],
            b: bytes[2],
            rest,
            p: number(&bytes[8..16]),
            q: number(&bytes[16..24]),
            r: number(&bytes[24..32]),
        }
    }

    pub fn write(&self, out: &mut Vec<u8>) {
        out.extend([self.kind, self.a, self.b]);
        out.extend(self.rest);
        for n in [self.p, self.q, self.r] {
            out.extend(n.to_le_bytes());
        }
    }
}

/// The whole records of a file; bytes after the last whole one are left out.
pub fn read(file: &[u8]) -> Vec<Record> {
    file.chunks_exact(SIZE).map(Record::read).collect()
}

pub fn write(records: &[Record]) -> Vec<u8> {
    let mut out = Vec::new();
    for r in records {
        r.write(&mut out);
    }
    out
}

/// A file for a reader: kind, a, b, p, q, r, a line for each record.
pub fn show(file: &[u8]) -> String {
    let mut text = String::new();
    for (i, r) in read(file).iter().enumerate() {
        text += &format!(
            "{:4}: {:3} {} {} {} {} {}",
            i + 1,
            r.kind,
            r.a,
            r.b,
            r.p,
            r.q,
            r.r
        );
        if r.rest != [0; 5] {
            text += &format!("  unused bytes {:?}", r.rest);
        }
        text.push('\n');
    }
    let left = file.len() % SIZE;
    if left > 0 {
        text += &format!("  and {left} bytes\n");
    }
    text
}
