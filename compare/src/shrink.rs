//! Makes a file that shows a difference smaller, while it still shows one.

use common::record::*;

/// Without one field, its values and everything that names it; later fields move up.
fn without_field(records: &[Record], field: u8) -> Vec<Record> {
    let mut out: Vec<Record> = Vec::new();
    let mut dropping = false;
    for r in records {
        let member = (VALUE..=AXIS).contains(&r.kind);
        let two = matches!(r.kind, EQ | NEQ | CROSS);
        let names = !matches!(r.kind, ITEM | PAIR | KEY | AXIS | SUM);
        let named = (names && r.a == field) || (two && r.b == field);
        if !member {
            dropping = named;
        }
        if dropping || named {
            continue;
        }
        let mut r = *r;
        if names && r.a > field {
            r.a -= 1;
        }
        if two && r.b > field {
            r.b -= 1;
        }
        out.push(r);
    }
    out
}

pub fn shrink(file: &[u8], differs: &mut dyn FnMut(&[u8]) -> bool) -> Vec<u8> {
    let mut best = file.to_vec();
    loop {
        let records = read(&best);
        let mut smaller: Vec<Vec<u8>> = Vec::new();
        let many = records.len();
        for size in [many / 2, many / 4, many / 8, 1] {
            if size == 0 {
                continue;
            }
            for at in (0..many).step_by(size) {
                let mut fewer = records.clone();
                fewer.drain(at..(at + size).min(many));
                smaller.push(write(&fewer));
            }
        }
        for f in 0..32 {
            let fewer = without_field(&records, f);
            if fewer.len() < many {
                smaller.push(write(&fewer));
            }
        }
        for at in 0..many {
            for i in 0..6 {
                let mut lower = records.clone();
                let r = &mut lower[at];
                let n = match i / 2 {
                    0 => &mut r.p,
                    1 => &mut r.q,
                    _ => &mut r.r,
                };
                let less = if i % 2 == 0 { 0 } else { *n / 2 };
                if *n != less {
                    *n = less;
                    smaller.push(write(&lower));
                }
            }
        }
        if !best.len().is_multiple_of(SIZE) {
            smaller.push(write(&records));
        }
        match smaller.into_iter().find(|f| differs(f)) {
            Some(f) => best = f,
            None => return best,
        }
    }
}
