//! Random rules files that are meant to be accepted; the second reading tells which are.

use crate::random::Random;
use crate::reading::{self, Engine, Group};
use crate::record::*;

#[derive(Clone, Copy, PartialEq)]
pub enum Focus {
    None,
    Maps,
    Enables,
}

/// What to aim for.
#[derive(Clone, Copy)]
pub struct Aim {
    /// At most this total.
    pub total: usize,
    pub fields: usize,
    pub constraints: usize,
    /// Members of a list, at most about.
    pub members: usize,
    /// Always closed by a sum.
    pub sum: bool,
    /// What most constraints are.
    pub focus: Focus,
}

pub const USUAL: Aim = Aim {
    total: 400,
    fields: 5,
    constraints: 9,
    members: 6,
    sum: false,
    focus: Focus::None,
};
pub const LARGE: Aim = Aim {
    total: 6_000,
    fields: 8,
    constraints: 30,
    members: 24,
    sum: false,
    focus: Focus::None,
};
/// As many constraints as there may be.
pub const WIDE: Aim = Aim {
    total: 300,
    fields: 7,
    constraints: 256,
    members: 3,
    sum: false,
    focus: Focus::None,
};
/// Long lists and maps of hundreds of pairs.
pub const DENSE: Aim = Aim {
    total: 2_500,
    fields: 4,
    constraints: 8,
    members: 200,
    sum: false,
    focus: Focus::None,
};
pub const SMALL: Aim = Aim {
    total: 60,
    fields: 4,
    constraints: 6,
    members: 3,
    sum: false,
    focus: Focus::None,
};

struct Maker<'a> {
    random: &'a mut Random,
    aim: Aim,
    domains: Vec<Vec<i64>>,
    /// Maps mostly lead from earlier to later fields in this order.
    order: Vec<u8>,
    out: Vec<Record>,
}

impl Maker<'_> {
    fn put(&mut self, kind: u8, a: u8, b: u8, p: i64, q: i64, r: i64) {
        self.out.push(record(kind, a, b, p, q, r));
    }

    fn small(&mut self) -> i64 {
        self.random.between(-6, 12)
    }

    fn field(&mut self, number: u8, room: usize) {
        let start = self.out.len();
        loop {
            self.out.truncate(start);
            match self.random.below(10) {
                0 | 1 => self.plain_field(number, room),
                2..=5 => self.ranged_field(number, room),
                _ => self.listed_field(number, room),
            }
            let group = Group {
                head: self.out[start],
                members: self.out[start + 1..].to_vec(),
            };
            let many = reading::judge(&write(&{
                let mut alone = self.out[start..].to_vec();
                for r in &mut alone {
                    r.a = 0;
                }
                alone.push(record(SUM, 0, 0, 0, 0, 0));
                alone
            }))
            .map_or(0, |rules| rules.total);
            if many > 0 && many <= room as u128 {
                self.domains.push(reading::domain(&group));
                return;
            }
        }
    }

    fn plain_field(&mut self, number: u8, room: usize) {
        let steps = [0, 1, 17, 32, 50, 64, 85, 100, 128, 200, 255, 256, 1000];
        let mut step = self.random.pick(&steps);
        if room >= 256 && self.random.chance(40) {
            step = 0;
        }
        self.put(FIELD, number, 0, 0, 0, step);
    }

    fn ranged_field(&mut self, number: u8, room: usize) {
        let low = match self.random.below(8) {
            0 => self.random.between(-EDGE, EDGE - 64),
            1 => -EDGE,
            2 => self.random.between(-3000, 3000),
            _ => self.small(),
        };
        let step = match self.random.below(6) {
            0 => 1,
            1 => self.random.between(2, 9),
            2 => self.random.between(2, 400),
            _ => 0,
        };
        let many = 1 + self.random.below(room.min(12)) as i64;
        let high = low.saturating_add(many * step.max(1) - 1 + self.random.between(0, 1));
        self.put(FIELD, number, 1, low, high.min(EDGE), step);
    }

    fn listed_field(&mut self, number: u8, room: usize) {
        self.put(FIELD, number, 2, 0, 0, 0);
        let many = 1 + self.random.below(room.min(self.aim.members + 2));
        let same = self.random.between(2, 9);
        let style = self.random.below(8);
        for i in 0..many {
            let v = match style {
                0 => self.random.between(-EDGE, EDGE),
                1 => self.random.pick(&[-EDGE, EDGE, 0, -1, 1, EDGE - 1]),
                2 => same * self.small(),
                3 => 2 * i as i64 - 3,
                _ => self.small(),
            };
            self.put(VALUE, number, 0, v, 0, 0);
        }
    }

    fn any_field(&mut self) -> u8 {
        self.random.below(self.domains.len()) as u8
    }

    /// A number that mostly is in the field's domain.
    fn near(&mut self, field: u8) -> i64 {
        if self.random.chance(85) {
            let list = &self.domains[usize::from(field)];
            let at = self.random.below(list.len());
            list[at]
        } else {
            match self.random.below(8) {
                0 => self.random.pick(&[-EDGE, EDGE]),
                1 => self.random.between(-1000, 1000),
                _ => self.small(),
            }
        }
    }

    fn range(&mut self, a: u8) {
        let (mut p, mut q) = (self.near(a), self.near(a));
        if p > q && self.random.chance(85) {
            (p, q) = (q, p);
        }
        if self.random.chance(10) {
            let far = self.random.between(13, 40);
            (p, q) = (far, far + 2);
        }
        self.put(RANGE, a, 0, p, q, 0);
    }

    fn bitmask(&mut self, a: u8) {
        let mask = match self.random.below(6) {
            0 => 0,
            1 => EDGE,
            2 => EDGE - 1,
            _ => self.random.between(1, 15),
        };
        let value = match self.random.below(10) {
            0 => -1,
            1 => self.random.between(0, 15),
            _ => self.near(a) & mask,
        };
        self.put(BITMASK, a, 0, mask, value, 0);
    }

    fn cross(&mut self) {
        let n = self.domains.len();
        let (i, j) = (self.random.below(n), self.random.below(n));
        let (mut a, mut b) = (self.order[i.min(j)], self.order[i.max(j)]);
        if self.random.chance(3) {
            (a, b) = (b, a);
        }
        if a == b && n > 1 && self.random.chance(95) {
            return;
        }
        self.put(CROSS, a, b, 0, 0, 0);
        if self.random.chance(8) {
            return;
        }
        for _ in 0..1 + self.random.below(self.aim.members) {
            let p = self.near(a);
            if self.random.chance(2) {
                self.put(KEY, 0, 0, p, 0, 0);
            } else {
                for _ in 0..1 + self.random.below(3) {
                    let q = self.near(b);
                    self.put(PAIR, 0, 0, p, q, 0);
                }
                if self.random.chance(5) {
                    self.put(KEY, 0, 0, p, 0, 0);
                }
            }
        }
    }

    fn enable(&mut self, kind: u8, a: u8) {
        let p = self.near(a);
        self.put(kind, a, 0, p, 0, 0);
        if self.random.chance(8) {
            return;
        }
        for _ in 0..1 + self.random.below(3) {
            let f = self.any_field();
            if kind == ENABLE_MASK {
                self.put(DISABLE, f, 0, 0, 0, 0);
            } else {
                let mut v = self.near(f);
                if self.random.chance(20) {
                    v = self.random.between(-300, 600);
                } else if self.random.chance(20) && v.abs() < 1000 {
                    v *= self.random.between(2, 6);
                }
                self.put(ASSIGN, f, 0, v, 0, 0);
            }
        }
    }

    fn constraint(&mut self) {
        let kinds: &[u8] = &[
            RANGE,
            EVEN,
            EQ,
            NEQ,
            LT,
            GT,
            LE,
            GE,
            ONEOF,
            CROSS,
            CROSS,
            CROSS,
            ENABLE_MASK,
            BITMASK,
            ENABLE_SET,
            ENABLE_SET,
        ];
        let mut kind = self.random.pick(kinds);
        if self.random.chance(70) {
            match self.aim.focus {
                Focus::None => {}
                Focus::Maps => kind = CROSS,
                Focus::Enables => kind = self.random.pick(&[ENABLE_MASK, ENABLE_SET]),
            }
        }
        let a = self.any_field();
        match kind {
            RANGE => self.range(a),
            EVEN => self.put(kind, a, 0, 0, 0, 0),
            EQ | NEQ => {
                let b = self.any_field();
                self.put(kind, a, b, 0, 0, 0);
            }
            ONEOF => {
                self.put(kind, a, 0, 0, 0, 0);
                if self.random.chance(92) {
                    for _ in 0..1 + self.random.below(self.aim.members) {
                        let v = self.near(a);
                        self.put(ITEM, 0, 0, v, 0, 0);
                    }
                }
            }
            CROSS => self.cross(),
            BITMASK => self.bitmask(a),
            ENABLE_MASK | ENABLE_SET => self.enable(kind, a),
            _ => {
                // Mostly a bound that many rows meet.
                let mut p = self.near(a);
                if self.random.chance(60) {
                    let list = &self.domains[usize::from(a)];
                    p = match kind {
                        LT | LE => *list.iter().max().unwrap(),
                        _ => *list.iter().min().unwrap(),
                    };
                }
                self.put(kind, a, 0, p, 0, 0);
            }
        }
    }

    fn decompose(&mut self) {
        let a = self.any_field();
        let list = self.domains[usize::from(a)].clone();
        let base = match self.random.below(4) {
            0 => self.near(a),
            1 => 0,
            _ => *list.iter().min().unwrap(),
        };
        let head = self.out.len();
        self.put(DECOMPOSE, a, 0, base, -1, 0);
        let mut low = self.random.below(4) as u8;
        let mut axes = Vec::new();
        for _ in 0..1 + self.random.below(4) {
            let left = 63 - low;
            if left == 0 {
                break;
            }
            let most = if self.random.chance(20) {
                left
            } else {
                left.min(6)
            };
            let width = 1 + self.random.below(usize::from(most)) as u8;
            let top = if width > 56 { EDGE } else { 1 << width };
            let radix = match self.random.below(5) {
                0 | 1 => 0,
                2 => top,
                _ => self.random.between(2, top),
            };
            axes.push(record(AXIS, width, low, radix, 0, 0));
            low += width;
            low += self.random.below(3).min(usize::from(63 - low)) as u8;
        }
        let highest = axes.iter().map(|m| m.a + m.b).max().unwrap();
        if self.random.chance(50) {
            self.random.shuffle(&mut axes);
        }
        self.out.extend(axes);
        if self.random.chance(45) {
            self.out[head].q = self.random.between(highest.into(), 63);
            if self.random.chance(60) {
                self.out[head].q = highest.into();
            }
        }
    }

    fn projector(&mut self) {
        let a = self.any_field();
        match self.random.below(10) {
            0..=2 => self.put(SUM, 0, 0, 0, 0, 0),
            3 | 4 => self.put(IDENTITY, a, 0, 0, 0, 0),
            5 | 6 => self.put(PARITY, a, 0, 0, 0, 0),
            _ => self.decompose(),
        }
    }
}

/// A file; it is mostly accepted by both engines, and always by 1 to 10.
pub fn any(random: &mut Random, aim: Aim) -> Vec<u8> {
    let n = match random.below(40) {
        0 => 0,
        1 => 32,
        2 => 1,
        _ => 1 + random.below(aim.fields),
    };
    let mut order: Vec<u8> = (0..n as u8).collect();
    random.shuffle(&mut order);
    let mut maker = Maker {
        random,
        aim,
        domains: Vec::new(),
        order,
        out: Vec::new(),
    };
    let mut room = aim.total;
    for f in 0..n {
        let left = n - f - 1;
        // Leave two values for each field to come where there are few.
        let mine = if left > 6 {
            room.min(2)
        } else {
            (room >> left).max(1)
        };
        maker.field(f as u8, mine);
        room /= maker.domains[f].len();
    }
    if n > 0 {
        let most = maker.aim.constraints;
        for _ in 0..maker.random.below(most + 1) {
            maker.constraint();
        }
    }
    if n == 0 || aim.sum {
        maker.put(SUM, 0, 0, 0, 0, 0);
    } else {
        maker.projector();
    }
    write(&maker.out)
}

/// A file that both engines accept.
pub fn accepted(random: &mut Random, aim: Aim) -> Vec<u8> {
    loop {
        let file = any(random, aim);
        if let Ok(rules) = reading::judge(&file) {
            let fine = |e| rules.refuses(e).is_none();
            if fine(Engine::Structural) && fine(Engine::Exhaustive) {
                return file;
            }
        }
    }
}
