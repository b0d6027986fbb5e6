//! How many files, of those that were compared with the original, had a thing.

use common::reading::*;
use common::record::*;
use std::collections::BTreeMap;

#[derive(Default)]
pub struct Coverage {
    counts: BTreeMap<&'static str, usize>,
}

const KINDS: [(u8, &str); 25] = [
    (FIELD, "kind  1 field"),
    (VALUE, "kind  2 value"),
    (ITEM, "kind  3 item"),
    (PAIR, "kind  4 pair"),
    (KEY, "kind  5 key"),
    (DISABLE, "kind  6 disable"),
    (ASSIGN, "kind  7 assign"),
    (AXIS, "kind  8 axis"),
    (RANGE, "kind 10 range"),
    (EVEN, "kind 11 even"),
    (EQ, "kind 12 eq"),
    (NEQ, "kind 13 neq"),
    (LT, "kind 14 lt"),
    (GT, "kind 15 gt"),
    (LE, "kind 16 le"),
    (GE, "kind 17 ge"),
    (ONEOF, "kind 18 oneof"),
    (CROSS, "kind 19 cross"),
    (ENABLE_MASK, "kind 20 enable_mask"),
    (BITMASK, "kind 21 bitmask"),
    (ENABLE_SET, "kind 22 enable_set"),
    (SUM, "kind 30 sum"),
    (IDENTITY, "kind 31 identity"),
    (PARITY, "kind 32 parity"),
    (DECOMPOSE, "kind 33 decompose"),
];

/// The things that an accepted file can have, so that one that is never met shows as 0.
const THINGS: [&str; 46] = [
    "form 0 without step",
    "form 0 with step",
    "form 1 without step",
    "form 1 with step",
    "form 2",
    "no field at all",
    "32 fields",
    "100 constraints or more",
    "a map of 100 pairs or more",
    "a domain with repeats",
    "a number at ±2^56",
    "a filter oneof that keeps none",
    "a filter range that keeps none",
    "a filter bitmask that keeps none",
    "a filter that drops values",
    "an empty oneof",
    "an empty cross",
    "an empty enable record",
    "a key without a pair",
    "several maps onto one child",
    "a map that is not the kept one fails a row",
    "maps of which the order differs from number order",
    "a chain of maps whose order differs from number order",
    "a parent with several children",
    "a map that drops tuples",
    "a parent value that is no key",
    "a row that is forced",
    "a trigger that another record changed",
    "engines that force a row differently",
    "a forced value outside its domain",
    "a forced value outside its domain that passes (form 0)",
    "a row that fails a field check",
    "a row that passes",
    "a row that fails range",
    "a row that fails even",
    "a row that fails eq or neq",
    "a row that fails lt, gt, le or ge",
    "a row that fails oneof",
    "a row that fails cross",
    "a row that fails bitmask",
    "decompose: offset",
    "decompose: axis without radix before another",
    "decompose: axes not in the order of shifts",
    "decompose: a passed row without projection",
    "decompose: a projection",
    "structural emits less than exhaustive",
];

impl Coverage {
    pub fn new() -> Coverage {
        let mut counts: BTreeMap<&'static str, usize> = BTreeMap::new();
        counts.extend(KINDS.iter().map(|k| (k.1, 0)));
        counts.extend(THINGS.iter().map(|t| (*t, 0)));
        Coverage { counts }
    }

    fn mark(&mut self, thing: &'static str, there: bool) {
        let count = self.counts.get_mut(thing).expect("an unknown thing");
        *count += usize::from(there);
    }

    pub fn print(&self) {
        let name = |k: &str| KINDS.iter().any(|x| x.1 == k);
        for (k, n) in self.counts.iter().filter(|(k, _)| name(k)) {
            println!("{n:8}  {k}");
        }
        for t in THINGS {
            println!("{:8}  {t}", self.counts[t]);
        }
    }

    pub fn missing(&self) -> Vec<&'static str> {
        let none = |(k, n): (&&'static str, &usize)| (*n == 0).then_some(*k);
        self.counts.iter().filter_map(none).collect()
    }

    /// Notes a file that both engines accept.
    pub fn note(&mut self, file: &[u8], rules: &Rules, structural: &Listing, exhaustive: &Listing) {
        let records = read(file);
        for (kind, name) in KINDS {
            self.mark(name, records.iter().any(|r| r.kind == kind));
        }
        self.note_fields(rules);
        self.note_lists(rules);
        self.note_maps(rules, structural);
        self.note_forcing(rules);
        self.note_rows(rules, structural, exhaustive);
        self.note_decompose(rules, structural, exhaustive);
    }

    fn note_fields(&mut self, rules: &Rules) {
        let form = |b: u8, step: Option<bool>| {
            rules.fields.iter().any(|f| {
                let stepped = f.head.r != 0;
                f.head.b == b && step.is_none_or(|s| s == stepped)
            })
        };
        self.mark("form 0 without step", form(0, Some(false)));
        self.mark("form 0 with step", form(0, Some(true)));
        self.mark("form 1 without step", form(1, Some(false)));
        self.mark("form 1 with step", form(1, Some(true)));
        self.mark("form 2", form(2, None));
        self.mark("no field at all", rules.fields.is_empty());
        self.mark("32 fields", rules.fields.len() == 32);
        let many = rules.constraints.len() >= 100;
        self.mark("100 constraints or more", many);
        let long = |c: &Group| c.head.kind == CROSS && c.members.len() >= 100;
        let map = rules.constraints.iter().any(long);
        self.mark("a map of 100 pairs or more", map);
        let repeats = |f: &Group| {
            let mut list = domain(f);
            let many = list.len();
            list.sort();
            list.dedup();
            list.len() < many
        };
        self.mark("a domain with repeats", rules.fields.iter().any(repeats));
        let edge = rules.numbers().iter().any(|v| v.abs() == EDGE);
        self.mark("a number at ±2^56", edge);
    }

    fn note_lists(&mut self, rules: &Rules) {
        let mut none = [false; 3];
        let mut drops = false;
        let mut lists: Vec<Vec<i64>> = rules.fields.iter().map(domain).collect();
        for c in &rules.constraints {
            let kind = [ONEOF, RANGE, BITMASK]
                .iter()
                .position(|k| *k == c.head.kind);
            if let Some(kind) = kind {
                let list = &mut lists[usize::from(c.head.a)];
                match filtered(list, c) {
                    None => none[kind] = true,
                    Some(kept) => {
                        drops |= kept.len() < list.len();
                        *list = kept;
                    }
                }
            }
        }
        self.mark("a filter oneof that keeps none", none[0]);
        self.mark("a filter range that keeps none", none[1]);
        self.mark("a filter bitmask that keeps none", none[2]);
        self.mark("a filter that drops values", drops);
        let empty = |kinds: &[u8]| {
            let is = |c: &Group| kinds.contains(&c.head.kind) && c.members.is_empty();
            rules.constraints.iter().any(is)
        };
        self.mark("an empty oneof", empty(&[ONEOF]));
        self.mark("an empty cross", empty(&[CROSS]));
        let enable = empty(&[ENABLE_MASK, ENABLE_SET]);
        self.mark("an empty enable record", enable);
        let lone = |c: &Group| {
            c.members.iter().any(|k| {
                let pair = |m: &Record| m.kind == PAIR && m.p == k.p;
                k.kind == KEY && !c.members.iter().any(pair)
            })
        };
        self.mark("a key without a pair", rules.constraints.iter().any(lone));
    }

    fn note_maps(&mut self, rules: &Rules, structural: &Listing) {
        let kept = rules.kept();
        let crosses: Vec<&Group> = rules
            .constraints
            .iter()
            .filter(|c| c.head.kind == CROSS)
            .collect();
        let several = crosses.len() > kept.len();
        self.mark("several maps onto one child", several);
        let order = rules.order().unwrap_or_default();
        let natural = order.windows(2).all(|w| w[0] < w[1]);
        self.mark(
            "maps of which the order differs from number order",
            !natural,
        );
        let chain = kept
            .values()
            .any(|c| kept.contains_key(&usize::from(c.head.a)));
        let thing = "a chain of maps whose order differs from number order";
        self.mark(thing, chain && !natural);
        let mut parents: Vec<u8> = kept.values().map(|c| c.head.a).collect();
        let many = parents.len();
        parents.sort();
        parents.dedup();
        self.mark("a parent with several children", parents.len() < many);
        let lists = (0..rules.fields.len()).map(|f| rules.allowed(f).len() as u128);
        let product: u128 = lists.product();
        let drops = !rules.fields.is_empty() && (structural.rows.len() as u128) < product;
        self.mark("a map that drops tuples", drops);
        let free = kept.values().any(|c| {
            let parent = rules.allowed(usize::from(c.head.a));
            !c.members.is_empty() && parent.iter().any(|&v| !is_key(c, v))
        });
        self.mark("a parent value that is no key", free);
        let lost = structural.rows.iter().any(|row| {
            let at = row.place.checked_sub(rules.fields.len() + 1);
            at.is_some_and(|i| {
                let c = &rules.constraints[i];
                let last = kept.get(&usize::from(c.head.b));
                c.head.kind == CROSS && !std::ptr::eq(*last.unwrap(), c)
            })
        });
        self.mark("a map that is not the kept one fails a row", lost);
    }

    fn note_forcing(&mut self, rules: &Rules) {
        let mut seen = [false; 5];
        let domains: Vec<Vec<i64>> = rules.fields.iter().map(domain).collect();
        for raw in rules.tuples(Engine::Structural, usize::MAX).unwrap() {
            let row = rules.forced(Engine::Structural, &raw);
            let holds = |e: &Group, row: &[i64]| row[usize::from(e.head.a)] == e.head.p;
            let enables = rules.enables(Engine::Structural);
            seen[0] |= enables
                .iter()
                .any(|e| holds(e, &raw) && !e.members.is_empty());
            // A record whose trigger is another at its turn than in the raw row.
            let mut turn = raw.clone();
            for e in &enables {
                seen[1] |= holds(e, &turn) != holds(e, &raw);
                if holds(e, &turn) {
                    for m in &e.members {
                        turn[usize::from(m.a)] = m.p;
                    }
                }
            }
            seen[2] |= row != rules.forced(Engine::Exhaustive, &raw);
            for (f, field) in rules.fields.iter().enumerate() {
                if row[f] != raw[f] && !domains[f].contains(&row[f]) {
                    seen[3] = true;
                    seen[4] |= field.head.b == 0 && field_check(field, row[f]);
                }
            }
        }
        self.mark("a row that is forced", seen[0]);
        self.mark("a trigger that another record changed", seen[1]);
        self.mark("engines that force a row differently", seen[2]);
        self.mark("a forced value outside its domain", seen[3]);
        let thing = "a forced value outside its domain that passes (form 0)";
        self.mark(thing, seen[4]);
    }

    fn note_rows(&mut self, rules: &Rules, structural: &Listing, exhaustive: &Listing) {
        let n = rules.fields.len();
        let both = || structural.rows.iter().chain(&exhaustive.rows);
        let fails = |kinds: &[u8]| {
            both().any(|r| {
                r.place > n && kinds.contains(&rules.constraints[r.place - n - 1].head.kind)
            })
        };
        let field = both().any(|r| (1..=n).contains(&r.place));
        self.mark("a row that fails a field check", field);
        self.mark("a row that passes", both().any(|r| r.place == 0));
        self.mark("a row that fails range", fails(&[RANGE]));
        self.mark("a row that fails even", fails(&[EVEN]));
        self.mark("a row that fails eq or neq", fails(&[EQ, NEQ]));
        let bound = fails(&[LT, GT, LE, GE]);
        self.mark("a row that fails lt, gt, le or ge", bound);
        self.mark("a row that fails oneof", fails(&[ONEOF]));
        self.mark("a row that fails cross", fails(&[CROSS]));
        self.mark("a row that fails bitmask", fails(&[BITMASK]));
        let less = structural.rows.len() < exhaustive.rows.len();
        self.mark("structural emits less than exhaustive", less);
    }

    fn note_decompose(&mut self, rules: &Rules, structural: &Listing, exhaustive: &Listing) {
        if rules.projector.head.kind != DECOMPOSE {
            return;
        }
        let axes = &rules.projector.members;
        let both = || structural.rows.iter().chain(&exhaustive.rows);
        self.mark("decompose: offset", rules.projector.head.q != -1);
        let inner = axes[..axes.len() - 1].iter().any(|x| x.p == 0);
        self.mark("decompose: axis without radix before another", inner);
        let mixed = axes.windows(2).any(|w| w[0].b > w[1].b);
        self.mark("decompose: axes not in the order of shifts", mixed);
        let none = both().any(|r| r.place == 0 && r.projection.is_none());
        self.mark("decompose: a passed row without projection", none);
        let some = both().any(|r| r.projection.is_some());
        self.mark("decompose: a projection", some);
    }
}
