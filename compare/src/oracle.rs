//! The original behind a reader of record files.

use crate::reading::{is_member, section, Engine, Group, Rules};
use crate::record::*;
use ev::classification::Classification;
use ev::spec::{
    AxisSpec, ConstraintSpec, FieldAssignment, FieldSpec, ProjectorSpec, VerificationSpec,
};
use ev::verify::classifier::{Classify, NaiveClassifier};
use ev::verify::compose::raw_total_combinations;
use ev::verify::evaluate::evaluate_structural;
use ev::verify::registry::{ConstraintRegistry, ProjectorRegistry};
use std::collections::BTreeMap;
use std::panic::catch_unwind;

/// Field names whose order is the order of the numbers.
fn name(field: u8) -> String {
    format!("f{field:02}")
}

fn field(head: &Record, members: impl Iterator<Item = Record>) -> FieldSpec {
    FieldSpec {
        range: (head.b == 1).then_some((head.p, head.q)),
        alignment: (head.r != 0).then_some(head.r),
        values: (head.b == 2).then(|| members.map(|m| m.p).collect()),
    }
}

fn mapping(members: impl Iterator<Item = Record>) -> BTreeMap<i64, Vec<i64>> {
    let mut map: BTreeMap<i64, Vec<i64>> = BTreeMap::new();
    for m in members {
        let children = map.entry(m.p).or_default();
        if m.kind == PAIR {
            children.push(m.q);
        }
    }
    map
}

fn constraint(head: &Record, members: impl Iterator<Item = Record>) -> ConstraintSpec {
    let field = name(head.a);
    let (field_a, field_b) = (name(head.a), name(head.b));
    let (value, p, q) = (head.p, head.p, head.q);
    match head.kind {
        RANGE => ConstraintSpec::Range {
            field,
            min: p,
            max: q,
        },
        EVEN => ConstraintSpec::Even { field },
        EQ => ConstraintSpec::Eq { field_a, field_b },
        NEQ => ConstraintSpec::Neq { field_a, field_b },
        LT => ConstraintSpec::Lt { field, value },
        GT => ConstraintSpec::Gt { field, value },
        LE => ConstraintSpec::Le { field, value },
        GE => ConstraintSpec::Ge { field, value },
        ONEOF => ConstraintSpec::Oneof {
            field,
            values: members.map(|m| m.p).collect(),
        },
        CROSS => ConstraintSpec::Cross {
            field_a,
            field_b,
            mapping: mapping(members),
        },
        ENABLE_MASK => ConstraintSpec::EnableMask {
            field,
            value,
            disable: members.map(|m| name(m.a)).collect(),
        },
        BITMASK => ConstraintSpec::Bitmask {
            field,
            mask: p,
            value: q,
        },
        ENABLE_SET => ConstraintSpec::EnableSet {
            field,
            value,
            set: members
                .map(|m| FieldAssignment {
                    field: name(m.a),
                    value: m.p,
                })
                .collect(),
        },
        kind => panic!("kind {kind} is no constraint"),
    }
}

fn projector(head: &Record, members: impl Iterator<Item = Record>) -> ProjectorSpec {
    let field = name(head.a);
    match head.kind {
        SUM => ProjectorSpec::Sum,
        IDENTITY => ProjectorSpec::Identity { field },
        PARITY => ProjectorSpec::Parity { field },
        DECOMPOSE => ProjectorSpec::Decompose {
            field,
            base: head.p,
            offset_shift: (head.q >= 0).then_some(head.q as u32),
            axes: members
                .map(|m| AxisSpec {
                    radix: (m.p != 0).then_some(m.p),
                    width: m.a.into(),
                    shift: m.b.into(),
                })
                .collect(),
        },
        kind => panic!("kind {kind} is no projector"),
    }
}

fn members(g: &Group) -> impl Iterator<Item = Record> + '_ {
    g.members.iter().copied()
}

pub fn specification(rules: &Rules) -> VerificationSpec {
    let field = |g: &Group| (name(g.head.a), field(&g.head, members(g)));
    let constraint = |g: &Group| constraint(&g.head, members(g));
    VerificationSpec {
        target: String::new(),
        fields: rules.fields.iter().map(field).collect(),
        layout: None,
        constraints: rules.constraints.iter().map(constraint).collect(),
        projector: projector(&rules.projector.head, members(&rules.projector)),
    }
}

/// The specification of an accepted file, straight from its bytes; nothing is judged.
pub fn read(file: &[u8]) -> VerificationSpec {
    let mut spec = VerificationSpec {
        target: String::new(),
        fields: BTreeMap::new(),
        layout: None,
        constraints: Vec::new(),
        projector: ProjectorSpec::Sum,
    };
    let mut rest = file;
    while !rest.is_empty() {
        let (head, after) = rest.split_at(SIZE);
        let head = Record::read(head);
        let many = after.chunks_exact(SIZE).take_while(|r| is_member(r[0]));
        let (run, next) = after.split_at(many.count() * SIZE);
        let members = run.chunks_exact(SIZE).map(Record::read);
        match section(head.kind) {
            0 => {
                spec.fields.insert(name(head.a), field(&head, members));
            }
            1 => spec.constraints.push(constraint(&head, members)),
            _ => spec.projector = projector(&head, members),
        }
        rest = next;
    }
    spec
}

/// What an engine of the original says of a specification.
pub fn classify(engine: Engine, spec: &VerificationSpec) -> Result<Classification, String> {
    let constraints = ConstraintRegistry::default();
    let projectors = ProjectorRegistry::default();
    match engine {
        Engine::Structural => evaluate_structural(spec, &constraints, &projectors),
        Engine::Exhaustive => NaiveClassifier.classify(spec, &constraints, &projectors),
    }
}

/// The listing without places: the original has none.
pub fn print(c: &Classification) -> String {
    let mut text = String::new();
    for v in &c.verdicts {
        text += if v.passed { "P" } else { "F" };
        match v.projection {
            Some(n) => text += &format!(" {n}"),
            None => text += " -",
        }
        for n in &v.values {
            text += &format!(" {n}");
        }
        text.push('\n');
    }
    let (passed, failed) = c.counts();
    text += &format!("end {} {} {passed} {failed}\n", c.total, c.verdicts.len());
    text
}

/// The original's listing; a panic or an error is its text.
pub fn list(engine: Engine, rules: &Rules) -> String {
    let said = catch_unwind(|| {
        let spec = specification(rules);
        if let Err(e) = spec.projector.validate() {
            return format!("invalid: {e}\n");
        }
        match classify(engine, &spec) {
            Ok(c) => print(&c),
            Err(e) => format!("error: {e}\n"),
        }
    });
    said.unwrap_or_else(|_| "panic\n".to_string())
}

/// The original's total; none where it says that it is too large.
pub fn total(rules: &Rules) -> Option<u128> {
    let total = raw_total_combinations(&specification(rules));
    total.ok().map(|n| n as u128)
}

/// Whether the original says that the domain of a field is empty.
pub fn is_empty(head: &Record) -> bool {
    field(head, std::iter::empty()).is_empty()
}

/// Which axis of a decompose the original's `validate` faults, counted from 1; 0 for the whole,
/// none for no fault.
pub fn bad_axis(head: &Record, members: &[Record]) -> Option<usize> {
    let said = projector(head, members.iter().copied()).validate().err()?;
    let axis = said.strip_prefix("decompose: axis ");
    let digits = axis.and_then(|s| s.split(' ').next());
    Some(digits.map_or(0, |d| d.parse::<usize>().unwrap() + 1))
}

/// The original walks every number of a range: how many that are.
pub fn walked(rules: &Rules) -> i128 {
    let ranged = rules.fields.iter().filter(|f| f.head.b == 1);
    ranged
        .map(|f| i128::from(f.head.q) - i128::from(f.head.p) + 1)
        .sum()
}
