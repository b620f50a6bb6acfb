//! Rules in which names and constants recur, and their fillings.

use super::{any_constant, KINDS, LARGEST, LOWEST};
use crate::draw::Draw;
use crate::terms::{Field, Filling, Kind, Side, Term};

/// Half of them below zero, and as far from it as others above.
const FEW_INTEGERS: [i64; 8] = [0, 1, -1, -1, 7, -7, LARGEST, LOWEST];

/// Some look like the integers, like variables, separators or arrows.
const FEW_STRINGS: [&[u8]; 12] = [
    b"",
    b"1",
    b"7",
    b"-7",
    b"-",
    b"m",
    b"i0",
    b"matt white",
    b" :|<>=",
    b"=>",
    b"1=>i0",
    b"fifteen bytes..",
];

/// A constant that comes again soon.
pub(super) fn few_constant(draw: &mut Draw) -> Term {
    match draw.below(8) {
        0..=3 => Term::Int(draw.pick(&FEW_INTEGERS)),
        4..=6 => Term::Str(draw.pick(&FEW_STRINGS).to_vec()),
        _ => any_constant(draw),
    }
}

/// The other sign for one of the integers, where there is one.
pub(super) fn turn_a_sign(fields: &mut [Field], draw: &mut Draw) {
    let mut integers = Vec::new();
    for term in fields.iter_mut().flatten() {
        if let Term::Int(value) = term {
            integers.push(value);
        }
    }
    if !integers.is_empty() {
        let at = draw.below(integers.len());
        // The lowest one has no opposite.
        *integers[at] = (-*integers[at]).min(LARGEST);
    }
}

/// A left side of few names, of all types and in all its fields.
pub(super) fn pattern(draw: &mut Draw) -> Side {
    let most_atoms = if draw.one_in(6) { 16 } else { 4 };
    let names = if draw.one_in(4) { 16 } else { 2 };
    let shift = draw.below(16);
    let mut fields = Vec::new();
    for index in 0..=draw.below(4) {
        let count = draw.below(most_atoms + 1);
        let mut field: Field = (0..count).map(|_| atom(names, draw)).collect();
        if field.len() < 16 && draw.below(3) > 0 {
            insert_list(&mut field, (shift + 3 * index) % 16, draw);
        }
        fields.push(field);
    }
    fields
}

fn atom(names: usize, draw: &mut Draw) -> Term {
    if draw.one_in(3) {
        few_constant(draw)
    } else {
        Term::Var(draw.pick(&KINDS[..3]), draw.below(names) as u32)
    }
}

pub(super) fn insert_list(field: &mut Field, number: usize, draw: &mut Draw) {
    let at = draw.below(field.len() + 1);
    field.insert(at, Term::Var(Kind::List, number as u32));
}

/// Two rules with a list variable in each field and up to so many atoms.
/// Where one has it at the end and the other at the start, the fields can lie
/// on each other in the most lengths.
pub(super) fn sliders(fields: usize, most: usize, draw: &mut Draw) -> (Side, Side) {
    let kinds = any_kinds(draw);
    let constants = draw.pick(&[3, 10, 100]);
    let integers = draw.pick(&[[1, 1, 1, -1], [-1, -1, -1, 1]]);
    let numbers = draw.below(13);
    let (mut left, mut right) = (Vec::new(), Vec::new());
    for index in 0..fields {
        let list = Term::Var(Kind::List, (numbers + index) as u32);
        let mut rules = [&mut left, &mut right];
        if draw.one_in(2) {
            rules.reverse();
        }
        for (end, rule) in rules.into_iter().enumerate() {
            let count = draw.below(most + 1);
            let mut field: Field = (0..count)
                .map(|_| sliding_atom(kinds, constants, &integers, draw))
                .collect();
            let anywhere = draw.below(count + 1);
            let at = draw.pick(&[end * count, end * count, anywhere]);
            field.insert(at, list.clone());
            rule.push(field);
        }
    }
    (left, right)
}

/// One of the integers for every so many atoms.
fn sliding_atom(kinds: &[Kind], constants: usize, integers: &[i64], draw: &mut Draw) -> Term {
    if draw.one_in(constants) {
        Term::Int(draw.pick(integers))
    } else {
        Term::Var(draw.pick(kinds), draw.below(16) as u32)
    }
}

/// The types that a rule's variables are drawn from, so that not all clash.
pub(super) fn any_kinds(draw: &mut Draw) -> &'static [Kind] {
    draw.pick(&[
        &[Kind::Atom][..],
        &[Kind::Atom, Kind::Atom, Kind::Integer],
        &[Kind::String, Kind::Atom],
        &[Kind::Integer, Kind::String, Kind::Atom],
    ])
}

/// A value for each variable of the rule, a list's of up to `longest` items.
pub(super) fn filling(rule: &[Field], longest: usize, draw: &mut Draw) -> Filling {
    let mut filling = Filling::new();
    for term in rule.iter().flatten() {
        if let Term::Var(kind, number) = *term {
            filling.insert((kind, number), value(kind, longest, draw));
        }
    }
    filling
}

fn value(kind: Kind, longest: usize, draw: &mut Draw) -> Field {
    match kind {
        Kind::Integer => vec![Term::Int(draw.pick(&FEW_INTEGERS))],
        Kind::String => vec![Term::Str(draw.pick(&FEW_STRINGS).to_vec())],
        Kind::Atom => vec![few_constant(draw)],
        Kind::List => {
            let length = draw.below(longest + 1);
            (0..length).map(|_| few_constant(draw)).collect()
        }
    }
}
