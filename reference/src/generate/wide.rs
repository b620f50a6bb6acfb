//! The books on which `book` is timed: 16 rules of four fields, each as wide
//! as a field can be. The list variables stand behind the atoms in every
//! other rule and before them in the others, so that each field has the most
//! candidates in 64 of the 120 pairs. It can't in all: of any three rules two
//! have theirs nearer to each other.

use super::Texts;
use crate::terms::{Field, Kind, Side, Term};
use crate::writing::plain_fields;

const RULES: usize = 16;
const FIELDS: usize = 4;
const ATOMS: usize = 15;

/// Every choice of candidates is an entry: 65,536 in each of the 64 pairs, and
/// one in each of the others.
pub fn overlapping_book() -> Vec<u8> {
    book(|rule| (0..FIELDS).map(|number| field(rule, number)).collect())
}

/// The candidates of the first three fields are all good, and those of the
/// last one, 15 in the 64 pairs, all clash at their last atoms. With a
/// sixteenth, nothing in that field would lie on anything, nor clash.
pub fn clashing_book() -> Vec<u8> {
    book(|rule| {
        let mut fields: Side = (0..FIELDS).map(|number| field(rule, number)).collect();
        if let Some(last) = fields.last_mut() {
            last.retain(|term| *term != atom(ATOMS - 1));
            last.push(own_constant(rule));
        }
        fields
    })
}

/// A rule for each number from 0, a line each.
fn book(rule: impl Fn(usize) -> Side) -> Vec<u8> {
    let line = |number| [plain_fields(&rule(number)), b"\n".to_vec()].concat();
    let lines: Texts = (0..RULES).map(line).collect();
    lines.concat()
}

/// Atoms that join with all others, under as many names.
fn field(rule: usize, number: usize) -> Field {
    let mut field: Field = (0..ATOMS).map(atom).collect();
    field.insert([ATOMS, 0][rule % 2], Term::Var(Kind::List, number as u32));
    field
}

fn atom(number: usize) -> Term {
    Term::Var(Kind::Atom, number as u32)
}

/// As long as a string may be, and only its end is the rule's own.
fn own_constant(rule: usize) -> Term {
    Term::Str(format!("fourteen bytes{}", char::from(b'a' + rule as u8)).into_bytes())
}
