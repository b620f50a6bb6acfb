//! Rules and slips as values.

use std::collections::BTreeMap;

/// The type of a variable; they stand in the order in which answers show
/// them.
#[derive(Clone, Copy, Debug, PartialEq, Eq, PartialOrd, Ord, Hash)]
pub enum Kind {
    Integer,
    String,
    Atom,
    List,
}

impl Kind {
    /// The type that a variable's letter stands for.
    pub fn from_letter(letter: u8) -> Option<Kind> {
        match letter {
            b'i' => Some(Kind::Integer),
            b's' => Some(Kind::String),
            b'a' => Some(Kind::Atom),
            b'l' => Some(Kind::List),
            _ => None,
        }
    }

    pub fn letter(self) -> u8 {
        match self {
            Kind::Integer => b'i',
            Kind::String => b's',
            Kind::Atom => b'a',
            Kind::List => b'l',
        }
    }

    /// Whether a variable of this type may have this constant as its value;
    /// a list variable has it as a run of one.
    pub fn admits(self, constant: &Term) -> bool {
        match constant {
            Term::Int(_) => self != Kind::String,
            Term::Str(_) => self != Kind::Integer,
            Term::Var(..) => false,
        }
    }
}

/// A term. `empty` is no term here: document 01 counts it in the text and
/// then drops it. Integers are kept by value, so `007` equals `7` and `-0`
/// equals `0`.
#[derive(Clone, Debug, PartialEq, Eq, Hash)]
pub enum Term {
    Int(i64),
    Str(Vec<u8>),
    Var(Kind, u32),
}

impl Term {
    pub fn is_list(&self) -> bool {
        matches!(self, Term::Var(Kind::List, _))
    }
}

pub type Field = Vec<Term>;

/// A variable of a rule, by its type and number.
pub type Name = (Kind, u32);

/// The value of each variable that a rule has, in the order i, s, a, l and
/// then by number.
pub type Filling = BTreeMap<Name, Field>;

/// One side of a rule, field by field.
pub type Side = Vec<Field>;

/// A rule: what it matches, and what it makes of that where it has a right
/// side. Reading returns no right side without fields.
#[derive(Clone, Debug, Default, PartialEq, Eq, Hash)]
pub struct Rule {
    pub left: Side,
    pub right: Option<Side>,
}

impl Rule {
    /// The rule that has a left side only.
    pub fn of(left: Side) -> Rule {
        Rule { left, right: None }
    }
}

/// The fields with the value of each variable in its place. One without a
/// value stands for itself.
pub fn filled(fields: &[Field], filling: &Filling) -> Vec<Field> {
    let value = |term: &Term| match term {
        Term::Var(kind, number) => filling.get(&(*kind, *number)).cloned(),
        _ => None,
    };
    let terms = |term: &Term| value(term).unwrap_or_else(|| vec![term.clone()]);
    let field = |field: &Field| field.iter().flat_map(terms).collect();
    fields.iter().map(field).collect()
}

/// A slip. Reading returns only slips without variables.
#[derive(Clone, Debug, Default, PartialEq, Eq, Hash)]
pub struct Slip(pub Vec<Field>);
