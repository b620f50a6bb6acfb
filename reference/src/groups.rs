//! Points of a graph that are joined one by one, each group with what its
//! points can still have as their value: enough to see at once which line
//! kills a candidate.

use crate::graph::Index;
use crate::terms::Term;

/// What a group can be: of which types, and the constant that it has to be if
/// it has one.
#[derive(Clone, Copy, Debug)]
struct Value {
    integer: bool,
    string: bool,
    constant: Option<Index>,
}

impl Value {
    /// What both can be, if there is anything.
    fn and(self, other: Value) -> Option<Value> {
        let constant = match (self.constant, other.constant) {
            (Some(one), Some(other)) if one != other => return None,
            (one, other) => one.or(other),
        };
        let both = Value {
            integer: self.integer && other.integer,
            string: self.string && other.string,
            constant,
        };
        (both.integer || both.string).then_some(both)
    }
}

/// A point: the next one on the way to the first of its group, which has
/// itself there and the group's value.
#[derive(Clone, Copy, Debug)]
struct Member {
    next: Index,
    value: Value,
}

#[derive(Clone, Debug)]
pub(crate) struct Groups(Vec<Member>);

impl Groups {
    /// Each point for itself. A constant is known by the first point that has
    /// it, whichever rule that one is of.
    pub fn new(terms: &[&Term]) -> Groups {
        let alone = |(index, &term): (Index, &&Term)| Member {
            next: index,
            value: value(term, terms),
        };
        Groups(terms.iter().enumerate().map(alone).collect())
    }

    /// Joins the groups of the two, and tells whether they go together.
    pub fn join(&mut self, one: Index, other: Index) -> bool {
        let (one, other) = (self.first(one), self.first(other));
        if one == other {
            return true;
        }
        let Some(value) = self.0[one].value.and(self.0[other].value) else {
            return false;
        };
        self.0[one].value = value;
        self.0[other].next = one;
        true
    }

    /// The ways are halved as they are gone.
    fn first(&mut self, mut index: Index) -> Index {
        while self.0[index].next != index {
            let next = self.0[index].next;
            self.0[index].next = self.0[next].next;
            index = next;
        }
        index
    }
}

fn value(term: &Term, terms: &[&Term]) -> Value {
    let (some_integer, some_string) = (Term::Int(0), Term::Str(Vec::new()));
    let (integer, string) = match term {
        Term::Int(_) => (true, false),
        Term::Str(_) => (false, true),
        Term::Var(kind, _) => (kind.admits(&some_integer), kind.admits(&some_string)),
    };
    let constant = match term {
        Term::Var(..) => None,
        _ => terms.iter().position(|&other| other == term),
    };
    Value {
        integer,
        string,
        constant,
    }
}
