//! The atoms of both rules as the points of a graph. Where two of them share
//! a spot a line joins them, and what hangs together has one value.

use crate::groups::Groups;
use crate::terms::{Kind, Term};

#[derive(Clone, Copy, Debug, PartialEq, Eq, Hash)]
pub(crate) enum Side {
    Left,
    Right,
}

/// An atom of one rule: variables of the two that are spelled alike are kept
/// apart.
#[derive(Debug, PartialEq)]
struct Point {
    side: Side,
    term: Term,
}

#[derive(Default)]
pub(crate) struct Points(Vec<Point>);

/// A point by its place in the list of points.
pub(crate) type Index = usize;

/// What the points of a part have as their value.
#[derive(Clone, Debug)]
pub(crate) enum Class {
    Constant(Term),
    Variable(Kind),
}

/// The part that each point belongs to, and the class of each part.
pub(crate) struct Parts {
    pub part_of: Vec<usize>,
    pub classes: Vec<Class>,
}

impl Points {
    /// The atom's point, a new one at its first occurrence.
    pub fn of_atom(&mut self, side: Side, term: &Term) -> Index {
        let term = term.clone();
        let point = Point { side, term };
        match self.0.iter().position(|other| *other == point) {
            Some(index) => index,
            None => {
                self.0.push(point);
                self.0.len() - 1
            }
        }
    }

    /// The variables of one rule, with their points.
    pub fn variables(&self, side: Side) -> impl Iterator<Item = (Index, (Kind, u32))> + '_ {
        let name = move |(index, point): (Index, &Point)| match point.term {
            Term::Var(kind, number) if point.side == side => Some((index, (kind, number))),
            _ => None,
        };
        self.0.iter().enumerate().filter_map(name)
    }

    /// The points before any is joined with another.
    pub fn groups(&self) -> Groups {
        let terms: Vec<&Term> = self.0.iter().map(|point| &point.term).collect();
        Groups::new(&terms)
    }

    /// The parts that the lines make, unless one of them is killed.
    pub fn parts(&self, lines: impl Iterator<Item = (Index, Index)>) -> Option<Parts> {
        let mut neighbours = vec![Vec::new(); self.0.len()];
        for (one, other) in lines {
            neighbours[one].push(other);
            neighbours[other].push(one);
        }
        let mut part_of = vec![None; self.0.len()];
        let mut classes = Vec::new();
        for start in 0..self.0.len() {
            if part_of[start].is_none() {
                let part = flood(start, classes.len(), &neighbours, &mut part_of);
                classes.push(self.class(&part)?);
            }
        }
        let part_of = part_of.into_iter().flatten().collect();
        Some(Parts { part_of, classes })
    }

    /// "Its constant, else its lowest type; two unequal constants, or types
    /// that clash, kill the candidate." A type is known here by whether it
    /// admits an integer and whether it admits a string.
    fn class(&self, part: &[Index]) -> Option<Class> {
        let terms = || part.iter().map(|&index| &self.0[index].term);
        let all_admit = |constant: &Term| {
            terms().all(|term| match term {
                Term::Var(kind, _) => kind.admits(constant),
                other => other == constant,
            })
        };
        if let Some(constant) = terms().find(|term| !matches!(term, Term::Var(..))) {
            return all_admit(constant).then(|| Class::Constant(constant.clone()));
        }
        let (some_integer, some_string) = (Term::Int(0), Term::Str(Vec::new()));
        match (all_admit(&some_integer), all_admit(&some_string)) {
            (true, true) => Some(Class::Variable(Kind::Atom)),
            (true, false) => Some(Class::Variable(Kind::Integer)),
            (false, true) => Some(Class::Variable(Kind::String)),
            (false, false) => None,
        }
    }
}

/// All points that lines lead to from this one, itself among them; they get
/// the part's number.
fn flood(
    start: Index,
    part: usize,
    neighbours: &[Vec<Index>],
    part_of: &mut [Option<usize>],
) -> Vec<Index> {
    let mut reached = vec![start];
    part_of[start] = Some(part);
    let mut next = 0;
    while next < reached.len() {
        for &index in &neighbours[reached[next]] {
            if part_of[index].is_none() {
                part_of[index] = Some(part);
                reached.push(index);
            }
        }
        next += 1;
    }
    reached
}
