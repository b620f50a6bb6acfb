//! How many items of a slip are compared where matching ends at the first
//! test that fails. All tests are written down, those behind a failure too,
//! and counted afterwards.

use crate::terms::{Field, Rule, Slip, Term};

/// A test and whether it passes.
#[derive(Clone, Copy, Debug, PartialEq, Eq)]
pub enum Test {
    /// Rule and slip have as many fields.
    Fields(bool),
    /// The field has an item for each atom, and others only where a list
    /// variable takes them.
    Length(bool),
    /// The item is one that the atom can stand for.
    Item(bool),
}

impl Test {
    pub fn passes(self) -> bool {
        let (Test::Fields(passes) | Test::Length(passes) | Test::Item(passes)) = self;
        passes
    }
}

/// An atom of the rule and the item where it stands.
type Pair<'a> = (&'a Term, &'a Term);

/// How many items are compared, the one that fails included.
pub fn compared(rule: &Rule, slip: &Slip) -> usize {
    let tests = all_tests(rule, slip);
    let failed = tests.iter().position(|test| !test.passes());
    let reached = &tests[..failed.map_or(tests.len(), |at| at + 1)];
    let compares = |test: &&Test| matches!(test, Test::Item(_));
    reached.iter().filter(compares).count()
}

/// The tests of the rule's left side and the slip: the number of fields, then
/// field by field its length and its atoms, all from the left.
pub fn all_tests(rule: &Rule, slip: &Slip) -> Vec<Test> {
    let mut tests = vec![Test::Fields(rule.left.len() == slip.0.len())];
    let mut pairs: Vec<Pair> = Vec::new();
    for (terms, items) in rule.left.iter().zip(&slip.0) {
        let earlier = pairs.len();
        pairs.extend(laid_over(terms, items));
        let item = |at: usize| Test::Item(stands_for(pairs[at], &pairs[..at]));
        tests.push(Test::Length(has_room(terms, items)));
        tests.extend((earlier..pairs.len()).map(item));
    }
    tests
}

fn has_room(terms: &Field, items: &Field) -> bool {
    let atoms = terms.iter().filter(|term| !term.is_list()).count();
    let others = items.len().checked_sub(atoms);
    others.is_some_and(|others| others == 0 || terms.iter().any(Term::is_list))
}

/// Atoms before the list variable lie on the first items, those behind it on
/// the last ones. In a field that is too short some lie on none.
fn laid_over<'a>(terms: &'a Field, items: &'a Field) -> Vec<Pair<'a>> {
    let mut parts = terms.split(Term::is_list);
    let before = parts.next().unwrap_or_default();
    let behind = parts.next().unwrap_or_default();
    let mut last: Vec<Pair> = behind.iter().rev().zip(items.iter().rev()).collect();
    last.reverse();
    before.iter().zip(items).chain(last).collect()
}

/// A variable stands for an item of its type, and wherever it is for the item
/// that it first lies on.
fn stands_for((atom, item): Pair, earlier: &[Pair]) -> bool {
    let Term::Var(kind, _) = atom else {
        return atom == item;
    };
    let first = earlier.iter().find(|(other, _)| *other == atom);
    kind.admits(item) && first.is_none_or(|(_, value)| *value == item)
}
