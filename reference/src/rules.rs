//! The failure rules and the transformation rules of document 001, Figures 5
//! and 6, as document 01 amends them. Each stands under the paper's rule, in
//! which x and y are variables, a and b atoms, s a term, f the fresh list
//! variable.

use std::slice::from_ref;

use crate::graph::Side;
use crate::terms::{Kind, Term};
use Item::{Atom, Constant, List};

/// A term of an equation. Variables of the two sides that are spelled alike
/// are kept apart; of list variables only the number counts.
#[derive(Clone, Debug, PartialEq, Eq, Hash)]
pub(crate) enum Item {
    Constant(Term),
    Atom(Side, Kind, u32),
    List(u32),
}

impl Item {
    fn is_list(&self) -> bool {
        matches!(self, List(_))
    }

    fn is_variable(&self) -> bool {
        !matches!(self, Constant(_))
    }

    pub(crate) fn kind(&self) -> Kind {
        match self {
            Constant(Term::Str(_)) => Kind::String,
            Constant(_) => Kind::Integer,
            Atom(_, kind, _) => *kind,
            List(_) => Kind::List,
        }
    }
}

/// One side of an equation; `empty` is dropped.
pub(crate) type Items = Vec<Item>;

pub(crate) type Equation = (Items, Items);

/// A variable and its value.
pub(crate) type Binding = (Item, Items);

/// What a rule makes of an equation. It is solved where no equation is left.
pub(crate) struct Step {
    pub binding: Option<Binding>,
    pub equation: Option<Equation>,
}

/// What each rule that applies makes of the equation, in document 01's order;
/// nothing where a failure rule applies.
pub(crate) fn steps(equation: &Equation, fresh: Item) -> Vec<Step> {
    let (left, right) = equation;
    if fails(left, right) {
        return Vec::new();
    }
    let sides = Sides { left, right, fresh };
    RULES.iter().filter_map(|rule| rule(&sides)).collect()
}

/// The items with the variable's value in its place.
pub(crate) fn put((variable, value): &Binding, items: &[Item]) -> Items {
    let put = |item: &Item| {
        if item == variable {
            value.clone()
        } else {
            vec![item.clone()]
        }
    };
    items.iter().flat_map(put).collect()
}

/// The type order.
fn at_or_below(lower: Kind, upper: Kind) -> bool {
    lower == upper || upper == Kind::List || (upper == Kind::Atom && lower != Kind::List)
}

/// One item has its own type, any other number of them is a list.
fn kind_of(items: &[Item]) -> Kind {
    match items {
        [item] => item.kind(),
        _ => Kind::List,
    }
}

fn fails(left: &[Item], right: &[Item]) -> bool {
    match (left, right) {
        // Clash1: a : L = b : M, a and b differ and have no variables.
        ([Constant(a), ..], [Constant(b), ..]) => a != b,
        // Clash2 and Clash3: a : L = empty, empty = a : L.
        ([a, ..], []) | ([], [a, ..]) => !a.is_list(),
        // Occur: x = L, x in L and not all of it, x of type list.
        // Clash4: x = L, incomparable types.
        ([x], _) if x.is_variable() => {
            let occurs = x.is_list() && right.contains(x) && left != right;
            let (variable, value) = (x.kind(), kind_of(right));
            occurs || !(at_or_below(variable, value) || at_or_below(value, variable))
        }
        _ => false,
    }
}

struct Sides<'a> {
    left: &'a [Item],
    right: &'a [Item],
    fresh: Item,
}

const RULES: [fn(&Sides) -> Option<Step>; 14] = [
    remove,
    decomp1,
    decomp1_atom,
    decomp2,
    decomp2_right,
    decomp3,
    decomp4,
    subst1,
    subst2,
    subst3,
    orient1,
    orient2,
    orient3,
    orient4,
];

fn solved(binding: Option<Binding>) -> Option<Step> {
    Some(Step {
        binding,
        equation: None,
    })
}

fn left_over(binding: Option<Binding>, left: &[Item], right: &[Item]) -> Option<Step> {
    Some(Step {
        binding,
        equation: Some((left.to_vec(), right.to_vec())),
    })
}

/// L = L, and nothing is left.
fn remove(sides: &Sides) -> Option<Step> {
    if sides.left == sides.right {
        solved(None)
    } else {
        None
    }
}

/// The list variable at the left's head, and what is behind it, where that is
/// not empty.
fn list_head<'a>(sides: &Sides<'a>) -> Option<(&'a Item, &'a [Item])> {
    match sides.left {
        [x, rest @ ..] if x.is_list() && !rest.is_empty() => Some((x, rest)),
        _ => None,
    }
}

/// x : L = s : M, x is s.
fn decomp1(sides: &Sides) -> Option<Step> {
    let (x, left) = list_head(sides)?;
    let (s, right) = sides.right.split_first()?;
    left_over(Some((x.clone(), vec![s.clone()])), left, right)
}

/// Whether the variable x of type atom or below may have the other atom a.
fn takes(x: &Item, a: &Item) -> bool {
    matches!(x, Atom(..)) && !a.is_list() && x != a && at_or_below(a.kind(), x.kind())
}

/// Decomp1', x : L = a : M, x is a, here and in what is left.
fn decomp1_atom(sides: &Sides) -> Option<Step> {
    let (x, left) = sides.left.split_first()?;
    let (a, right) = sides.right.split_first()?;
    if left.is_empty() || !takes(x, a) {
        return None;
    }
    let binding = (x.clone(), vec![a.clone()]);
    let (left, right) = (put(&binding, left), put(&binding, right));
    left_over(Some(binding), &left, &right)
}

/// x : L = y : M, x is y : f, and f : L = M is left.
fn decomp2(sides: &Sides) -> Option<Step> {
    let (x, left) = list_head(sides)?;
    let (y, right) = sides.right.split_first().filter(|(y, _)| y.is_list())?;
    let f = &sides.fresh;
    let left = [from_ref(f), left].concat();
    left_over(Some((x.clone(), vec![y.clone(), f.clone()])), &left, right)
}

/// Decomp2', x : L = y : M, y is x : f, and L = f : M is left.
fn decomp2_right(sides: &Sides) -> Option<Step> {
    let (x, left) = list_head(sides)?;
    let (y, right) = sides.right.split_first().filter(|(y, _)| y.is_list())?;
    let f = &sides.fresh;
    let right = [from_ref(f), right].concat();
    left_over(Some((y.clone(), vec![x.clone(), f.clone()])), left, &right)
}

/// s : L = s : M.
fn decomp3(sides: &Sides) -> Option<Step> {
    match (sides.left, sides.right) {
        ([s, left @ ..], [t, right @ ..]) if s == t => left_over(None, left, right),
        _ => None,
    }
}

/// x = a : y, x is a, and empty = y is left.
fn decomp4(sides: &Sides) -> Option<Step> {
    match (sides.left, sides.right) {
        ([x], [a, y]) if takes(x, a) && y.is_list() => {
            left_over(Some((x.clone(), vec![a.clone()])), &[], from_ref(y))
        }
        _ => None,
    }
}

/// x = L, x is L, which does not have x and is of no higher type.
fn subst1(sides: &Sides) -> Option<Step> {
    match sides.left {
        [x] if x.is_variable()
            && !sides.right.contains(x)
            && at_or_below(kind_of(sides.right), x.kind()) =>
        {
            solved(Some((x.clone(), sides.right.to_vec())))
        }
        _ => None,
    }
}

/// x : L = M, x is empty.
fn subst2(sides: &Sides) -> Option<Step> {
    let (x, left) = list_head(sides)?;
    left_over(Some((x.clone(), Vec::new())), left, sides.right)
}

/// x : L = a : M, x is a : f, and f : L = M is left.
fn subst3(sides: &Sides) -> Option<Step> {
    let (x, left) = list_head(sides)?;
    let (a, right) = sides.right.split_first().filter(|(a, _)| !a.is_list())?;
    let f = &sides.fresh;
    let left = [from_ref(f), left].concat();
    left_over(Some((x.clone(), vec![a.clone(), f.clone()])), &left, right)
}

fn exchanged(sides: &Sides) -> Option<Step> {
    left_over(None, sides.right, sides.left)
}

/// a : M = x : L, a no variable.
fn orient1(sides: &Sides) -> Option<Step> {
    match (sides.left, sides.right) {
        ([Constant(_), ..], [x, ..]) if x.is_variable() => exchanged(sides),
        _ => None,
    }
}

/// x : L = y of one type, L not empty.
fn orient2(sides: &Sides) -> Option<Step> {
    match (sides.left, sides.right) {
        ([x, _, ..], [y]) if x.is_variable() && y.is_variable() && x.kind() == y.kind() => {
            exchanged(sides)
        }
        _ => None,
    }
}

/// y : M = x : L, y of lower type than x.
fn orient3(sides: &Sides) -> Option<Step> {
    match (sides.left, sides.right) {
        ([y, ..], [x, ..])
            if y.is_variable()
                && x.is_variable()
                && y.kind() != x.kind()
                && at_or_below(y.kind(), x.kind()) =>
        {
            exchanged(sides)
        }
        _ => None,
    }
}

/// empty = x : L, x of type list.
fn orient4(sides: &Sides) -> Option<Step> {
    match (sides.left, sides.right) {
        ([], [x, ..]) if x.is_list() => exchanged(sides),
        _ => None,
    }
}
