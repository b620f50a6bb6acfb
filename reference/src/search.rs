//! The search for one field pair: document 001's Figure 7, over the rules of
//! [`crate::rules`]. A problem keeps the bindings as they were made, one
//! behind the other; values are worked out for answers only.

use std::collections::{BTreeSet, HashMap, VecDeque};

use crate::graph::Side;
use crate::rules::{put, steps, Binding, Equation, Item, Items};
use crate::terms::{Field, Filling, Kind, Name, Term};

/// What each variable of the two fields is.
#[derive(Clone, Debug, PartialEq, Eq)]
pub struct Answer {
    pub left: Filling,
    pub right: Filling,
}

/// The answers in the order in which they were found, and how many problems
/// waited at most: so many records the row must have.
#[derive(Debug, PartialEq, Eq)]
pub struct Found {
    pub answers: Vec<Answer>,
    pub most_waiting: usize,
}

/// The search over a row of so many records; nothing where a problem was to
/// be put in while as many waited: refusal 9.
pub fn search(left: &Field, right: &Field, row: usize) -> Option<Found> {
    let mut queue = Queue::new(row);
    queue.put_in(Problem::root(left, right))?;
    let mut answers = Vec::new();
    while let Some(problem) = queue.waiting.pop_front() {
        match &problem.equation {
            None => answers.push(answer(left, right, &problem.bindings)),
            Some(equation) => {
                for child in problem.children(equation) {
                    queue.put_in(child)?;
                }
            }
        }
    }
    Some(Found {
        answers,
        most_waiting: queue.most_waiting,
    })
}

struct Queue {
    waiting: VecDeque<Problem>,
    row: usize,
    most_waiting: usize,
}

impl Queue {
    fn new(row: usize) -> Queue {
        Queue {
            waiting: VecDeque::new(),
            row,
            most_waiting: 0,
        }
    }

    fn put_in(&mut self, problem: Problem) -> Option<()> {
        if self.waiting.len() >= self.row {
            return None;
        }
        self.waiting.push_back(problem);
        self.most_waiting = self.most_waiting.max(self.waiting.len());
        Some(())
    }
}

struct Problem {
    /// None where it is solved.
    equation: Option<Equation>,
    /// The first was made first.
    bindings: Vec<Binding>,
    /// The list variables that were ever met.
    lists: BTreeSet<u32>,
}

impl Problem {
    fn root(left: &Field, right: &Field) -> Problem {
        let (left, right) = (items(Side::Left, left), items(Side::Right, right));
        let list = |item: &Item| match item {
            Item::List(number) => Some(*number),
            _ => None,
        };
        Problem {
            lists: left.iter().chain(&right).filter_map(list).collect(),
            equation: Some((left, right)),
            bindings: Vec::new(),
        }
    }

    fn children(&self, equation: &Equation) -> Vec<Problem> {
        let unused = |number: &u32| !self.lists.contains(number);
        let fresh = (0..).find(unused).unwrap_or_default();
        let mut children = Vec::new();
        for step in steps(equation, Item::List(fresh)) {
            let mut child = Problem {
                equation: step.equation,
                bindings: self.bindings.clone(),
                lists: self.lists.clone(),
            };
            if let Some((variable, value)) = step.binding {
                if value.contains(&Item::List(fresh)) {
                    child.lists.insert(fresh);
                }
                child.bindings.push((variable, value));
            }
            children.push(child);
        }
        children
    }
}

fn items(side: Side, field: &Field) -> Items {
    field.iter().map(|term| item(side, term)).collect()
}

/// A list variable of the right side counts 16 above its number.
fn item(side: Side, term: &Term) -> Item {
    match (term, side) {
        (Term::Var(Kind::List, number), Side::Left) => Item::List(*number),
        (Term::Var(Kind::List, number), Side::Right) => Item::List(16 + number),
        (Term::Var(kind, number), _) => Item::Atom(side, *kind, *number),
        (constant, _) => Item::Constant(constant.clone()),
    }
}

fn answer(left: &Field, right: &Field, bindings: &[Binding]) -> Answer {
    let mut names = Names::default();
    Answer {
        left: filling(Side::Left, left, bindings, &mut names),
        right: filling(Side::Right, right, bindings, &mut names),
    }
}

/// The values of the field's variables, in the order in which a line shows
/// them.
fn filling(side: Side, field: &Field, bindings: &[Binding], names: &mut Names) -> Filling {
    let name = |term: &Term| match *term {
        Term::Var(kind, number) => Some((kind, number)),
        _ => None,
    };
    let variables: BTreeSet<Name> = field.iter().filter_map(name).collect();
    let mut filling = Filling::new();
    for (kind, number) in variables {
        let itself = vec![item(side, &Term::Var(kind, number))];
        let value = bindings
            .iter()
            .fold(itself, |value, binding| put(binding, &value));
        let value = value.into_iter().map(|item| names.of(item)).collect();
        filling.insert((kind, number), value);
    }
    filling
}

/// Variables "renumbered by first occurrence in the line", from 0 in each
/// type.
#[derive(Default)]
struct Names(HashMap<Item, Term>);

impl Names {
    fn of(&mut self, item: Item) -> Term {
        if let Item::Constant(constant) = item {
            return constant;
        }
        if let Some(term) = self.0.get(&item) {
            return term.clone();
        }
        let kind = item.kind();
        let of_kind = |named: &&Item| named.kind() == kind;
        let number = self.0.keys().filter(of_kind).count() as u32;
        let term = Term::Var(kind, number);
        self.0.insert(item, term.clone());
        term
    }
}
