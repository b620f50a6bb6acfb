//! Reading rules and slips. The refusals "are tried in that order, each over
//! the whole text, and the leftmost place is reported" (document 01), so each
//! is a pass of its own, over the left side and then over the right one.

use std::collections::HashSet;
use std::fmt;

use crate::grammar::{self, Fields, Raw, Shape, Stuck};
use crate::terms::{Kind, Name, Rule, Side, Slip, Term};

const MOST_FIELDS: usize = 4;
const MOST_DIGITS: usize = 10;
const MOST_ABOVE_ZERO: u32 = 2_147_483_647;
const MOST_BELOW_ZERO: u32 = 2_147_483_648;
const LARGEST_VARIABLE: u32 = 15;
const LONGEST_STRING: usize = 15;

/// Why a text is not read, by the documents' number, and where.
#[derive(Clone, Copy, Debug, PartialEq, Eq, Hash)]
pub struct Refusal {
    pub number: u8,
    pub place: usize,
}

impl fmt::Display for Refusal {
    fn fmt(&self, out: &mut fmt::Formatter) -> fmt::Result {
        write!(out, "refused {} at {}", self.number, self.place)
    }
}

impl std::error::Error for Refusal {}

/// The limits in which rules and slips differ.
struct Limits {
    bytes: usize,
    terms: usize,
}

const RULE: Limits = Limits {
    bytes: 4096,
    terms: 16,
};

const SLIP: Limits = Limits {
    bytes: 8192,
    terms: 64,
};

/// A term within its limits, with the place of its first byte; `empty` still
/// has its place here and gives no term.
struct Placed {
    place: usize,
    term: Option<Term>,
}

/// The terms of one or more fields.
type PlacedFields = Vec<Vec<Placed>>;

pub fn read_rule(text: &[u8]) -> Result<Rule, Refusal> {
    refuse(1, too_long(text, &RULE))?;
    let sides = within_limits(grammar::rule(text), &RULE)?;
    let mut sides = sides.into_iter();
    let (left, right) = (sides.next().unwrap_or_default(), sides.next());
    refuse(6, surplus_list(&left))?;
    let unknown = right.as_ref().and_then(|it| unknown_variable(&left, it));
    refuse(10, unknown)?;
    Ok(Rule {
        left: without_places(left),
        right: right.map(without_places),
    })
}

pub fn read_slip(text: &[u8]) -> Result<Slip, Refusal> {
    refuse(1, too_long(text, &SLIP))?;
    let parsed = grammar::slip(text).map(|fields| vec![fields]);
    let fields = within_limits(parsed, &SLIP)?.remove(0);
    refuse(7, first_variable(&fields))?;
    Ok(Slip(without_places(fields)))
}

fn too_long(text: &[u8], limits: &Limits) -> Option<usize> {
    (text.len() > limits.bytes).then_some(limits.bytes)
}

/// Refusals 2 to 5, which rules and slips have in common, for all sides of a
/// text: fields and terms are counted anew in each.
fn within_limits(
    parsed: Result<Vec<Fields>, Stuck>,
    limits: &Limits,
) -> Result<Vec<PlacedFields>, Refusal> {
    let sides = parsed.map_err(|Stuck(place)| Refusal { number: 2, place })?;
    let terms = |side: &Fields| surplus_term(side, limits.terms);
    refuse(3, sides.iter().find_map(surplus_field))?;
    refuse(4, sides.iter().find_map(terms))?;
    sides.iter().map(sized_fields).collect()
}

/// Refuses by this number if there is a place for it.
fn refuse(number: u8, place: Option<usize>) -> Result<(), Refusal> {
    match place {
        Some(place) => Err(Refusal { number, place }),
        None => Ok(()),
    }
}

/// The first byte of the fifth field, which is that of its first term.
fn surplus_field(fields: &Fields) -> Option<usize> {
    let fifth = fields.get(MOST_FIELDS)?;
    fifth.first().map(|raw| raw.place)
}

/// The first term of any field that exceeds the number allowed; `empty`
/// counts.
fn surplus_term(fields: &Fields, most: usize) -> Option<usize> {
    let surplus = fields.iter().find_map(|field| field.get(most))?;
    Some(surplus.place)
}

fn sized_fields(fields: &Fields) -> Result<PlacedFields, Refusal> {
    let sized_field = |field: &Vec<Raw>| field.iter().map(sized).collect();
    fields.iter().map(sized_field).collect()
}

/// The term with its value, refused by 5 if it is over a limit.
fn sized(raw: &Raw) -> Result<Placed, Refusal> {
    let place = raw.place;
    let over = Refusal { number: 5, place };
    let term = match raw.shape {
        Shape::Integer { minus, digits } => Some(integer(minus, digits).ok_or(over)?),
        Shape::Quoted(bytes) => Some(string(bytes).ok_or(over)?),
        Shape::Variable(kind, digits) => Some(variable(kind, digits).ok_or(over)?),
        Shape::Empty => None,
    };
    Ok(Placed { place, term })
}

/// Digits are counted as written, without the sign: eleven zeros are too many.
fn integer(minus: bool, digits: &[u8]) -> Option<Term> {
    if digits.len() > MOST_DIGITS {
        return None;
    }
    let value = if minus {
        -i64::from(value_up_to(MOST_BELOW_ZERO, digits)?)
    } else {
        i64::from(value_up_to(MOST_ABOVE_ZERO, digits)?)
    };
    Some(Term::Int(value))
}

fn string(bytes: &[u8]) -> Option<Term> {
    (bytes.len() <= LONGEST_STRING).then(|| Term::Str(bytes.to_vec()))
}

fn variable(kind: Kind, digits: &[u8]) -> Option<Term> {
    value_up_to(LARGEST_VARIABLE, digits).map(|number| Term::Var(kind, number))
}

/// The value of the digits, if it is at most `limit`. Any number of digits
/// will do: a sum that leaves 32 bits is over every limit.
fn value_up_to(limit: u32, digits: &[u8]) -> Option<u32> {
    let value = digits.iter().try_fold(0u32, |value, digit| {
        let digit = u32::from(digit - b'0');
        value.checked_mul(10)?.checked_add(digit)
    })?;
    (value <= limit).then_some(value)
}

/// The first list variable "that occurs earlier in the rule, or that follows
/// another in its field". A right side's "may recur and share a field"
/// (document 02).
fn surplus_list(fields: &[Vec<Placed>]) -> Option<usize> {
    let mut earlier = Vec::new();
    for field in fields {
        let mut has_list = false;
        for placed in field {
            if let Some(Term::Var(Kind::List, number)) = placed.term {
                if has_list || earlier.contains(&number) {
                    return Some(placed.place);
                }
                has_list = true;
                earlier.push(number);
            }
        }
    }
    None
}

fn first_variable(fields: &[Vec<Placed>]) -> Option<usize> {
    let mut placed = fields.iter().flatten();
    let variable = placed.find(|placed| matches!(placed.term, Some(Term::Var(..))))?;
    Some(variable.place)
}

/// The first "right-side variable that the left lacks". The letter tells
/// variables apart as the number does.
fn unknown_variable(left: &[Vec<Placed>], right: &[Vec<Placed>]) -> Option<usize> {
    let variable = |placed: &Placed| match placed.term {
        Some(Term::Var(kind, number)) => Some((kind, number)),
        _ => None,
    };
    let known: HashSet<Name> = left.iter().flatten().filter_map(variable).collect();
    let is_unknown = |placed: &&Placed| variable(placed).is_some_and(|name| !known.contains(&name));
    let unknown = right.iter().flatten().find(is_unknown)?;
    Some(unknown.place)
}

/// The fields alone, each `empty` dropped.
fn without_places(fields: PlacedFields) -> Side {
    let terms = |field: Vec<Placed>| field.into_iter().filter_map(|placed| placed.term);
    fields
        .into_iter()
        .map(|field| terms(field).collect())
        .collect()
}
