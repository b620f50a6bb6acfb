//! Lines for `match`: a rule, a tab and a slip. About half of them match;
//! most others are near to it, and every refusal comes on either side.

use super::halves::{of_line_size, rule_text, slip_text, tabbed, with_other_tabs};
use super::patterns::{few_constant, filling, pattern, turn_a_sign};
use super::{any_bytes, any_line, any_slip, damaged, of_size, rarely_a_rule, LARGEST, LOWEST};
use crate::draw::Draw;
use crate::terms::{filled, Field, Filling, Kind, Side, Term};

/// As long as a line may be.
const LIMIT: usize = 12_289;

/// A line without its newline: any bytes but 10.
pub fn match_line(draw: &mut Draw) -> Vec<u8> {
    match draw.below(26) {
        0..=7 => line(matching(draw), draw),
        8..=11 => line(almost_matching(draw), draw),
        12..=15 => line(with_other_item(draw), draw),
        16 => line(with_other_sign(draw), draw),
        17 => line(with_long_slip(draw), draw),
        18 => line((pattern(draw), any_slip(draw).0), draw),
        19..=20 => tabbed(rarely_a_rule(draw), slip_text(&any_slip(draw).0, draw)),
        21..=22 => tabbed(rule_text(&pattern(draw), draw), any_line(draw)),
        23 => with_other_tabs(line(matching(draw), draw), draw),
        24 => damaged(line(matching(draw), draw), draw),
        _ if draw.one_in(2) => any_bytes(draw),
        _ => of_line_size(any_start(draw), LIMIT, draw),
    }
}

fn line((left, slip): (Side, Side), draw: &mut Draw) -> Vec<u8> {
    tabbed(rule_text(&left, draw), slip_text(&slip, draw))
}

pub(super) fn any_start(draw: &mut Draw) -> Vec<u8> {
    match draw.below(4) {
        0 => Vec::new(),
        1 => any_line(draw),
        2 => of_size(draw),
        _ => rule_text(&pattern(draw), draw),
    }
}

/// A left side and a slip that it matches.
pub(super) fn matching(draw: &mut Draw) -> (Side, Side) {
    let left = pattern(draw);
    let longest = if draw.one_in(8) { 48 } else { 3 };
    let slip = filled(&left, &filling(&left, longest, draw));
    (left, slip)
}

/// One thing about the slip is changed; it may still match, where a list
/// variable takes what changed.
pub(super) fn almost_matching(draw: &mut Draw) -> (Side, Side) {
    let left = pattern(draw);
    let mut slip = filled(&left, &filling(&left, 3, draw));
    if draw.one_in(8) {
        change_fields(&mut slip, draw);
    } else {
        let at = draw.below(slip.len());
        change_field(&mut slip[at], draw);
    }
    (left, slip)
}

/// Another item lies where one of the atoms does, rather a late one. It may
/// still match, where a variable takes that one too.
fn with_other_item(draw: &mut Draw) -> (Side, Side) {
    let left = pattern(draw);
    let values = filling(&left, 3, draw).into_iter();
    let (lists, atoms): (Filling, Filling) = values.partition(|(name, _)| name.0 == Kind::List);
    let mut slip = filled(&left, &atoms);
    let items = slip.iter_mut().flatten().filter(|term| !term.is_list());
    let mut items: Vec<&mut Term> = items.collect();
    if !items.is_empty() {
        let (at, other) = (draw.below(items.len()), draw.below(items.len()));
        let at = at.max(other);
        *items[at] = if draw.one_in(2) {
            few_constant(draw)
        } else {
            of_other_type(items[at], draw)
        };
    }
    (left, filled(&slip, &lists))
}

/// The sign of an integer is turned, on either side. It may still match, where
/// a variable takes that one too.
pub(super) fn with_other_sign(draw: &mut Draw) -> (Side, Side) {
    let (mut left, mut slip) = matching(draw);
    let turned = if draw.one_in(2) { &mut left } else { &mut slip };
    turn_a_sign(turned, draw);
    (left, slip)
}

/// A field more, a field less, or two in each other's place.
fn change_fields(slip: &mut Vec<Field>, draw: &mut Draw) {
    let (at, other) = (draw.below(slip.len()), draw.below(slip.len()));
    match draw.below(3) {
        0 if slip.len() < 4 => slip.insert(at, vec![few_constant(draw)]),
        1 if slip.len() > 1 => {
            slip.remove(at);
        }
        _ => slip.swap(at, other),
    }
}

/// An item more, an item less, or another item in its place.
fn change_field(field: &mut Field, draw: &mut Draw) {
    let at = draw.below(field.len() + 1);
    match draw.below(4) {
        _ if at == field.len() => field.push(few_constant(draw)),
        0 => field.insert(at, few_constant(draw)),
        1 => {
            field.remove(at);
        }
        2 => field[at] = few_constant(draw),
        _ => field[at] = of_other_type(&field[at], draw),
    }
}

/// A constant of the other type that looks alike where there is one.
fn of_other_type(item: &Term, draw: &mut Draw) -> Term {
    match item {
        Term::Int(value) => Term::Str(value.to_string().into_bytes()),
        Term::Str(bytes) => {
            let value = std::str::from_utf8(bytes)
                .ok()
                .and_then(|it| it.parse().ok());
            let within = |value: &i64| (LOWEST..=LARGEST).contains(value);
            Term::Int(value.filter(within).unwrap_or(7))
        }
        Term::Var(..) => few_constant(draw),
    }
}

/// One field of about as many items as are allowed. Its list variable takes
/// most of them.
pub(super) fn with_long_slip(draw: &mut Draw) -> (Side, Side) {
    let mut left = pattern(draw);
    let at = draw.below(left.len());
    let mut slip = filled(&left, &filling(&left, 2, draw));
    let room = (63 + draw.below(3)).saturating_sub(slip[at].len());
    let Some(place) = left[at].iter().position(Term::is_list) else {
        // Without one, the rule's field is too short for this slip.
        slip[at].extend((0..room).map(|_| few_constant(draw)));
        return (left, slip);
    };
    let run: Field = (0..room).map(|_| few_constant(draw)).collect();
    slip[at].splice(place..place, run);
    if draw.one_in(3) {
        left[at].truncate(place + 1);
    }
    (left, slip)
}
