//! Lines for `solve`: two fields, and how much of its row and of its buffer
//! the program lends. Most fields can be made equal, many in several ways;
//! rows and rooms are often just enough, or one too small.

use std::slice::from_mut;

use super::halves::{of_line_size, rule_text, side_text, tabbed, with_other_tabs};
use super::pairs::{abstracted, change_field, recurring_rule};
use super::patterns::{any_kinds, few_constant, pattern, sliders, turn_a_sign};
use super::rights::{right_side, with_arrow};
use super::{any_bytes, any_left, any_line, damaged, rarely_a_rule, with_minuses};
use crate::draw::Draw;
use crate::search::search;
use crate::terms::{Field, Kind, Side, Term};
use crate::writing::answer_line;

/// As long as a line may be.
const LIMIT: usize = 8_204;

const LARGEST_ROW: usize = 640;
const LARGEST_ROOM: usize = 131_072;

/// A line without its newline: any bytes but 10.
pub fn search_line(draw: &mut Draw) -> Vec<u8> {
    match draw.below(24) {
        0..=15 => {
            let (left, right) = fields(draw);
            let sizes = sizes(&left, &right, draw);
            [line(left, right, draw), sizes].concat()
        }
        16..=17 => {
            let (left, right) = fields(draw);
            let sizes = any_sizes(draw);
            [line(left, right, draw), sizes].concat()
        }
        18..=20 => {
            let (left, right) = not_both_fields(draw);
            [tabbed(left, right), any_sizes(draw)].concat()
        }
        21 => {
            let (left, right) = fields(draw);
            let line = [line(left, right, draw), any_sizes(draw)].concat();
            if draw.one_in(2) {
                damaged(line, draw)
            } else {
                with_other_tabs(line, draw)
            }
        }
        22 => any_bytes(draw),
        _ => of_line_size(any_start(draw), LIMIT, draw),
    }
}

fn line(left: Field, right: Field, draw: &mut Draw) -> Vec<u8> {
    tabbed(side_text(&[left], draw), side_text(&[right], draw))
}

fn any_start(draw: &mut Draw) -> Vec<u8> {
    match draw.below(3) {
        0 => Vec::new(),
        1 => any_line(draw),
        _ => {
            let (left, right) = fields(draw);
            line(left, right, draw)
        }
    }
}

/// The two fields of an equation.
fn fields(draw: &mut Draw) -> (Field, Field) {
    match draw.below(22) {
        0..=6 => sharing(draw),
        7..=8 => {
            let (mut left, right) = sharing(draw);
            change_field(&mut left, draw);
            (left, right)
        }
        9..=12 => {
            let most = draw.pick(&[2, 4, 8, 15]);
            let (left, right) = sliders(1, most, draw);
            (first(left), first(right))
        }
        13..=14 => (
            first(recurring_rule(1, draw)),
            first(recurring_rule(1, draw)),
        ),
        15 => (first(pattern(draw)), first(pattern(draw))),
        16 => (first(any_left(draw)), first(any_left(draw))),
        17 => {
            let field = first(pattern(draw));
            (field.clone(), field)
        }
        18 => equal_constants(draw),
        19 => with_other_sign(equal_constants(draw), draw),
        20 => with_other_sign(sharing(draw), draw),
        _ => wide(draw),
    }
}

fn first(rule: Side) -> Field {
    rule.into_iter().next().unwrap_or_default()
}

/// Two fields that match the same items.
fn sharing(draw: &mut Draw) -> (Field, Field) {
    let longest = if draw.one_in(5) { 15 } else { 4 };
    let items: Field = (0..draw.below(longest + 1))
        .map(|_| few_constant(draw))
        .collect();
    let slip = [items];
    (
        first(abstracted(&slip, draw)),
        first(abstracted(&slip, draw)),
    )
}

/// Each equal head is removed, or ends the search where all is equal, so
/// there are many answers, all the same.
fn equal_constants(draw: &mut Draw) -> (Field, Field) {
    let constants: Field = (0..draw.below(17)).map(|_| few_constant(draw)).collect();
    (constants.clone(), constants)
}

fn with_other_sign((mut left, right): (Field, Field), draw: &mut Draw) -> (Field, Field) {
    turn_a_sign(from_mut(&mut left), draw);
    (left, right)
}

/// A list variable at an end of many atoms on one side and among as many on
/// the other: most problems wait there, and lines are longest.
fn wide(draw: &mut Draw) -> (Field, Field) {
    let kinds = any_kinds(draw);
    let constants = draw.pick(&[2, 4, 100]);
    let side = |places: [usize; 3], draw: &mut Draw| {
        let count = 15 - draw.below(6);
        let atom = |number: usize| {
            if draw.one_in(constants) {
                Term::Str(b"fifteen bytes..".to_vec())
            } else {
                Term::Var(draw.pick(kinds), number as u32)
            }
        };
        let mut field: Field = (0..count).map(atom).collect();
        let list = Term::Var(Kind::List, draw.below(16) as u32);
        field.insert(draw.pick(&places).min(count), list);
        field
    };
    let (end, among) = (side([0, 0, 15], draw), side([6, 9, 13], draw));
    if draw.one_in(2) {
        (end, among)
    } else {
        (among, end)
    }
}

/// Two texts that are seldom both rules of one field.
fn not_both_fields(draw: &mut Draw) -> (Vec<u8>, Vec<u8>) {
    let other = match draw.below(5) {
        0 => rule_text(&pattern(draw), draw),
        1 => {
            let left = [first(pattern(draw))];
            let right = right_side(&left, draw);
            with_arrow(side_text(&left, draw), side_text(&right, draw))
        }
        2 => rule_text(&recurring_rule(2, draw), draw),
        3 => with_minuses(draw),
        _ => rarely_a_rule(draw),
    };
    let field = first(pattern(draw));
    let field = side_text(&[field], draw);
    if draw.one_in(2) {
        (other, field)
    } else {
        (field, other)
    }
}

/// The parts behind the fields, often just as much as the search takes, or a
/// little less or more.
fn sizes(left: &Field, right: &Field, draw: &mut Draw) -> Vec<u8> {
    if draw.one_in(4) {
        return Vec::new();
    }
    let Some(found) = search(left, right, LARGEST_ROW) else {
        return Vec::new();
    };
    let bytes: usize = found.answers.iter().map(|a| answer_line(a).len()).sum();
    let row = match draw.below(8) {
        0..=1 => number(draw.below(13), draw),
        2..=5 => number(near(found.most_waiting, LARGEST_ROW, draw), draw),
        _ => b"-".to_vec(),
    };
    let room = match draw.below(8) {
        0..=1 => return [b"\t", row.as_slice()].concat(),
        2..=5 => number(near(bytes, LARGEST_ROOM, draw), draw),
        6 => number(draw.below(bytes + 2), draw),
        _ => b"-".to_vec(),
    };
    [b"\t", row.as_slice(), b"\t", &room].concat()
}

/// One less, so many, or one more, within the limit.
fn near(size: usize, largest: usize, draw: &mut Draw) -> usize {
    (size + draw.below(3)).saturating_sub(1).min(largest)
}

/// The number, now and then with zeros before it.
fn number(number: usize, draw: &mut Draw) -> Vec<u8> {
    let width = if draw.one_in(8) { draw.below(25) } else { 0 };
    format!("{number:0width$}").into_bytes()
}

/// Any parts, numbers and others.
fn any_sizes(draw: &mut Draw) -> Vec<u8> {
    let mut text = Vec::new();
    let count = draw.pick(&[0, 1, 1, 2, 2, 2, 2, 3]);
    for largest in [LARGEST_ROW, LARGEST_ROOM, 1].iter().take(count) {
        text.push(b'\t');
        text.extend(any_size(*largest, draw));
    }
    text
}

fn any_size(largest: usize, draw: &mut Draw) -> Vec<u8> {
    match draw.below(10) {
        0..=1 => number(draw.below(13), draw),
        2..=3 => number(largest - 1 + draw.below(4), draw),
        4 => number(draw.below(2 * largest), draw),
        5..=6 => b"-".to_vec(),
        7 => (u64::MAX - 1 + draw.below(2) as u64)
            .to_string()
            .into_bytes(),
        _ => draw
            .pick(&[
                &b""[..],
                b"x",
                b"--",
                b"-1",
                b"+1",
                b" 1",
                b"1 ",
                b"1x",
                b"0x1",
                b"1.0",
                b"18446744073709551616",
                b"36893488147419103237",
                b"00000000000000000000001",
            ])
            .to_vec(),
    }
}
