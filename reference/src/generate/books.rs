//! Books for `book`: up to 18 lines. More than half of them are read, with
//! overlaps in none, some or all of the pairs; every refusal comes, and on any
//! line.

use super::halves::rule_text;
use super::pairs::{abstracted, change_field, common_slip, recurring_rule};
use super::patterns::{any_kinds, few_constant, insert_list, pattern, sliders, turn_a_sign};
use super::{any_bytes, any_left, damaged, of_size, rarely_a_rule, Texts, KINDS};
use crate::draw::Draw;
use crate::terms::{Field, Kind, Side, Term};

/// Full books and those around them come often.
const COUNTS: [usize; 18] = [1, 2, 2, 3, 3, 4, 4, 5, 6, 7, 8, 10, 12, 15, 16, 16, 17, 18];

/// The whole input, with or without its last newline.
pub fn any_book(draw: &mut Draw) -> Vec<u8> {
    let lines = any_lines(draw);
    let mut book = lines.join(&b'\n');
    if !lines.is_empty() && draw.below(4) > 0 {
        book.push(b'\n');
    }
    book
}

fn any_lines(draw: &mut Draw) -> Texts {
    let rules = any_rules(draw);
    let mut lines: Texts = rules.iter().map(|left| rule_text(left, draw)).collect();
    match draw.below(12) {
        0..=5 => {}
        6..=7 => copy_a_line(&mut lines, draw),
        8 => overfill(&mut lines, draw),
        9 if draw.one_in(6) => lines.clear(),
        9..=10 => replace_a_line(&mut lines, draw),
        _ => {
            replace_a_line(&mut lines, draw);
            replace_a_line(&mut lines, draw);
        }
    }
    lines
}

/// Left sides, as many as it may be.
fn any_rules(draw: &mut Draw) -> Vec<Side> {
    let count = draw.pick(&COUNTS);
    match draw.below(16) {
        0..=4 => small_rules(count, draw),
        5..=6 => around_a_slip(count, draw),
        7..=9 => disjoint(count, draw),
        10..=11 => (0..count).map(|_| pattern(draw)).collect(),
        12 => (0..count).map(|_| any_left(draw)).collect(),
        13 => {
            let fields = 1 + draw.below(4);
            (0..count).map(|_| recurring_rule(fields, draw)).collect()
        }
        14 => sliding(count, draw),
        _ => late_clashes(draw),
    }
}

/// Few terms of few names and constants, in as many fields each.
fn small_rules(count: usize, draw: &mut Draw) -> Vec<Side> {
    let fields = 1 + draw.below(4);
    let lists = draw.pick(&[2, 3, 6]);
    let constants = [
        Term::Int(0),
        Term::Int(7),
        Term::Int(-7),
        Term::Str(b"7".to_vec()),
        Term::Str(Vec::new()),
    ];
    let field = |index: usize, draw: &mut Draw| {
        let atom = |draw: &mut Draw| match draw.below(2) {
            0 => constants[draw.below(constants.len())].clone(),
            _ => Term::Var(draw.pick(&KINDS[..3]), draw.below(2) as u32),
        };
        let mut terms: Field = (0..=draw.below(3)).map(|_| atom(draw)).collect();
        if draw.one_in(lists) {
            insert_list(&mut terms, index, draw);
        }
        terms
    };
    let rule = |draw: &mut Draw| (0..fields).map(|index| field(index, draw)).collect();
    (0..count).map(|_| rule(draw)).collect()
}

/// Rules that match the same slip, some of them with one thing changed, after
/// which they may not.
fn around_a_slip(count: usize, draw: &mut Draw) -> Vec<Side> {
    let slip = common_slip(draw);
    let changes = draw.pick(&[2, 4, 100]);
    let rule = |draw: &mut Draw| {
        let mut rule = abstracted(&slip, draw);
        if draw.one_in(changes) {
            let at = draw.below(rule.len());
            change_field(&mut rule[at], draw);
        }
        if draw.one_in(2 * changes) {
            turn_a_sign(&mut rule, draw);
        }
        rule
    };
    (0..count).map(|_| rule(draw)).collect()
}

/// No two overlap: at one end of the same field each has a constant of its
/// own.
fn disjoint(count: usize, draw: &mut Draw) -> Vec<Side> {
    let shown = draw.below(4);
    let at_end = draw.one_in(2);
    let strings = draw.one_in(2);
    let rule = |number: usize| {
        let mut rule = pattern(draw);
        rule.resize(rule.len().max(shown + 1), vec![few_constant(draw)]);
        let own = match strings {
            true => Term::Str(number.to_string().into_bytes()),
            false => Term::Int(number as i64),
        };
        let field = &mut rule[shown];
        field.truncate(15);
        let at = if at_end { field.len() } else { 0 };
        field.insert(at, own);
        rule
    };
    (0..count).map(rule).collect()
}

/// Rules whose fields can lie on each other in many lengths.
fn sliding(count: usize, draw: &mut Draw) -> Vec<Side> {
    let fields = 1 + draw.below(3);
    let mut rules = Vec::new();
    while rules.len() < count {
        let (left, right) = sliders(fields, [15, 6, 3][fields - 1], draw);
        rules.extend([left, right]);
    }
    rules.truncate(count);
    rules
}

/// Few rules of long fields with list variables at either end, and last atoms
/// that often clash: most choices are tried in vain.
fn late_clashes(draw: &mut Draw) -> Vec<Side> {
    let count = 2 + draw.below(3);
    let fields = if draw.one_in(8) { 4 } else { 1 + draw.below(3) };
    let kinds = any_kinds(draw);
    let names = draw.pick(&[1, 3, 16]);
    let atoms = 12 + draw.below(3);
    let field = |index: usize, draw: &mut Draw| {
        let atom = |draw: &mut Draw| Term::Var(draw.pick(kinds), draw.below(names) as u32);
        let mut field: Field = (0..atoms).map(|_| atom(draw)).collect();
        let at = draw.pick(&[0, atoms]);
        field.insert(at, Term::Var(Kind::List, index as u32));
        field
    };
    let rule = |draw: &mut Draw| {
        let mut rule: Side = (0..fields).map(|index| field(index, draw)).collect();
        rule[fields - 1].push(few_constant(draw));
        rule
    };
    (0..count).map(|_| rule(draw)).collect()
}

/// The same line at two positions, now and then at more.
fn copy_a_line(lines: &mut Texts, draw: &mut Draw) {
    let copies = draw.pick(&[1, 1, 1, 2, 5]);
    let line = lines[draw.below(lines.len())].clone();
    for _ in 0..copies {
        if lines.len() < 18 {
            let at = draw.below(lines.len() + 1);
            lines.insert(at, line.clone());
        }
    }
}

/// As many lines as a book can have, and one or two behind them that may be
/// anything.
fn overfill(lines: &mut Texts, draw: &mut Draw) {
    let line = lines[0].clone();
    lines.resize(16, line);
    for _ in 0..=draw.below(2) {
        let line = any_offence(draw);
        lines.push(line);
    }
}

fn replace_a_line(lines: &mut Texts, draw: &mut Draw) {
    let at = draw.below(lines.len());
    lines[at] = any_offence(draw);
}

/// A line that is seldom a rule.
fn any_offence(draw: &mut Draw) -> Vec<u8> {
    match draw.below(10) {
        0 => Vec::new(),
        1 => of_size(draw),
        2 => any_bytes(draw),
        3 => {
            let rule = rule_text(&pattern(draw), draw);
            damaged(rule, draw)
        }
        _ => rarely_a_rule(draw),
    }
}
