//! Right sides, right and wrong, and what stands between the two sides.

use super::patterns::few_constant;
use super::{
    any_left, crowded, damaged, edge_term, list_term, loose_text, offending, quoted, readable,
    small_term, text_of, variable, Maker, Texts, KINDS,
};
use crate::draw::Draw;
use crate::terms::{Field, Kind, Name, Side, Term};
use crate::writing::plain_fields;

const ARROW: &[u8] = b"=>";

/// What may stand where an arrow is looked for. A text that has one of these
/// between its sides is seldom a rule.
const BROKEN_ARROWS: [&[u8]; 23] = [
    b"", b"=", b">", b"= >", b"=x", b"=1", b"=\"", b"==>", b"=>>", b"=>=", b"=>=>", b"->", b">=",
    b" =>", b"=> ", b":=>", b"=>:", b"|=>", b"=>|", b"=\xff>", b"-=>", b"=>-", b"=->",
];

/// The text of a rule with these sides.
pub(super) fn with_arrow(left: Vec<u8>, right: Vec<u8>) -> Vec<u8> {
    [left, right].join(ARROW)
}

/// A right side that the left one allows: its variables, list variables too,
/// in any order and as often as they come.
pub(super) fn right_side(left: &[Field], draw: &mut Draw) -> Side {
    let names = names_of(left);
    let most = if draw.one_in(6) { 16 } else { 4 };
    let field = |draw: &mut Draw| {
        let count = draw.below(most + 1);
        (0..count).map(|_| right_term(&names, draw)).collect()
    };
    (0..=draw.below(4)).map(|_| field(draw)).collect()
}

fn right_term(names: &[Name], draw: &mut Draw) -> Term {
    let lists: Vec<Name> = names
        .iter()
        .filter(|it| it.0 == Kind::List)
        .copied()
        .collect();
    let from = match draw.below(4) {
        0 => &[],
        1 => lists.as_slice(),
        _ => names,
    };
    if from.is_empty() {
        few_constant(draw)
    } else {
        let (kind, number) = draw.pick(from);
        Term::Var(kind, number)
    }
}

/// The variables of the fields, as often as they occur.
pub(super) fn names_of(fields: &[Field]) -> Vec<Name> {
    let name = |term: &Term| match *term {
        Term::Var(kind, number) => Some((kind, number)),
        _ => None,
    };
    fields.iter().flatten().filter_map(name).collect()
}

/// The text of a right side with something in it that is refused, or nearly.
pub(super) fn wrong_right(left: &[Field], draw: &mut Draw) -> Vec<u8> {
    let side = right_side(left, draw);
    let text = |term: &Term| plain_fields(&[vec![term.clone()]]);
    let texts = |field: &Field| field.iter().map(text).collect();
    let mut fields: Vec<Texts> = side.iter().map(texts).collect();
    match draw.below(8) {
        0 => {
            let count = 4 + draw.below(3);
            fields.resize(count, vec![b"1".to_vec()]);
        }
        1 => {
            let count = 15 + draw.below(4);
            let term = draw.pick(&[&b"1"[..], b"-1", b"empty", b"\":\""]);
            let at = draw.below(fields.len());
            fields[at].resize(count, term.to_vec());
        }
        2 => put_in(edge_term(draw), &mut fields, draw),
        3 => {
            put_in(edge_term(draw), &mut fields, draw);
            put_in(other_variable(left, draw), &mut fields, draw);
        }
        _ => put_in(other_variable(left, draw), &mut fields, draw),
    }
    joined(fields)
}

fn put_in(term: Vec<u8>, fields: &mut [Texts], draw: &mut Draw) {
    let field = draw.below(fields.len());
    let at = draw.below(fields[field].len() + 1);
    fields[field].insert(at, term);
}

fn joined(fields: Vec<Texts>) -> Vec<u8> {
    let field = |mut terms: Texts| {
        if terms.is_empty() {
            terms.push(b"empty".to_vec());
        }
        terms.join(&b':')
    };
    let texts: Texts = fields.into_iter().map(field).collect();
    texts.join(&b'|')
}

/// A variable that the left side seldom has: one of its letters with another
/// number, one of its numbers with another letter, or any other.
fn other_variable(left: &[Field], draw: &mut Draw) -> Vec<u8> {
    let names = names_of(left);
    let (kind, number) = if names.is_empty() {
        (Kind::Atom, 0)
    } else {
        draw.pick(&names)
    };
    match draw.below(3) {
        0 => {
            let others = draw.pick(&[1, 8, 10, 14, 15]);
            variable(kind, (number as usize + others) % 16)
        }
        1 => variable(draw.pick(&KINDS), number as usize),
        _ => variable(draw.pick(&KINDS), draw.below(16)),
    }
}

/// A text with an arrow, or something like it, between two sides.
pub(super) fn any_sides(draw: &mut Draw) -> Vec<u8> {
    let left = any_left(draw);
    match draw.below(18) {
        0..=2 => whole(&left, draw),
        3..=4 => damaged(whole(&left, draw), draw),
        5..=9 => with_arrow(loose_text(&left, 16, draw), wrong_right(&left, draw)),
        10..=11 => with_arrow(offending(draw), offending(draw)),
        12 => with_arrow(readable(draw), readable(draw)),
        13..=14 => other_arrows(&left, draw),
        15..=16 => clashing_lists(draw),
        _ => long_sides(draw),
    }
}

/// A left side in which a list variable often clashes, and a right side that
/// often has an unknown variable or one over its limit.
fn clashing_lists(draw: &mut Draw) -> Vec<u8> {
    let fields = 1 + draw.below(3);
    let left = text_of(fields, 4, list_term, draw);
    let term = draw.pick(&[list_term as Maker, list_term, small_term, edge_term]);
    let fields = 1 + draw.below(2);
    with_arrow(left, text_of(fields, 3, term, draw))
}

/// A rule that is read, with both its sides.
fn whole(left: &[Field], draw: &mut Draw) -> Vec<u8> {
    let right = right_side(left, draw);
    with_arrow(loose_text(left, 16, draw), loose_text(&right, 16, draw))
}

/// Good sides, but too many of them or none, or no arrow between them.
fn other_arrows(left: &[Field], draw: &mut Draw) -> Vec<u8> {
    let whole = whole(left, draw);
    let right = plain_fields(&right_side(left, draw));
    match draw.below(5) {
        0 => with_arrow(whole, right),
        1 => with_arrow(Vec::new(), right),
        2 => with_arrow(plain_fields(left), Vec::new()),
        _ => {
            let arrow = draw.pick(&BROKEN_ARROWS);
            [plain_fields(left), right].join(arrow)
        }
    }
}

/// About as many bytes as a rule can have, or as many fields and terms.
fn long_sides(draw: &mut Draw) -> Vec<u8> {
    if draw.one_in(2) {
        return with_arrow(crowded(draw), crowded(draw));
    }
    let length = 13 + draw.below(3);
    let terms = 15 + draw.below(2);
    let side = || vec![vec![quoted(length); terms].join(&b':'); 4].join(&b'|');
    with_arrow(side(), side())
}
