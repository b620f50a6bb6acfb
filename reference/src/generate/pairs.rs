//! Lines for `pairs`: a rule, a tab and a rule. Most pairs share slips, many
//! of them in several lengths, and every refusal comes on either side.

use super::halves::{of_line_size, rule_text, tabbed, with_other_tabs};
use super::large::any_large;
use super::patterns::{any_kinds, few_constant, insert_list, pattern, sliders, turn_a_sign};
use super::{any_bytes, any_left, any_line, damaged, rarely_a_rule, KINDS};
use crate::draw::Draw;
use crate::terms::{Field, Filling, Kind, Side, Term};

/// As long as a line may be.
const LIMIT: usize = 8_193;

/// A line without its newline: any bytes but 10.
pub fn pair_line(draw: &mut Draw) -> Vec<u8> {
    match draw.below(43) {
        0..=13 => sharing(draw),
        14..=17 => almost_sharing(draw),
        18..=20 => with_other_sign(draw),
        21..=26 => sliding(draw),
        27..=28 => line(&pattern(draw), &pattern(draw), draw),
        29 => line(&any_left(draw), &any_left(draw), draw),
        30..=31 => recurring(draw),
        32 => with_itself(draw),
        33 => {
            let line = any_large(draw);
            with_short_rights(line, draw)
        }
        34..=35 => tabbed(rarely_a_rule(draw), rule_text(&pattern(draw), draw)),
        36..=37 => tabbed(rule_text(&pattern(draw), draw), rarely_a_rule(draw)),
        38 => tabbed(rarely_a_rule(draw), rarely_a_rule(draw)),
        39 => with_other_tabs(sharing(draw), draw),
        40 => damaged(sharing(draw), draw),
        41 => any_bytes(draw),
        _ => of_line_size(any_start(draw), LIMIT, draw),
    }
}

fn line(left: &[Field], right: &[Field], draw: &mut Draw) -> Vec<u8> {
    tabbed(rule_text(left, draw), rule_text(right, draw))
}

/// The line with a short right side behind one rule, behind both, or behind
/// none.
fn with_short_rights(line: Vec<u8>, draw: &mut Draw) -> Vec<u8> {
    let mut rules: Vec<Vec<u8>> = line.split(|&it| it == b'\t').map(<[u8]>::to_vec).collect();
    for rule in &mut rules {
        if draw.one_in(3) {
            rule.extend(draw.pick(&[&b"=>1"[..], b"=>-1", b"=>l0:l0", b"=>empty|\"=>\""]));
        }
    }
    rules.join(&b'\t')
}

fn any_start(draw: &mut Draw) -> Vec<u8> {
    match draw.below(3) {
        0 => Vec::new(),
        1 => any_line(draw),
        _ => rule_text(&pattern(draw), draw),
    }
}

/// Two rules that match the same slip, and so share at least that one.
fn sharing(draw: &mut Draw) -> Vec<u8> {
    let slip = common_slip(draw);
    let (left, right) = (abstracted(&slip, draw), abstracted(&slip, draw));
    line(&left, &right, draw)
}

/// The same with one thing changed, after which they may share nothing.
fn almost_sharing(draw: &mut Draw) -> Vec<u8> {
    let slip = common_slip(draw);
    let (mut left, mut right) = (abstracted(&slip, draw), abstracted(&slip, draw));
    let changed = if draw.one_in(2) {
        &mut left
    } else {
        &mut right
    };
    if draw.one_in(6) {
        change_fields(changed, draw);
    } else {
        let at = draw.below(changed.len());
        change_field(&mut changed[at], draw);
    }
    line(&left, &right, draw)
}

/// The same with the sign of an integer turned, which a variable of the other
/// rule may still take.
fn with_other_sign(draw: &mut Draw) -> Vec<u8> {
    let slip = common_slip(draw);
    let (mut left, right) = (abstracted(&slip, draw), abstracted(&slip, draw));
    turn_a_sign(&mut left, draw);
    line(&left, &right, draw)
}

pub(super) fn common_slip(draw: &mut Draw) -> Vec<Field> {
    let longest = if draw.one_in(5) { 15 } else { 4 };
    let field = |draw: &mut Draw| {
        let length = draw.below(longest + 1);
        (0..length).map(|_| few_constant(draw)).collect()
    };
    (0..=draw.below(4)).map(|_| field(draw)).collect()
}

/// A rule that matches the slip: in some fields a list variable stands for a
/// run of items, and for some items a variable stands.
pub(super) fn abstracted(slip: &[Field], draw: &mut Draw) -> Side {
    let names = draw.pick(&[2, 4, 16]);
    let shift = draw.below(16);
    let mut values = Filling::new();
    let mut fields = Vec::new();
    for (index, items) in slip.iter().enumerate() {
        let atom = |item: &Term| atom_for(item, names, &mut values, draw);
        let mut field: Field = items.iter().map(atom).collect();
        if draw.below(3) > 0 {
            let from = draw.below(field.len() + 1);
            let to = from + draw.below(field.len() - from + 1);
            let list = Term::Var(Kind::List, ((shift + 3 * index) % 16) as u32);
            field.splice(from..to, [list]);
        }
        fields.push(field);
    }
    fields
}

/// The item, or a variable that has no other value in this rule.
fn atom_for(item: &Term, names: usize, values: &mut Filling, draw: &mut Draw) -> Term {
    let own = match item {
        Term::Int(_) => Kind::Integer,
        _ => Kind::String,
    };
    let name = (draw.pick(&[own, Kind::Atom]), draw.below(names) as u32);
    if draw.one_in(3) {
        return item.clone();
    }
    let value = values.entry(name).or_insert_with(|| vec![item.clone()]);
    if value[..] == [item.clone()] {
        Term::Var(name.0, name.1)
    } else {
        item.clone()
    }
}

/// A field more or a field less.
fn change_fields(rule: &mut Side, draw: &mut Draw) {
    if rule.len() < 4 && draw.one_in(2) {
        let at = draw.below(rule.len() + 1);
        rule.insert(at, vec![few_constant(draw)]);
    } else if rule.len() > 1 {
        rule.pop();
    }
}

/// An atom more, an atom less, or another atom in its place.
pub(super) fn change_field(field: &mut Field, draw: &mut Draw) {
    let at = draw.below(field.len() + 1);
    let atom = match draw.below(3) {
        0 => few_constant(draw),
        _ => Term::Var(draw.pick(&KINDS[..3]), draw.below(3) as u32),
    };
    match draw.below(3) {
        0 if field.len() < 16 => field.insert(at, atom),
        1 if at < field.len() => {
            field.remove(at);
        }
        _ if at < field.len() && !field[at].is_list() => field[at] = atom,
        _ => {}
    }
}

/// List variables on both sides and atoms that seldom clash, so that the
/// fields can lie on each other in many lengths.
fn sliding(draw: &mut Draw) -> Vec<u8> {
    let fields = draw.pick(&[1, 1, 1, 2, 2, 3, 4]);
    let most = [15, 6, 3, 2][fields - 1];
    let (left, right) = sliders(fields, most, draw);
    line(&left, &right, draw)
}

/// One or two names at many places of both rules.
fn recurring(draw: &mut Draw) -> Vec<u8> {
    let fields = 1 + draw.below(4);
    let left = recurring_rule(fields, draw);
    let right = recurring_rule(fields, draw);
    line(&left, &right, draw)
}

pub(super) fn recurring_rule(fields: usize, draw: &mut Draw) -> Side {
    let kinds = any_kinds(draw);
    let mut rule = Vec::new();
    for index in 0..fields {
        let atom = |draw: &mut Draw| match draw.below(6) {
            0 => Term::Int(draw.pick(&[0, 1, -1, -1])),
            _ => Term::Var(draw.pick(kinds), draw.below(2) as u32),
        };
        let count = draw.below(5);
        let mut field: Field = (0..count).map(|_| atom(draw)).collect();
        if draw.one_in(2) {
            insert_list(&mut field, index, draw);
        }
        rule.push(field);
    }
    rule
}

fn with_itself(draw: &mut Draw) -> Vec<u8> {
    let rule = pattern(draw);
    line(&rule, &rule, draw)
}
