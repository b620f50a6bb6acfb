//! Lines for `carry`: a rule, a tab and a slip. Most rules match and have a
//! right side; many results have about as many terms as a field may have.

use super::halves::{of_line_size, rule_text, side_text, slip_text, tabbed, with_other_tabs};
use super::matches::{almost_matching, any_start, matching, with_long_slip, with_other_sign};
use super::patterns::{few_constant, filling, pattern};
use super::rights::{names_of, right_side, with_arrow, wrong_right};
use super::{any_bytes, any_line, any_slip, damaged, rarely_a_rule};
use crate::draw::Draw;
use crate::terms::{filled, Field, Kind, Side, Term};

/// As long as a line may be.
const LIMIT: usize = 12_289;

/// A line without its newline: any bytes but 10.
pub fn carry_line(draw: &mut Draw) -> Vec<u8> {
    match draw.below(25) {
        0..=6 => line(matching(draw), draw),
        7..=10 => near_the_limit(draw),
        11..=13 => line(almost_matching(draw), draw),
        14 => line(with_other_sign(draw), draw),
        15 => line(with_long_slip(draw), draw),
        16 => {
            let (left, slip) = matching(draw);
            tabbed(side_text(&left, draw), slip_text(&slip, draw))
        }
        17 => {
            let (left, slip) = matching(draw);
            let rule = with_arrow(side_text(&left, draw), wrong_right(&left, draw));
            tabbed(rule, slip_text(&slip, draw))
        }
        18..=19 => tabbed(rarely_a_rule(draw), slip_text(&any_slip(draw).0, draw)),
        20..=21 => tabbed(rule_text(&pattern(draw), draw), any_line(draw)),
        22 => with_other_tabs(line(matching(draw), draw), draw),
        23 => damaged(line(matching(draw), draw), draw),
        _ if draw.one_in(2) => any_bytes(draw),
        _ => of_line_size(any_start(draw), LIMIT, draw),
    }
}

/// The left side with some right side, and the slip.
fn line((left, slip): (Side, Side), draw: &mut Draw) -> Vec<u8> {
    let right = right_side(&left, draw);
    whole_line(&left, &right, &slip, draw)
}

fn whole_line(left: &[Field], right: &[Field], slip: &[Field], draw: &mut Draw) -> Vec<u8> {
    let rule = with_arrow(side_text(left, draw), side_text(right, draw));
    tabbed(rule, slip_text(slip, draw))
}

/// A result with a field of 62 to 67 terms, most of them from some copies of
/// one list variable.
fn near_the_limit(draw: &mut Draw) -> Vec<u8> {
    let list = (Kind::List, draw.below(16) as u32);
    let (copies, others, length) = copies_of_run(62 + draw.below(6), draw);
    let mut left = pattern(draw);
    for field in &mut left {
        field.retain(|term| !term.is_list());
    }
    let at = draw.below(left.len());
    left[at].truncate(15.min(64 - length));
    let place = draw.below(left[at].len() + 1);
    left[at].insert(place, Term::Var(list.0, list.1));
    let mut values = filling(&left, 0, draw);
    values.insert(list, (0..length).map(|_| few_constant(draw)).collect());

    let mut right = right_side(&left, draw);
    let mut field = vec![Term::Var(list.0, list.1); copies];
    for _ in 0..others {
        let place = draw.below(field.len() + 1);
        field.insert(place, atom_of(&left, draw));
    }
    let at = draw.below(right.len());
    right[at] = field;
    whole_line(&left, &right, &filled(&left, &values), draw)
}

/// How many copies of a run and how many other terms make a field of so many
/// terms, and how long the run is.
fn copies_of_run(terms: usize, draw: &mut Draw) -> (usize, usize, usize) {
    let mut ways = Vec::new();
    for copies in 1..=16 {
        for others in 0..=16 - copies {
            let length = (terms - others) / copies;
            if copies * length + others == terms && length <= 64 {
                ways.push((copies, others, length));
            }
        }
    }
    draw.pick(&ways)
}

/// A constant, or a variable of the side that stands for one.
fn atom_of(side: &[Field], draw: &mut Draw) -> Term {
    let mut names = names_of(side);
    names.retain(|name| name.0 != Kind::List);
    if names.is_empty() || draw.one_in(2) {
        return few_constant(draw);
    }
    let (kind, number) = draw.pick(&names);
    Term::Var(kind, number)
}
