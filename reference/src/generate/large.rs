//! Pairs whose overlap list is about as long as `pairs` has room for.

use super::halves::tabbed;
use super::patterns::sliders;
use super::{quoted, KINDS};
use crate::draw::Draw;
use crate::terms::{Field, Kind, Term};
use crate::writing::plain_fields;

/// The line of such a pair. Seldom it has as many entries as a pair can have.
pub(super) fn any_large(draw: &mut Draw) -> Vec<u8> {
    match draw.below(200) {
        0 => crossing(4, draw),
        1..=10 => full_list(),
        11..=20 => overfull_list(),
        21..=40 => all_names(draw),
        41..=60 => long_line(draw),
        61..=110 => crossing(2, draw),
        _ => {
            let (fields, most) = draw.pick(&[(2, 15), (3, 10)]);
            let (left, right) = sliders(fields, most, draw);
            tabbed(plain_fields(&left), plain_fields(&right))
        }
    }
}

/// All atoms before the list variables on one side and behind them on the
/// other: each field has 16 candidates, or nearly as many.
fn crossing(fields: usize, draw: &mut Draw) -> Vec<u8> {
    let atoms = 12 + draw.below(4);
    let names = draw.pick(&[1, 2, 3, 16]);
    let constant = Term::Str(vec![b'c'; draw.below(16)]);
    let (mut left, mut right) = (Vec::new(), Vec::new());
    for number in 0..fields {
        let mut field = || {
            let atom = |draw: &mut Draw| match draw.below(12) {
                0 => constant.clone(),
                _ => Term::Var(Kind::Atom, draw.below(names) as u32),
            };
            (0..atoms).map(|_| atom(draw)).collect::<Vec<_>>()
        };
        let list = [Term::Var(Kind::List, number as u32)];
        left.push([field().as_slice(), &list].concat());
        right.push([&list, field().as_slice()].concat());
    }
    tabbed(plain_fields(&left), plain_fields(&right))
}

/// Long strings, other ones in each rule: they can't lie on each other, so
/// there is one entry, and its line is about as long as a line can be.
fn long_line(draw: &mut Draw) -> Vec<u8> {
    let fields = 1 + draw.below(4);
    let atoms = 13 + draw.below(3);
    let (mut left, mut right) = (Vec::new(), Vec::new());
    for number in 0..fields {
        let list = Term::Var(Kind::List, (12 + number) as u32);
        let mut field = vec![Term::Str(vec![b'<'; 15]); atoms];
        field.push(list.clone());
        left.push(field);
        let mut field = vec![Term::Str(vec![b'>'; 15]); atoms];
        field.insert(0, list);
        right.push(field);
    }
    tabbed(plain_fields(&left), plain_fields(&right))
}

/// All 16 names of a type in each rule, none twice. Where the fields lie
/// furthest apart, the entry has 32 variables of that type and a field of up
/// to 31 terms.
fn all_names(draw: &mut Draw) -> Vec<u8> {
    let kind = draw.pick(&KINDS[..3]);
    let in_first = 13 + draw.below(3);
    let mut atoms = || {
        let atom = |number| Term::Var(kind, number);
        let mut first: Field = shuffled_names(draw).into_iter().map(atom).collect();
        let second = first.split_off(in_first);
        [first, second]
    };
    let (mut left, mut right) = (atoms(), atoms());
    for index in 0..2 {
        let list = Term::Var(Kind::List, index as u32);
        left[index].push(list.clone());
        right[index].insert(0, list);
    }
    tabbed(plain_fields(&left), plain_fields(&right))
}

fn shuffled_names(draw: &mut Draw) -> Vec<u32> {
    let mut numbers: Vec<u32> = (0..16).collect();
    for last in (1..16).rev() {
        numbers.swap(last, draw.below(last + 1));
    }
    numbers
}

/// A pair whose list has 65,536 bytes: 130 entries, and a third field that
/// has the same bytes in each of them.
pub fn full_list() -> Vec<u8> {
    let third = constant_field(265);
    let left = format!("a0:{}l0|{}i0:l1|", "1:".repeat(12), "300:".repeat(13));
    let right = format!("l0:{}a0|l1{}|", "1:".repeat(11), ":300".repeat(9));
    [left.as_bytes(), &third, b"\t", right.as_bytes(), &third].concat()
}

/// The same with 65,537 bytes, in 88 entries.
pub fn overfull_list() -> Vec<u8> {
    let others = [constant_field(253), constant_field(253)].join(&b'|');
    let left = format!("a0:{}l0|{}l1|", "300:".repeat(12), "20:".repeat(7));
    let right = format!("l0{}|l1{}|", ":300".repeat(10), ":20".repeat(13));
    [left.as_bytes(), &others, b"\t", right.as_bytes(), &others].concat()
}

/// A field of constants with so many bytes, of strings as long as may be.
fn constant_field(bytes: usize) -> Vec<u8> {
    let mut terms = vec![quoted(15); (bytes - 1) / 18];
    terms.push(match bytes - 18 * terms.len() {
        1 => b"1".to_vec(),
        rest => quoted(rest - 2),
    });
    terms.join(&b':')
}
