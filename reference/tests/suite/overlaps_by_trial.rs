//! Overlap lists held against demand 3: every slip of a small universe fits
//! an entry exactly when both rules match it, then only that one, and with
//! the fillings that its line shows; and every entry has a slip.

use std::collections::HashMap;
use std::slice::from_ref;

use reference::answers::pairs_answer;
use reference::generate::pairs::pair_line;
use reference::matching::{fillings, match_rule};
use reference::terms::{Field, Filling, Kind, Rule, Slip, Term};
use reference::writing::plain_rule;

use crate::shown::{read_line, Shown};
use crate::support::*;
use crate::universe::*;

/// The lines printed for the pair, read back; none if the list is too long.
fn shown(left: &Rule, right: &Rule) -> Option<Vec<Shown>> {
    let line = [plain_rule(left), plain_rule(right)].join(&b'\t');
    let answer = String::from_utf8(pairs_answer(1, &line)).unwrap();
    let lines = answer.strip_prefix("pair 1\n").unwrap();
    if lines.starts_with("too long") {
        return None;
    }
    Some(lines.lines().map(read_line).collect())
}

/// The values with those of the entry's variables put in.
fn put_in_values(values: &Filling, filling: &Filling) -> Filling {
    let value = |value: &Field| put_in(from_ref(value), filling).remove(0);
    let put = values.iter().map(|(name, terms)| (*name, value(terms)));
    put.collect()
}

/// The entry that the slip fits, if the rules share it.
fn check_slip(left: &Rule, right: &Rule, shown: &[Shown], slip: &Slip) -> Option<usize> {
    let fitting = |at: usize| {
        let filling = fillings(&shown[at].fields, &slip.0).pop()?;
        Some((at, filling))
    };
    let fits: Vec<(usize, Filling)> = (0..shown.len()).filter_map(fitting).collect();
    let (Some(by_left), Some(by_right)) = (match_rule(left, slip), match_rule(right, slip)) else {
        assert!(fits.is_empty(), "{left:?} {right:?} {slip:?}");
        return None;
    };
    assert_eq!(fits.len(), 1, "{left:?} {right:?} {slip:?}");
    let (at, filling) = &fits[0];
    assert_eq!(put_in_values(&shown[*at].left, filling), by_left);
    assert_eq!(put_in_values(&shown[*at].right, filling), by_right);
    Some(*at)
}

/// How many atoms stand before the list variable and how many behind it.
fn around_list(field: &Field) -> Option<(usize, usize)> {
    let at = field.iter().position(Term::is_list)?;
    Some((at, field.len() - at - 1))
}

/// The field's candidate by document 01's numbers, as its place in their
/// order.
fn candidate(left: &Field, right: &Field, field: &Field) -> usize {
    let (Some((h1, t1)), Some((h2, t2))) = (around_list(left), around_list(right)) else {
        let without_list = [left, right]
            .into_iter()
            .find(|side| !side.iter().any(Term::is_list));
        assert_eq!(field.len(), without_list.unwrap().len());
        assert!(!field.iter().any(Term::is_list));
        return 0;
    };
    let (h, t, m) = (h1.max(h2), t1.max(t2), (h1 + t1).max(h2 + t2));
    match around_list(field) {
        Some(around) => {
            assert_eq!(around, (h, t));
            h + t
        }
        None => {
            assert!(m <= field.len() && field.len() < h + t);
            field.len()
        }
    }
}

fn check_order(left: &Rule, right: &Rule, shown: &[Shown]) {
    let choice = |entry: &Shown| -> Vec<usize> {
        let sides = left.left.iter().zip(&right.left).zip(&entry.fields);
        sides
            .map(|((left, right), field)| candidate(left, right, field))
            .collect()
    };
    let choices: Vec<Vec<usize>> = shown.iter().map(choice).collect();
    assert!(
        choices.windows(2).all(|two| two[0] < two[1]),
        "{left:?} {right:?}"
    );
}

/// By first occurrence the numbers of each type are 0, 1, 2 and so on.
fn check_numbers(entry: &Shown) {
    let mut next: HashMap<Kind, u32> = HashMap::new();
    for term in entry.fields.iter().flatten() {
        if let Term::Var(kind, number) = term {
            let next = next.entry(*kind).or_default();
            assert!(*number <= *next);
            *next = (*next).max(number + 1);
        }
    }
}

fn check_texts(left: &Rule, right: &Rule, shown: &[Shown]) {
    check_order(left, right, shown);
    for entry in shown {
        check_numbers(entry);
        assert_eq!(
            entry.left.keys().copied().collect::<Vec<_>>(),
            names_of(&left.left)
        );
        assert_eq!(
            entry.right.keys().copied().collect::<Vec<_>>(),
            names_of(&right.left)
        );
        // Put into the rules, the values give the entry's fields.
        assert_eq!(put_in(&left.left, &entry.left), entry.fields);
        assert_eq!(put_in(&right.left, &entry.right), entry.fields);
    }
}

/// Rules of so many fields, each of up to so many atoms. An entry's field has
/// up to twice as many; the slips' fields have up to `more` items on top, for
/// its list variable to take.
fn compare(size: (usize, usize), more: usize, constants: &[Term], pairs: usize, seed: u64) {
    let (fields, atoms) = size;
    let mut draw = Draw::new(seed);
    let slips = all_slips(fields, &all_runs(constants, 2 * atoms + more));
    let (mut entries, mut several) = (0, 0);
    for _ in 0..pairs {
        let left = small_rule(fields, atoms, constants, &mut draw);
        let right = small_rule(fields, atoms, constants, &mut draw);
        let shown = shown(&left, &right).unwrap();
        check_texts(&left, &right, &shown);
        let mut has_slip = vec![false; shown.len()];
        for slip in &slips {
            if let Some(at) = check_slip(&left, &right, &shown, slip) {
                has_slip[at] = true;
            }
        }
        assert!(has_slip.iter().all(|&has| has), "{left:?} {right:?}");
        entries += shown.len();
        several += usize::from(shown.len() > 1);
    }
    assert!(
        entries > pairs / 2 && several > pairs / 20,
        "{entries} {several}"
    );
}

#[test]
fn one_field() {
    compare((1, 3), 1, &[int(1), int(-1), string("1")], 200, 1);
}

#[test]
fn two_fields() {
    compare((2, 2), 1, &[int(1), string(" ")], 60, 2);
}

#[test]
fn three_fields() {
    compare((3, 1), 1, &[int(0), string("")], 80, 3);
}

#[test]
fn four_fields() {
    compare((4, 1), 0, &[int(0), string("|")], 80, 4);
}

/// A value for each variable of the fields.
fn any_filling(fields: &[Field], draw: &mut Draw) -> Filling {
    let integer = |draw: &mut Draw| int(draw.pick(&[0, 1, -1, 2, 7, -7]));
    let text = |draw: &mut Draw| string(draw.pick(&["", "1", "m"]));
    let any = |draw: &mut Draw| {
        if draw.one_in(2) {
            integer(draw)
        } else {
            text(draw)
        }
    };
    let mut value = |kind: Kind| match kind {
        Kind::Integer => vec![integer(draw)],
        Kind::String => vec![text(draw)],
        Kind::Atom => vec![any(draw)],
        Kind::List => (0..draw.below(4)).map(|_| any(draw)).collect(),
    };
    let names = names_of(fields).into_iter();
    names.map(|name| (name, value(name.0))).collect()
}

/// Rules of all sizes: slips of each entry, and slips of each rule that the
/// other may not match.
#[test]
fn generated_pairs() {
    let mut draw = Draw::new(5);
    let mut checked = 0;
    for _ in 0..4_000 {
        let line = pair_line(&mut draw);
        // The longest lists would take most of the time.
        let small = |(left, right): &(Rule, Rule)| {
            left.left.len() * right.left.len() < 16 || line.len() < 300
        };
        let Some((left, right)) = read_pair(&line).filter(small) else {
            continue;
        };
        let Some(shown) = shown(&left, &right) else {
            continue;
        };
        check_texts(&left, &right, &shown);
        for (at, entry) in shown.iter().enumerate().step_by(1 + shown.len() / 8) {
            let slip = Slip(put_in(
                &entry.fields,
                &any_filling(&entry.fields, &mut draw),
            ));
            assert_eq!(check_slip(&left, &right, &shown, &slip), Some(at));
            checked += 1;
        }
        for rule in [&left, &right] {
            let slip = Slip(put_in(&rule.left, &any_filling(&rule.left, &mut draw)));
            check_slip(&left, &right, &shown, &slip);
        }
    }
    assert!(checked > 3_000, "{checked}");
}

/// The kinds of answer: how many entries, the refusals by side and number,
/// too long a list or line.
fn answer_kind(line: &[u8]) -> String {
    let answer = String::from_utf8(pairs_answer(1, line)).unwrap();
    let text = answer.strip_prefix("pair 1\n").unwrap();
    let words: Vec<&str> = text.split(' ').collect();
    match words[0] {
        "refused" => words[1..3].join(" "),
        "too" => "too long".to_string(),
        "line" => "line too long".to_string(),
        _ => match text.lines().count() {
            0 => "no entry".to_string(),
            1 => "one entry".to_string(),
            2..=9 => "several entries".to_string(),
            _ => "many entries".to_string(),
        },
    }
}

#[test]
fn generated_lines_have_every_answer() {
    let expected = [
        "no entry",
        "one entry",
        "several entries",
        "many entries",
        "too long",
        "line too long",
        "left 1",
        "left 2",
        "left 3",
        "left 4",
        "left 5",
        "left 6",
        "left 10",
        "right 1",
        "right 2",
        "right 3",
        "right 4",
        "right 5",
        "right 6",
        "right 10",
    ];
    let mut draw = Draw::new(0);
    assert_every_kind(&expected, 5, 6_000, || pair_line(&mut draw), answer_kind);
}
