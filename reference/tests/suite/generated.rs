//! Seeded sets: generated values are written and read back; generated texts
//! with offences against the limits are held against a plain restatement of
//! refusals 3 to 7 and 10; the lines for comparison have every answer.

use std::fmt::Debug;

use reference::generate::{any_line, any_rule, any_slip, loose_rule, loose_text};
use reference::reading::{read_rule, read_slip, Refusal};
use reference::terms::{Kind, Rule, Side, Slip, Term};
use reference::writing::{plain_rule, plain_slip};

use crate::support::*;

#[test]
fn rules_return_from_their_plain_text() {
    let mut draw = Draw::new(1);
    for _ in 0..5_000 {
        let rule = any_rule(&mut draw);
        let plain = plain_rule(&rule);
        let longest = if rule.right.is_some() { 2304 } else { 1151 };
        assert!(!plain.is_empty() && plain.len() <= longest);
        assert_eq!(read_rule(&plain).as_ref(), Ok(&rule));
        let loose = loose_rule(&rule, &mut draw);
        assert_eq!(read_rule(&loose), Ok(rule), "{}", show(&loose));
    }
}

#[test]
fn slips_return_from_their_plain_text() {
    let mut draw = Draw::new(2);
    for _ in 0..2_000 {
        let slip = any_slip(&mut draw);
        let plain = plain_slip(&slip);
        assert!(!plain.is_empty() && plain.len() <= 4607);
        assert_eq!(read_slip(&plain).as_ref(), Ok(&slip));
        let loose = loose_text(&slip.0, 64, &mut draw);
        assert_eq!(read_slip(&loose), Ok(slip), "{}", show(&loose));
    }
}

/// Small rules, so that equal ones come up.
#[test]
fn equal_rules_and_only_they_have_the_same_plain_text() {
    let texts = [
        "1", "01", "-1", "-01", "0", "-0", "empty", "1:empty", "\"1\"", "i1", "s1", "11", "l1",
    ];
    let between = [":", "|", "=>"];
    let mut draw = Draw::new(3);
    let mut read = Vec::new();
    for _ in 0..600 {
        let text = [draw.pick(&texts), draw.pick(&between), draw.pick(&texts)].concat();
        if let Ok(rule) = read_rule(text.as_bytes()) {
            read.push((plain_rule(&rule), rule));
        }
    }
    for (plain, rule) in &read {
        for (other_plain, other) in &read {
            assert_eq!(plain == other_plain, rule == other);
        }
    }
}

/// A term of a text: where it stands, and what it would be if its size is
/// within the limits.
struct Piece {
    side: usize,
    field: usize,
    index: usize,
    place: usize,
    size_ok: bool,
    term: Option<Term>,
}

/// A term's text, whether its size is within the limits, and its value.
fn any_piece(draw: &mut Draw) -> (String, bool, Option<Term>) {
    let oversize = draw.one_in(60);
    match draw.below(8) {
        0 => ("empty".to_string(), true, None),
        1 if oversize => (quoted(16), false, None),
        1 => (quoted(15), true, Some(string("x".repeat(15)))),
        2 if oversize => {
            let text = draw.pick(&["2147483648", "-2147483649"]);
            (text.to_string(), false, None)
        }
        3 if oversize => {
            let text = draw.pick(&["00000000000", "-00000000000"]);
            (text.to_string(), false, None)
        }
        2 => ("0000000012".to_string(), true, Some(int(12))),
        3 => ("-2147483648".to_string(), true, Some(int(-2147483648))),
        4 if draw.one_in(8) => {
            let number = draw.below(17) as u32;
            (format!("l{number}"), number < 16, Some(var(b'l', number)))
        }
        5 if draw.one_in(8) => ("a15".to_string(), true, Some(var(b'a', 15))),
        5 if oversize => ("a16".to_string(), false, None),
        _ => ("3".to_string(), true, Some(int(3))),
    }
}

fn any_text(sides: usize, most_terms: usize, draw: &mut Draw) -> (Vec<u8>, Vec<Piece>) {
    let (mut text, mut pieces) = (String::new(), Vec::new());
    for side in 0..sides {
        add_side(side, most_terms, &mut text, &mut pieces, draw);
    }
    (text.into_bytes(), pieces)
}

fn add_side(
    side: usize,
    most_terms: usize,
    text: &mut String,
    pieces: &mut Vec<Piece>,
    draw: &mut Draw,
) {
    let field_count = if draw.one_in(12) {
        5 + draw.below(3)
    } else {
        1 + draw.below(4)
    };
    for field in 0..field_count {
        let term_count = if draw.one_in(12) {
            most_terms + draw.below(3)
        } else {
            1 + draw.below(most_terms)
        };
        for index in 0..term_count {
            text.push_str(match (side, field, index) {
                (0, 0, 0) => "",
                (_, 0, 0) => "=>",
                (_, _, 0) => "|",
                _ => ":",
            });
            let (written, size_ok, term) = any_piece(draw);
            let place = text.len();
            pieces.push(Piece {
                side,
                field,
                index,
                place,
                size_ok,
                term,
            });
            text.push_str(&written);
        }
    }
}

fn list_number(piece: &Piece) -> Option<u32> {
    match piece.term {
        Some(Term::Var(Kind::List, number)) => Some(number),
        _ => None,
    }
}

/// "A list variable that occurs earlier in the rule, or that follows another
/// in its field."
fn offends_as_list(pieces: &[Piece], at: usize) -> bool {
    let this = &pieces[at];
    this.side == 0
        && list_number(this).is_some()
        && pieces[..at].iter().any(|other| {
            let same_name = list_number(other) == list_number(this);
            same_name || (other.field == this.field && list_number(other).is_some())
        })
}

fn is_variable(piece: &Piece) -> bool {
    matches!(piece.term, Some(Term::Var(..)))
}

/// "A right-side variable that the left lacks."
fn is_unknown(pieces: &[Piece], at: usize) -> bool {
    let this = &pieces[at];
    let on_left = |piece: &Piece| piece.side == 0 && piece.term == this.term;
    this.side == 1 && is_variable(this) && !pieces.iter().any(on_left)
}

/// The lowest-numbered refusal that some piece gives rise to, at the first
/// such piece.
fn expected(pieces: &[Piece], most_terms: usize, of_rule: bool) -> Option<Refusal> {
    let offends = |number: u8, at: usize| match number {
        3 => pieces[at].field >= 4,
        4 => pieces[at].index >= most_terms,
        5 => !pieces[at].size_ok,
        6 => of_rule && offends_as_list(pieces, at),
        7 => !of_rule && is_variable(&pieces[at]),
        _ => of_rule && is_unknown(pieces, at),
    };
    [3, 4, 5, 6, 7, 10].into_iter().find_map(|number| {
        let at = (0..pieces.len()).find(|&at| offends(number, at))?;
        let place = pieces[at].place;
        Some(Refusal { number, place })
    })
}

/// The fields of the side that these pieces are.
fn fields_of<'a>(pieces: impl Iterator<Item = &'a Piece>) -> Side {
    let mut fields = Side::new();
    for piece in pieces {
        fields.resize(piece.field + 1, Vec::new());
        fields[piece.field].extend(piece.term.clone());
    }
    fields
}

fn side_of(pieces: &[Piece], side: usize) -> Side {
    fields_of(pieces.iter().filter(|piece| piece.side == side))
}

/// Reads many texts of so many sides and holds each against what is expected
/// of its pieces. Returns how often each number came, with the accepted texts
/// under 0.
fn compare_limits<T: Debug + PartialEq>(
    (sides, most_terms): (usize, usize),
    of_rule: bool,
    read: fn(&[u8]) -> Result<T, Refusal>,
    value: fn(&[Piece]) -> T,
    seed: u64,
) -> [usize; 11] {
    let mut draw = Draw::new(seed);
    let mut counts = [0; 11];
    for _ in 0..8_000 {
        let (text, pieces) = any_text(sides, most_terms, &mut draw);
        let refusal = expected(&pieces, most_terms, of_rule);
        counts[refusal.map_or(0, |refusal| usize::from(refusal.number))] += 1;
        let answer = refusal.map_or_else(|| Ok(value(&pieces)), Err);
        assert_eq!(read(&text), answer, "{}", show(&text));
    }
    counts
}

#[test]
fn rules_with_offences() {
    let value = |pieces: &[Piece]| Rule::of(side_of(pieces, 0));
    let counts = compare_limits((1, 16), true, read_rule, value, 4);
    for number in [0, 3, 4, 5, 6] {
        assert!(counts[number] >= 50, "{counts:?}");
    }
}

#[test]
fn rules_with_offences_on_either_side() {
    let value = |pieces: &[Piece]| Rule {
        left: side_of(pieces, 0),
        right: Some(side_of(pieces, 1)),
    };
    let counts = compare_limits((2, 16), true, read_rule, value, 6);
    for number in [0, 3, 4, 5, 6, 10] {
        assert!(counts[number] >= 50, "{counts:?}");
    }
}

#[test]
fn slips_with_offences() {
    let value = |pieces: &[Piece]| Slip(side_of(pieces, 0));
    let counts = compare_limits((1, 64), false, read_slip, value, 5);
    for number in [0, 3, 4, 5, 7] {
        assert!(counts[number] >= 50, "{counts:?}");
    }
}

/// How often each number comes among the answers, with acceptance under 0.
fn count_answers(answers: impl Iterator<Item = Option<u8>>) -> [usize; 11] {
    let mut counts = [0; 11];
    for number in answers {
        counts[usize::from(number.unwrap_or(0))] += 1;
    }
    counts
}

#[test]
fn generated_lines_have_every_answer() {
    for seed in [0, 1] {
        let mut draw = Draw::new(seed);
        let lines: Vec<Vec<u8>> = (0..20_000).map(|_| any_line(&mut draw)).collect();
        assert!(lines.iter().all(|line| !line.contains(&b'\n')));
        let rule = |line: &Vec<u8>| read_rule(line).err().map(|refusal| refusal.number);
        let slip = |line: &Vec<u8>| read_slip(line).err().map(|refusal| refusal.number);
        let rules = count_answers(lines.iter().map(rule));
        let slips = count_answers(lines.iter().map(slip));
        for number in [0, 1, 2, 3, 4, 5, 6, 10] {
            assert!(rules[number] >= 50, "rules {rules:?}");
        }
        let whole = |line: &&Vec<u8>| read_rule(line).is_ok_and(|rule| rule.right.is_some());
        let wholes = lines.iter().filter(whole).count();
        assert!(wholes >= 500 && wholes < rules[0] / 2, "{wholes}");
        for number in [0, 1, 2, 3, 4, 5, 7] {
            assert!(slips[number] >= 50, "slips {slips:?}");
        }
    }
}
