//! Reading minus amounts (document 02, E3), and how often the generated lines
//! have them.

use reference::generate::any_line;
use reference::generate::carries::carry_line;
use reference::generate::matches::match_line;
use reference::generate::pairs::pair_line;
use reference::generate::searches::search_line;
use reference::matching::match_rule;
use reference::overlaps::entries;
use reference::reading::{read_rule, read_slip};
use reference::terms::{Field, Rule, Side, Slip, Term};

use crate::support::*;

/// As a rule and as a slip.
fn assert_read(text: &str, fields: Vec<Field>) {
    assert_rule(text, fields.clone());
    assert_slip(text, fields);
}

/// By 5 as a rule and as a slip, at the start of the text.
fn assert_over(text: &str) {
    assert_rule_refused(text, 5, 0);
    assert_slip_refused(text, 5, 0);
}

#[test]
fn integers_with_a_minus_are_read() {
    assert_read("-1", vec![vec![int(-1)]]);
    assert_read("-7:7", vec![vec![int(-7), int(7)]]);
    assert_read("-12|-3", vec![vec![int(-12)], vec![int(-3)]]);
    assert_read("empty:-1:empty", vec![vec![int(-1)]]);
    assert_read("\"-\"", vec![vec![string("-")]]);
    assert_read("\"-1\":-1", vec![vec![string("-1"), int(-1)]]);
    assert_rule(
        "a0:-1|l0",
        vec![vec![var(b'a', 0), int(-1)], vec![var(b'l', 0)]],
    );
}

#[test]
fn values_and_digits() {
    let table = [
        ("-2147483648", -2147483648),
        ("-2147483647", -2147483647),
        ("-0000000000", 0),
        ("-0", 0),
        ("-0000000007", -7),
        ("-0147483648", -147483648),
        ("-1000000000", -1000000000),
    ];
    for (text, value) in table {
        assert_read(text, vec![vec![int(value)]]);
    }
    let over = [
        "-2147483649",
        "-2147483650",
        "-4294967295",
        "-4294967296",
        "-4294967297",
        "-9999999999",
        "-00000000000",
        "-00000000007",
        "-02147483648",
        "-12345678901",
        "-18446744073709551616",
        "-18446744073709551617",
    ];
    for text in over {
        assert_over(text);
    }
    assert_over("2147483648");
    assert_over(&format!("-{}", "0".repeat(4095)));
    assert_over(&format!("-{}", "9".repeat(4095)));
    assert_rule_refused(format!("-{}", "0".repeat(4096)), 1, 4096);
}

#[test]
fn equal_by_value() {
    for read in [read_rule_text, read_slip_text] {
        assert_eq!(read("-007"), read("-7"));
        assert_eq!(read("-0"), read("0"));
        assert_eq!(read("-0000000000"), read("00"));
        assert_ne!(read("-7"), read("7"));
        assert_ne!(read("-7"), read("-70"));
        assert_ne!(read("-7"), read("\"-7\""));
    }
}

fn read_rule_text(text: &str) -> Vec<Field> {
    read_rule(text.as_bytes()).unwrap().left
}

fn read_slip_text(text: &str) -> Vec<Field> {
    read_slip(text.as_bytes()).unwrap().0
}

#[test]
fn a_minus_that_may_not_stand_there() {
    let table = [
        ("-", 1),
        ("--1", 1),
        ("- 1", 1),
        ("-a0", 1),
        ("-i0", 1),
        ("-\"a\"", 1),
        ("-empty", 1),
        ("-:1", 1),
        ("-|1", 1),
        ("1-2", 1),
        ("1-", 1),
        ("-1-2", 2),
        ("i-1", 1),
        ("i0-1", 2),
        ("\"a\"-1", 3),
        ("empty-1", 5),
        ("emp-ty", 3),
        ("a0:-", 4),
        ("1|-", 3),
        ("-1:", 3),
        ("-1|", 3),
        ("-1 ", 2),
        ("-1.5", 2),
        ("-1:-i0", 4),
    ];
    for (text, place) in table {
        assert_not_grammar(text, place);
    }
}

#[test]
fn every_byte_behind_a_minus() {
    for byte in 0..=255u8 {
        let text = [b'-', byte];
        if byte.is_ascii_digit() {
            assert_rule(text, vec![vec![int(-i64::from(byte - b'0'))]]);
        } else {
            assert_not_grammar(text, 1);
        }
    }
}

/// A term stands where its minus does.
#[test]
fn places_of_terms() {
    assert_rule_refused("-1|-2|-3|-4|-5", 3, 12);
    assert_rule_refused(times(17, "-1"), 4, 48);
    assert_slip_refused(times(65, "-1"), 4, 192);
    assert_rule_refused("-1:-2147483649", 5, 3);
    assert_rule_refused("-1:l0:-2:l1", 6, 9);
    assert_slip_refused("-1:i0", 7, 3);
    assert_rule_refused("-1=>-2:i0", 10, 7);
    assert_slip_refused("-1=>-2", 2, 2);
}

/// The longest integers, which are shorter than the longest strings.
#[test]
fn as_many_as_a_text_may_have() {
    let lowest = int(-2147483648);
    let side = vec![times(16, "-2147483648"); 4].join("|");
    assert_rule(&side, vec![vec![lowest.clone(); 16]; 4]);
    let slip = vec![times(64, "-2147483648"); 4].join("|");
    assert_slip(slip, vec![vec![lowest; 64]; 4]);
}

/// Draws a line.
type AnyLine = fn(&mut Draw) -> Vec<u8>;

/// How often the text stands in the lines as a whole term.
fn count_term(term: &str, lines: &[Vec<u8>]) -> usize {
    let divides = |byte: &u8| b":|=>\t".contains(byte);
    let pieces = lines.iter().flat_map(|line| line.split(divides));
    pieces.filter(|&piece| piece == term.as_bytes()).count()
}

#[test]
fn generated_lines_have_the_edges() {
    let terms = [
        "-0",
        "-1",
        "-7",
        "-007",
        "-2147483648",
        "-2147483649",
        "-0000000000",
        "-00000000000",
        "-02147483648",
        "-",
        "--1",
        "- 1",
        "-i0",
        "-\"m\"",
        "-empty",
        "1-2",
        "i-1",
    ];
    let generators = [any_line, match_line, carry_line, pair_line, search_line];
    for (at, line) in generators.into_iter().enumerate() {
        let mut draw = Draw::new(1);
        let lines: Vec<Vec<u8>> = (0..20_000).map(|_| line(&mut draw)).collect();
        for term in terms {
            let count = count_term(term, &lines);
            assert!(count >= 10, "generator {at}: {term} {count}");
        }
    }
}

/// The left sides of two rules, or of a rule and a slip.
type Sides = [Side; 2];

fn both_sides(line: &[u8]) -> Option<Sides> {
    let mut parts = line.split(|&byte| byte == b'\t');
    let (first, second) = (parts.next()?, parts.next()?);
    let left = read_rule(first).ok()?.left;
    let right = read_rule(second).map(|rule| rule.left);
    let right = right.or_else(|_| read_slip(second).map(|slip| slip.0));
    Some([left, right.ok()?])
}

/// The sides of the lines that have both.
fn generated_sides(line: AnyLine, lines: usize) -> impl Iterator<Item = Sides> {
    let mut draw = Draw::new(2);
    (0..lines).filter_map(move |_| both_sides(&line(&mut draw)))
}

#[test]
fn half_of_the_generated_integers_are_below_zero() {
    for line in [match_line, carry_line, pair_line, search_line] {
        let (mut below, mut above) = (0, 0);
        for term in generated_sides(line, 5_000).flatten().flatten().flatten() {
            below += usize::from(matches!(term, Term::Int(..=-1)));
            above += usize::from(matches!(term, Term::Int(1..)));
        }
        let share = 100 * below / (below + above);
        assert!((40..=60).contains(&share), "{below} {above}");
    }
}

/// Whether a rule matches a slip, or two rules share one.
type Fit = fn(&Sides) -> bool;

fn without_signs(sides: &Sides) -> Sides {
    let term = |term: &Term| match term {
        Term::Int(value) => Term::Int(value.abs()),
        other => other.clone(),
    };
    let field = |field: &Field| field.iter().map(term).collect();
    let side = |side: &Side| side.iter().map(field).collect();
    sides.each_ref().map(side)
}

fn rule_matches([left, slip]: &Sides) -> bool {
    match_rule(&Rule::of(left.clone()), &Slip(slip.clone())).is_some()
}

fn rules_overlap(sides: &Sides) -> bool {
    let [left, right] = sides.clone().map(Rule::of);
    entries(&left, &right).next().is_some()
}

#[test]
fn equal_magnitudes_of_different_signs_meet() {
    let table = [
        (match_line as AnyLine, rule_matches as Fit),
        (carry_line, rule_matches),
        (pair_line, rules_overlap),
        (search_line, rules_overlap),
    ];
    for (line, fit) in table {
        let only_a_sign = |sides: &Sides| !fit(sides) && fit(&without_signs(sides));
        let count = generated_sides(line, 4_000).filter(only_a_sign).count();
        assert!(count >= 30, "{count}");
    }
}
