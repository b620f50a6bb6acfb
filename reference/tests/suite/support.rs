//! What the tests share: short names for terms, texts of a given size.

use std::collections::{BTreeSet, HashMap};

pub use reference::draw::Draw;
use reference::reading::{read_rule, read_slip, Refusal};
use reference::terms::{Field, Filling, Kind, Name, Rule, Side, Slip, Term};

pub fn int(value: i64) -> Term {
    Term::Int(value)
}

pub fn string(bytes: impl AsRef<[u8]>) -> Term {
    Term::Str(bytes.as_ref().to_vec())
}

pub fn var(letter: u8, number: u32) -> Term {
    Term::Var(Kind::from_letter(letter).unwrap(), number)
}

/// A string of so many bytes, as text.
pub fn quoted(length: usize) -> String {
    format!("\"{}\"", "x".repeat(length))
}

/// So many copies of the term in one field, as text.
pub fn times(count: usize, term: &str) -> String {
    vec![term; count].join(":")
}

/// A text for each refusal of a rule, with its number and place.
pub fn refused_rules() -> Vec<(String, &'static str)> {
    vec![
        ("x".repeat(4097), "1 at 4096"),
        ("emp".to_string(), "2 at 3"),
        ("1|2|3|4|5".to_string(), "3 at 8"),
        (times(17, "1"), "4 at 32"),
        ("a16".to_string(), "5 at 0"),
        ("l0:1:l0".to_string(), "6 at 5"),
        ("l0=>l0:l1".to_string(), "10 at 7"),
    ]
}

/// For messages; texts of many bytes stay readable.
pub fn show(text: &[u8]) -> String {
    text.escape_ascii().to_string()
}

/// What a program answers to line 7, which is a title and this line.
pub fn assert_line(
    title: &str,
    answer: impl Fn(usize, &[u8]) -> Vec<u8>,
    line: impl AsRef<[u8]>,
    expected: &str,
) {
    let line = line.as_ref();
    let expected = format!("{title} 7\n{expected}\n");
    let found = answer(7, line);
    assert_eq!(show(&found), show(expected.as_bytes()), "{}", show(line));
}

/// The rule and the slip of a line, where both are accepted.
pub fn read_both(line: &[u8]) -> Option<(Rule, Slip)> {
    let tab = line.iter().position(|&byte| byte == b'\t')?;
    let rule = read_rule(&line[..tab]).ok()?;
    let slip = read_slip(&line[tab + 1..]).ok()?;
    Some((rule, slip))
}

/// The rules of a line, where both are accepted.
pub fn read_pair(line: &[u8]) -> Option<(Rule, Rule)> {
    let tab = line.iter().position(|&byte| byte == b'\t')?;
    let left = read_rule(&line[..tab]).ok()?;
    let right = read_rule(&line[tab + 1..]).ok()?;
    Some((left, right))
}

/// The lines of an input, the last one with or without its newline.
pub fn lines_of(input: &[u8]) -> Vec<&[u8]> {
    let mut lines: Vec<&[u8]> = input.split(|&byte| byte == b'\n').collect();
    if lines.last().is_some_and(|line| line.is_empty()) {
        lines.pop();
    }
    lines
}

pub fn assert_rule(text: impl AsRef<[u8]>, fields: Vec<Field>) {
    let text = text.as_ref();
    assert_eq!(read_rule(text), Ok(Rule::of(fields)), "rule {}", show(text));
}

pub fn assert_slip(text: impl AsRef<[u8]>, fields: Vec<Field>) {
    let text = text.as_ref();
    assert_eq!(read_slip(text), Ok(Slip(fields)), "slip {}", show(text));
}

pub fn assert_rule_refused(text: impl AsRef<[u8]>, number: u8, place: usize) {
    let (text, refusal) = (text.as_ref(), Refusal { number, place });
    assert_eq!(read_rule(text), Err(refusal), "rule {}", show(text));
}

pub fn assert_slip_refused(text: impl AsRef<[u8]>, number: u8, place: usize) {
    let (text, refusal) = (text.as_ref(), Refusal { number, place });
    assert_eq!(read_slip(text), Err(refusal), "slip {}", show(text));
}

/// A rule with both sides.
pub fn assert_whole_rule(text: impl AsRef<[u8]>, left: Side, right: Side) {
    let (text, right) = (text.as_ref(), Some(right));
    let rule = Rule { left, right };
    assert_eq!(read_rule(text), Ok(rule), "rule {}", show(text));
}

/// Refusal 2 is the same for rules and slips where no arrow begins.
pub fn assert_not_grammar(text: impl AsRef<[u8]>, place: usize) {
    assert_rule_refused(&text, 2, place);
    assert_slip_refused(&text, 2, place);
}

/// The variables of the fields, in the order in which answers show them.
pub fn names_of(fields: &[Field]) -> Vec<Name> {
    let name = |term: &Term| match *term {
        Term::Var(kind, number) => Some((kind, number)),
        _ => None,
    };
    let names: BTreeSet<Name> = fields.iter().flatten().filter_map(name).collect();
    names.into_iter().collect()
}

/// The fields with each variable's value in its place.
pub fn put_in(fields: &[Field], filling: &Filling) -> Vec<Field> {
    let value = |term: &Term| match *term {
        Term::Var(kind, number) => filling[&(kind, number)].clone(),
        _ => vec![term.clone()],
    };
    let field = |terms: &Field| terms.iter().flat_map(value).collect();
    fields.iter().map(field).collect()
}

/// Each of the expected kinds of answer comes up often enough among so many
/// generated lines, none of which has a newline.
pub fn assert_every_kind(
    expected: &[&str],
    least: usize,
    lines: usize,
    mut line: impl FnMut() -> Vec<u8>,
    kind: impl Fn(&[u8]) -> String,
) -> HashMap<String, usize> {
    let mut counts: HashMap<String, usize> = HashMap::new();
    for _ in 0..lines {
        let line = line();
        assert!(!line.contains(&b'\n'));
        *counts.entry(kind(&line)).or_default() += 1;
    }
    for &kind in expected {
        assert!(counts.get(kind) >= Some(&least), "{kind}: {counts:?}");
    }
    counts
}
