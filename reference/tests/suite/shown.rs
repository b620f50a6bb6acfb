//! Overlap lines read back. Their variables' numbers go up to 31 and their
//! fields to 31 terms, so the reader of rules will not do.

use std::fmt::Debug;
use std::str::FromStr;

use reference::terms::{Field, Filling, Kind, Name, Term};

pub struct Shown {
    pub fields: Vec<Field>,
    pub left: Filling,
    pub right: Filling,
}

pub fn read_line(line: &str) -> Shown {
    let mut parts = split_outside_strings(line, ' ').into_iter();
    let fields = split_outside_strings(parts.next().unwrap(), '|');
    let fields = fields.into_iter().map(read_field).collect();
    let (mut left, mut right) = (Filling::new(), Filling::new());
    let mut last = None;
    for part in parts {
        let (mark, binding) = part.split_at(1);
        let (name, value) = binding.split_once('=').unwrap();
        let name = read_name(name).unwrap();
        let side = if mark == "<" { &mut left } else { &mut right };
        side.insert(name, read_field(value));
        // Left before right, and each in the order of the variables.
        let place = Some((mark, name));
        assert!(last < place && (mark == "<" || mark == ">"), "{line}");
        last = place;
    }
    Shown {
        fields,
        left,
        right,
    }
}

fn split_outside_strings(text: &str, separator: char) -> Vec<&str> {
    let mut in_string = false;
    let divides = |byte: char| {
        in_string ^= byte == '"';
        byte == separator && !in_string
    };
    text.split(divides).collect()
}

fn read_field(text: &str) -> Field {
    if text == "empty" {
        return Vec::new();
    }
    let terms = split_outside_strings(text, ':');
    assert!(terms.len() <= 31);
    terms.into_iter().map(read_term).collect()
}

fn read_term(text: &str) -> Term {
    if let Some(rest) = text.strip_prefix('"') {
        return Term::Str(rest.strip_suffix('"').unwrap().as_bytes().to_vec());
    }
    match read_name(text) {
        Some((kind, number)) => Term::Var(kind, number),
        None => Term::Int(read_number(text)),
    }
}

fn read_name(text: &str) -> Option<Name> {
    let kind = Kind::from_letter(text.as_bytes()[0])?;
    let number: u32 = read_number(&text[1..]);
    assert!(number <= 31);
    Some((kind, number))
}

fn read_number<T: FromStr<Err: Debug> + ToString>(text: &str) -> T {
    let number: T = text.parse().unwrap();
    assert_eq!(number.to_string(), text);
    number
}
