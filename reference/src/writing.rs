//! Plain text: "no `empty` unless the field has no terms, integers without
//! leading zeros" (document 01), and `-0` "is written `0`" (document 02).

use crate::overlaps::Entry;
use crate::reading::{read_rule, read_slip};
use crate::search::Answer;
use crate::terms::{Field, Filling, Rule, Slip, Term};

/// The plain text of a rule. A rule that no reading can return "counts there
/// as one with no fields", and that has no bytes. Since reading a readable
/// rule's plain text returns it, reading back decides which ones those are.
pub fn plain_rule(rule: &Rule) -> Vec<u8> {
    let mut text = plain_fields(&rule.left);
    if let Some(right) = &rule.right {
        text.extend(b"=>");
        text.extend(plain_fields(right));
    }
    if read_rule(&text).as_ref() == Ok(rule) {
        text
    } else {
        Vec::new()
    }
}

/// The plain text of a slip, with no bytes for one that no reading returns.
pub fn plain_slip(slip: &Slip) -> Vec<u8> {
    let text = plain_fields(&slip.0);
    if read_slip(&text).as_ref() == Ok(slip) {
        text
    } else {
        Vec::new()
    }
}

/// The text of any fields, limits left aside: those of an overlap entry may
/// have more terms and larger variable numbers than a rule's.
pub fn plain_fields(fields: &[Field]) -> Vec<u8> {
    let texts: Vec<Vec<u8>> = fields.iter().map(|field| plain_field(field)).collect();
    texts.join(&b'|')
}

/// The text of any run of terms, limits left aside.
pub fn plain_field(terms: &[Term]) -> Vec<u8> {
    if terms.is_empty() {
        return b"empty".to_vec();
    }
    let texts: Vec<Vec<u8>> = terms.iter().map(plain_term).collect();
    texts.join(&b':')
}

/// Each variable with its value, and a blank and the mark before it.
pub fn plain_filling(filling: &Filling, mark: &str) -> Vec<u8> {
    let mut text = Vec::new();
    for ((kind, number), value) in filling {
        text.extend(format!(" {mark}{}{number}=", char::from(kind.letter())).bytes());
        text.extend(plain_field(value));
    }
    text
}

/// The line of an overlap entry, with its newline.
pub fn entry_line(entry: &Entry) -> Vec<u8> {
    let parts = [
        plain_fields(&entry.fields),
        plain_filling(&entry.left, "<"),
        plain_filling(&entry.right, ">"),
        b"\n".to_vec(),
    ];
    parts.concat()
}

/// The line of an answer of the search, with its newline: the values alone,
/// with blanks between them.
pub fn answer_line(answer: &Answer) -> Vec<u8> {
    let left = plain_filling(&answer.left, "<");
    let right = plain_filling(&answer.right, ">");
    let values = [left, right].concat();
    let values = values.strip_prefix(b" ").unwrap_or_default();
    [values, b"\n"].concat()
}

fn plain_term(term: &Term) -> Vec<u8> {
    match term {
        Term::Int(value) => value.to_string().into_bytes(),
        Term::Str(bytes) => [b"\"", bytes.as_slice(), b"\""].concat(),
        Term::Var(kind, number) => {
            let mut text = vec![kind.letter()];
            text.extend(number.to_string().bytes());
            text
        }
    }
}
