//! The place of refusal 2, found by trial: "the first byte that no text of
//! the grammar could have there, or the length where the text stops early".

use std::fmt::Debug;

use reference::reading::{read_rule, read_slip, Refusal};

use crate::support::{show, Draw};

const ALPHABET: &[u8] = b"01-ilempty\":| \x7f=>";

/// Every text that can be completed at all is completed by one of these:
/// nothing, a whole term or number, a closing quote, the rest of `empty`, the
/// rest of an arrow and a term.
const COMPLETIONS: [&[u8]; 8] = [b"", b"0", b"\"", b"mpty", b"pty", b"ty", b"y", b">0"];

/// Whether these bytes are a text of the grammar.
type Grammar = fn(&[u8]) -> bool;

/// The grammar of rules as a definition: a side, or a side, an arrow and a
/// side.
fn is_rule(bytes: &[u8]) -> bool {
    let divides = |&at: &usize| bytes[at..].starts_with(b"=>");
    is_side(bytes)
        || (0..bytes.len())
            .filter(divides)
            .any(|at| is_side(&bytes[..at]) && is_side(&bytes[at + 2..]))
}

/// The grammar of slips, and of one side of a rule: a term, or a term, a
/// separator and a side.
fn is_side(bytes: &[u8]) -> bool {
    let divides = |&at: &usize| bytes[at] == b':' || bytes[at] == b'|';
    is_term(bytes)
        || (0..bytes.len())
            .filter(divides)
            .any(|at| is_term(&bytes[..at]) && is_side(&bytes[at + 1..]))
}

fn is_term(bytes: &[u8]) -> bool {
    let in_string = |byte: &u8| *byte >= 32 && *byte <= 126 && *byte != b'"';
    match bytes {
        b"empty" => true,
        [b'"', inner @ .., b'"'] => inner.iter().all(in_string),
        [b'i' | b's' | b'a' | b'l', number @ ..] => {
            are_digits(number) && (number == b"0" || number[0] != b'0')
        }
        [b'-', digits @ ..] => are_digits(digits),
        _ => are_digits(bytes),
    }
}

fn are_digits(bytes: &[u8]) -> bool {
    !bytes.is_empty() && bytes.iter().all(u8::is_ascii_digit)
}

fn can_go_on(start: &[u8], grammar: Grammar) -> bool {
    COMPLETIONS
        .iter()
        .any(|completion| grammar(&[start, completion].concat()))
}

/// The length of the longest start that some text of the grammar continues.
fn place_by_trial(text: &[u8], grammar: Grammar) -> usize {
    (0..=text.len())
        .rev()
        .find(|&length| can_go_on(&text[..length], grammar))
        .expect("a text may begin")
}

fn compare<T: Debug>(read: Result<T, Refusal>, text: &[u8], place: usize, grammar: Grammar) {
    let expected = (!grammar(text)).then_some(Refusal { number: 2, place });
    let refusal = read.err().filter(|refusal| refusal.number == 2);
    assert_eq!(refusal, expected, "{}", show(text));
}

/// The places of the text as a rule and as a slip.
fn compare_both(text: &[u8], [rule, slip]: [usize; 2]) {
    compare(read_rule(text), text, rule, is_rule);
    compare(read_slip(text), text, slip, is_side);
}

/// Compares the text and all longer ones that begin with it. The places are
/// those of the text; one that cannot go on hands its place down.
/// Returns how many were compared.
fn compare_all(text: &mut Vec<u8>, places: [usize; 2], longer_by: usize) -> usize {
    compare_both(text, places);
    if longer_by == 0 {
        return 1;
    }
    let mut count = 1;
    for &byte in ALPHABET {
        let length = text.len();
        text.push(byte);
        let mut next = places;
        for (place, grammar) in next.iter_mut().zip([is_rule as Grammar, is_side]) {
            if *place == length && can_go_on(text, grammar) {
                *place = text.len();
            }
        }
        count += compare_all(text, next, longer_by - 1);
        text.pop();
    }
    count
}

#[test]
fn the_definition_knows_the_grammar() {
    let texts = [
        "1",
        "007",
        "-1",
        "-007",
        "i10",
        "\"\"",
        "\":|\"",
        "empty",
        "1:empty|l0",
    ];
    let others = [
        "", "i", "i01", "\"", "\"\"\"", "emp", "1:", "|1", "1 ", "-", "--1", "-i0", "1-2",
    ];
    for grammar in [is_rule as Grammar, is_side] {
        assert!(texts.iter().all(|text| grammar(text.as_bytes())));
        assert!(!others.iter().any(|text| grammar(text.as_bytes())));
    }
    let rules = ["1=>1", "\"=>\"", "\"=>\"=>\"=>\"", "1:2|3=>4|i5:empty"];
    let others = [
        "=>", "1=>", "=>1", "1=1", "1= >1", "1=>1=>1", "1:=>1", "1=>|1",
    ];
    assert!(rules.iter().all(|text| is_rule(text.as_bytes())));
    assert!(!others.iter().any(|text| is_rule(text.as_bytes())));
    assert!(is_side(b"\"=>\"") && !is_side(b"1=>1"));
}

#[test]
fn all_short_texts() {
    let count = compare_all(&mut Vec::new(), [0, 0], 5);
    assert_eq!(count, (0..=5).map(|length| 17usize.pow(length)).sum());
}

/// Longer texts, of the grammar but for a few bytes changed.
#[test]
fn damaged_texts() {
    let terms = [
        "0", "12", "007", "-3", "i0", "l15", "s1", "\"\"", "\"m: |\"", "\"=>\"", "empty",
    ];
    let separators = [":", ":", ":", ":", ":", "|", "|", "=>"];
    let mut draw = Draw::new(0x9E37_79B9_7F4A_7C15);
    for _ in 0..20_000 {
        let mut text = Vec::new();
        for _ in 0..draw.below(6) {
            text.extend(draw.pick(&terms).bytes());
            text.extend(draw.pick(&separators).bytes());
        }
        text.extend(draw.pick(&terms).bytes());
        for _ in 0..draw.below(3) {
            damage(&mut text, &mut draw);
        }
        compare_both(
            &text,
            [is_rule as Grammar, is_side].map(|it| place_by_trial(&text, it)),
        );
    }
}

fn damage(text: &mut Vec<u8>, draw: &mut Draw) {
    let at = draw.below(text.len() + 1);
    match draw.below(4) {
        0 => text.truncate(at),
        1 => text.insert(at, draw.pick(ALPHABET)),
        2 => text.insert(at, draw.below(256) as u8),
        _ => {
            if at < text.len() {
                text.remove(at);
            }
        }
    }
}
