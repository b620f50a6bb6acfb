//! Seeded texts, right and wrong, on which two programs are compared. Each
//! refusal of the documents comes often, and so do the texts on either side of
//! each limit.

pub mod books;
pub mod carries;
pub mod commits;
mod halves;
pub mod large;
pub mod matches;
pub mod pairs;
mod patterns;
mod rights;
pub mod searches;
pub mod wide;

use crate::draw::Draw;
use crate::terms::{Field, Kind, Rule, Side, Slip, Term};
use crate::writing::{plain_fields, plain_rule};
use rights::{any_sides, right_side, with_arrow};

/// The terms of a field, or the fields of a text, before they are joined.
type Texts = Vec<Vec<u8>>;

/// Draws a term.
type Maker = fn(&mut Draw) -> Vec<u8>;

const LOWEST: i64 = -2_147_483_648;
const LARGEST: i64 = 2_147_483_647;

const INTEGERS: [i64; 16] = [
    0,
    1,
    -1,
    7,
    -7,
    10,
    -10,
    99,
    -99,
    999_999_999,
    -999_999_999,
    1_000_000_000,
    -1_000_000_000,
    LARGEST,
    -LARGEST,
    LOWEST,
];

/// Integers with a minus, on either side of their limits.
const MINUS_EDGES: [&[u8]; 9] = [
    b"-0",
    b"-1",
    b"-7",
    b"-007",
    b"-2147483648",
    b"-2147483649",
    b"-0000000000",
    b"-00000000000",
    b"-02147483648",
];

/// What is no term for its minus.
const BROKEN_MINUSES: [&[u8]; 9] = [
    b"-", b"--1", b"- 1", b"-i0", b"-\"m\"", b"-empty", b"1-2", b"i-1", b"1-",
];

const KINDS: [Kind; 4] = [Kind::Integer, Kind::String, Kind::Atom, Kind::List];

/// What a string may have that is no arrow there, nor a part of one.
const ARROWS_IN_STRINGS: [&[u8]; 6] = [b"=>", b"=", b">", b"1=>2", b"=>=>", b"i0=>i0|l0:1"];

/// Bytes that some text of the grammar has outside strings.
const GRAMMAR: &[u8] = b"0123456789-:|\"isalempty=>";

/// A line without its newline: any bytes but 10.
pub fn any_line(draw: &mut Draw) -> Vec<u8> {
    match draw.below(19) {
        0..=2 => readable(draw),
        3..=5 => {
            let text = readable(draw);
            damaged(text, draw)
        }
        6..=9 => offending(draw),
        10 => of_size(draw),
        11 => any_bytes(draw),
        12 => with_minuses(draw),
        _ => any_sides(draw),
    }
}

/// A text on either side of a limit, or of several, and mostly of the grammar.
fn offending(draw: &mut Draw) -> Vec<u8> {
    match draw.below(4) {
        0 => {
            let fields = 1 + draw.below(4);
            text_of(fields, 4, edge_term, draw)
        }
        1 => crowded(draw),
        2 => {
            let fields = 1 + draw.below(5);
            text_of(fields, 3, list_term, draw)
        }
        _ => mixed(draw),
    }
}

/// A text in which a list variable often clashes, a minus often stands wrong
/// or there are often too many terms, or any line.
fn rarely_a_rule(draw: &mut Draw) -> Vec<u8> {
    match draw.below(10) {
        0..=1 => text_of(2, 4, list_term, draw),
        2..=3 => any_sides(draw),
        4 => with_minuses(draw),
        5 => crowded(draw),
        _ => any_line(draw),
    }
}

/// A text that is read as a rule or as a slip.
fn readable(draw: &mut Draw) -> Vec<u8> {
    match draw.below(3) {
        0 => {
            let slip = any_slip(draw);
            loose_text(&slip.0, 64, draw)
        }
        1 => plain_rule(&any_rule(draw)),
        _ => {
            let rule = any_rule(draw);
            loose_rule(&rule, draw)
        }
    }
}

/// A rule, in every third with a right side.
pub fn any_rule(draw: &mut Draw) -> Rule {
    let left = any_left(draw);
    let right = draw.one_in(3).then(|| right_side(&left, draw));
    Rule { left, right }
}

/// Fields of atoms, with a list variable of its own in some of them.
fn any_left(draw: &mut Draw) -> Side {
    let shift = draw.below(16);
    let field = |index: usize| {
        let mut terms: Field = (0..draw.below(17)).map(|_| any_atom(draw)).collect();
        if terms.len() < 16 && draw.one_in(2) {
            let number = (shift + 5 * index) % 16;
            let at = draw.below(terms.len() + 1);
            terms.insert(at, Term::Var(Kind::List, number as u32));
        }
        terms
    };
    let mut fields: Vec<Field> = (0..4).map(field).collect();
    fields.truncate(1 + draw.below(4));
    fields
}

pub fn any_slip(draw: &mut Draw) -> Slip {
    let most = if draw.one_in(8) { 65 } else { 9 };
    let field = |draw: &mut Draw| (0..draw.below(most)).map(|_| any_constant(draw)).collect();
    Slip((0..=draw.below(4)).map(|_| field(draw)).collect())
}

fn any_atom(draw: &mut Draw) -> Term {
    if draw.one_in(2) {
        any_constant(draw)
    } else {
        Term::Var(draw.pick(&KINDS[..3]), draw.below(16) as u32)
    }
}

fn any_constant(draw: &mut Draw) -> Term {
    match draw.below(3) {
        0 => any_string(draw),
        1 => Term::Int(draw.pick(&INTEGERS)),
        _ => Term::Int(LOWEST + draw.below(1 << 32) as i64),
    }
}

fn any_string(draw: &mut Draw) -> Term {
    if draw.one_in(8) {
        return Term::Str(draw.pick(&ARROWS_IN_STRINGS).to_vec());
    }
    let byte = |draw: &mut Draw| match 32 + draw.below(95) as u8 {
        b'"' => b'~',
        other => other,
    };
    let length = draw.below(16);
    Term::Str((0..length).map(|_| byte(draw)).collect())
}

/// Another text of the same rule.
pub fn loose_rule(rule: &Rule, draw: &mut Draw) -> Vec<u8> {
    let left = loose_text(&rule.left, 16, draw);
    match &rule.right {
        Some(right) => with_arrow(left, loose_text(right, 16, draw)),
        None => left,
    }
}

/// Another text of the same fields: `empty`, leading zeros and the minus of
/// some zeros put in.
pub fn loose_text(fields: &[Field], most_terms: usize, draw: &mut Draw) -> Vec<u8> {
    let mut texts = Texts::new();
    for field in fields {
        let mut terms: Texts = field.iter().map(|term| loose_term(term, draw)).collect();
        while terms.is_empty() || (terms.len() < most_terms && draw.one_in(2)) {
            let at = draw.below(terms.len() + 1);
            terms.insert(at, b"empty".to_vec());
        }
        texts.push(terms.join(&b':'));
    }
    texts.join(&b'|')
}

fn loose_term(term: &Term, draw: &mut Draw) -> Vec<u8> {
    match term {
        Term::Int(value) => {
            let minus = *value < 0 || (*value == 0 && draw.one_in(2));
            let sign = if minus { "-" } else { "" };
            let width = draw.below(11);
            format!("{sign}{:0width$}", value.unsigned_abs()).into_bytes()
        }
        other => plain_fields(&[vec![other.clone()]]),
    }
}

/// So many fields of 1 to `most` terms.
fn text_of(fields: usize, most: usize, term: Maker, draw: &mut Draw) -> Vec<u8> {
    let mut texts = Texts::new();
    for _ in 0..fields {
        let terms: Texts = (0..=draw.below(most)).map(|_| term(draw)).collect();
        texts.push(terms.join(&b':'));
    }
    texts.join(&b'|')
}

/// A term at one of its limits, on either side.
fn edge_term(draw: &mut Draw) -> Vec<u8> {
    match draw.below(6) {
        0 => {
            let number = 2_147_483_645 + draw.below(5);
            format!("{}{number}", any_sign(draw)).into_bytes()
        }
        1 => {
            let (sign, width) = (any_sign(draw), 9 + draw.below(4));
            format!("{sign}{:0width$}", draw.below(1000)).into_bytes()
        }
        2 => quoted(13 + draw.below(5)),
        3 => variable(draw.pick(&KINDS), 13 + draw.below(5)),
        4 => draw.pick(&MINUS_EDGES).to_vec(),
        // Around the numbers at which 32 and 64 bits are used up.
        _ => {
            let power = draw.pick(&[1u128 << 32, 1 << 64]);
            let number = power - 2 + draw.below(4) as u128;
            let start = draw.pick(&["", "-", "i", "l"]);
            format!("{start}{number}").into_bytes()
        }
    }
}

fn any_sign(draw: &mut Draw) -> &'static str {
    draw.pick(&["", "-"])
}

/// A few terms, about every other one with a minus.
fn with_minuses(draw: &mut Draw) -> Vec<u8> {
    let term = |draw: &mut Draw| match draw.below(8) {
        0..=1 => draw.pick(&BROKEN_MINUSES).to_vec(),
        2..=4 => draw.pick(&MINUS_EDGES).to_vec(),
        _ => small_term(draw),
    };
    let fields = 1 + draw.below(3);
    text_of(fields, 2, term, draw)
}

/// List variables among a few other terms.
fn list_term(draw: &mut Draw) -> Vec<u8> {
    match draw.below(3) {
        0 => variable(Kind::List, draw.below(4)),
        1 => small_term(draw),
        _ => b"empty".to_vec(),
    }
}

/// Terms that no limit touches.
fn small_term(draw: &mut Draw) -> Vec<u8> {
    match draw.below(8) {
        0 => variable(draw.pick(&KINDS[..3]), draw.below(16)),
        1 => b"empty".to_vec(),
        2 => quoted(draw.below(3)),
        _ => format!("{}{}", any_sign(draw), draw.below(30)).into_bytes(),
    }
}

/// About as many fields, or terms in a field, as are allowed.
fn crowded(draw: &mut Draw) -> Vec<u8> {
    let mut texts = Texts::new();
    for _ in 0..3 + draw.below(4) {
        let count = match draw.below(6) {
            0 => 15 + draw.below(3),
            1 => 63 + draw.below(3),
            _ => 1 + draw.below(3),
        };
        let terms: Texts = (0..count).map(|_| small_term(draw)).collect();
        texts.push(terms.join(&b':'));
    }
    texts.join(&b'|')
}

/// Offences of several numbers in one text.
fn mixed(draw: &mut Draw) -> Vec<u8> {
    let term = |draw: &mut Draw| match draw.below(10) {
        0 => edge_term(draw),
        1 => list_term(draw),
        _ => small_term(draw),
    };
    let text = if draw.one_in(3) {
        crowded(draw)
    } else {
        let fields = 3 + draw.below(3);
        text_of(fields, 20, term, draw)
    };
    if draw.one_in(2) {
        damaged(text, draw)
    } else {
        text
    }
}

/// About as many bytes as are allowed, and sometimes many more.
fn of_size(draw: &mut Draw) -> Vec<u8> {
    let size = match draw.below(40) {
        0..=15 => 4094 + draw.below(5),
        16..=18 => 2046 + draw.below(5),
        19..=37 => 8190 + draw.below(5),
        38 => draw.below(20_000),
        _ => 65_000 + draw.below(2_000),
    };
    let pattern = match draw.below(9) {
        0 => b"1".to_vec(),
        5 => b"1=>".to_vec(),
        6 => {
            let half = quoted(size / 2);
            return with_arrow(half, quoted((size - size / 2).max(6) - 6));
        }
        1 => b"1:".to_vec(),
        2 => b"empty|".to_vec(),
        3 => b"x".to_vec(),
        4 => return quoted(size.max(2) - 2),
        7 => b"-1:".to_vec(),
        _ => {
            let mut pattern = readable(draw);
            pattern.push(draw.pick(b":|"));
            pattern
        }
    };
    pattern.into_iter().cycle().take(size).collect()
}

/// Up to three bytes replaced, inserted or deleted, or the end cut off.
fn damaged(mut text: Vec<u8>, draw: &mut Draw) -> Vec<u8> {
    for _ in 0..=draw.below(3) {
        let at = draw.below(text.len() + 1);
        match draw.below(4) {
            0 if at < text.len() => text[at] = any_byte(draw),
            1 if at < text.len() => {
                text.remove(at);
            }
            2 => text.truncate(at),
            _ => text.insert(at, any_byte(draw)),
        }
    }
    text
}

fn any_bytes(draw: &mut Draw) -> Vec<u8> {
    let most = if draw.one_in(10) { 400 } else { 12 };
    let length = draw.below(most);
    let byte = match draw.below(3) {
        0 => raw_byte,
        1 => grammar_byte,
        _ => any_byte,
    };
    (0..length).map(|_| byte(draw)).collect()
}

fn any_byte(draw: &mut Draw) -> u8 {
    if draw.one_in(2) {
        raw_byte(draw)
    } else {
        grammar_byte(draw)
    }
}

/// Any byte but the newline.
fn raw_byte(draw: &mut Draw) -> u8 {
    match draw.below(255) as u8 {
        b'\n' => 255,
        other => other,
    }
}

fn grammar_byte(draw: &mut Draw) -> u8 {
    draw.pick(GRAMMAR)
}

/// A string of so many bytes.
fn quoted(length: usize) -> Vec<u8> {
    let mut text = vec![b'x'; length + 2];
    text[0] = b'"';
    text[length + 1] = b'"';
    text
}

fn variable(kind: Kind, number: usize) -> Vec<u8> {
    let mut text = vec![kind.letter()];
    text.extend(number.to_string().bytes());
    text
}
