//! The grammar of documents 01 and 02 by recursive descent, sizes left out.
//!
//! One byte always decides how to go on, so nothing is ever taken back and
//! the descent gets stuck exactly at the first byte that no text of the
//! grammar could have there, or at the end of a text that stops early.

use crate::terms::Kind;

/// A term as it stands in the text.
#[derive(Debug)]
pub(crate) struct Raw<'a> {
    /// Where its first byte stands.
    pub place: usize,
    pub shape: Shape<'a>,
}

#[derive(Debug)]
pub(crate) enum Shape<'a> {
    /// Whether a minus stands before it, and the digits as written, leading
    /// zeros and all.
    Integer {
        minus: bool,
        digits: &'a [u8],
    },
    /// The bytes between the quotes.
    Quoted(&'a [u8]),
    /// The type and the digits of the number.
    Variable(Kind, &'a [u8]),
    Empty,
}

/// The place where the descent could not go on.
#[derive(Debug, PartialEq)]
pub(crate) struct Stuck(pub usize);

/// What is still to be read, and where it begins in the whole text.
#[derive(Clone, Copy)]
struct Rest<'a> {
    bytes: &'a [u8],
    place: usize,
}

/// What was read and what is left after it.
type Step<'a, T> = Result<(T, Rest<'a>), Stuck>;

impl<'a> Rest<'a> {
    fn start(bytes: &'a [u8]) -> Rest<'a> {
        Rest { bytes, place: 0 }
    }

    fn first(self) -> Option<u8> {
        self.bytes.first().copied()
    }

    fn is_done(self) -> bool {
        self.bytes.is_empty()
    }

    fn stuck<T>(self) -> Result<T, Stuck> {
        Err(Stuck(self.place))
    }

    /// What was read, if nothing is left.
    fn done<T>(self, read: T) -> Result<T, Stuck> {
        if self.is_done() {
            Ok(read)
        } else {
            self.stuck()
        }
    }

    /// The first `count` bytes, or all if there are fewer, and what follows.
    fn take(self, count: usize) -> (&'a [u8], Rest<'a>) {
        let (taken, bytes) = self.bytes.split_at(count.min(self.bytes.len()));
        let place = self.place + taken.len();
        (taken, Rest { bytes, place })
    }

    /// The longest run of bytes that all pass the test, and what follows.
    fn take_while(self, test: fn(u8) -> bool) -> (&'a [u8], Rest<'a>) {
        self.take(self.bytes.iter().take_while(|&&byte| test(byte)).count())
    }

    /// What follows the byte, if it comes next.
    fn after(self, byte: u8) -> Option<Rest<'a>> {
        (self.first() == Some(byte)).then(|| self.take(1).1)
    }
}

/// One or more fields, each with its terms.
pub(crate) type Fields<'a> = Vec<Vec<Raw<'a>>>;

/// The fields of a slip text.
pub(crate) fn slip(text: &[u8]) -> Result<Fields<'_>, Stuck> {
    let (fields, rest) = fields(Rest::start(text))?;
    rest.done(fields)
}

/// The sides of a rule text: the left one, and the right one where an arrow
/// follows. Where a left side ends, an arrow is all that may come, and a
/// string takes every byte up to its quote, so one inside is no arrow.
pub(crate) fn rule(text: &[u8]) -> Result<Vec<Fields<'_>>, Stuck> {
    let (left, rest) = fields(Rest::start(text))?;
    if rest.is_done() {
        return Ok(vec![left]);
    }
    let (right, rest) = fields(exactly(b"=>", rest)?)?;
    rest.done(vec![left, right])
}

fn fields(rest: Rest) -> Step<Fields> {
    separated(rest, b'|', field)
}

fn field(rest: Rest) -> Step<Vec<Raw>> {
    separated(rest, b':', term)
}

/// One item or more, with the separator between any two.
fn separated<'a, T>(
    rest: Rest<'a>,
    separator: u8,
    item: fn(Rest<'a>) -> Step<'a, T>,
) -> Step<'a, Vec<T>> {
    let (first, mut rest) = item(rest)?;
    let mut items = vec![first];
    while let Some(behind) = rest.after(separator) {
        let (next, left) = item(behind)?;
        items.push(next);
        rest = left;
    }
    Ok((items, rest))
}

fn term(start: Rest) -> Step<Raw> {
    let (shape, rest) = shape(start)?;
    let place = start.place;
    Ok((Raw { place, shape }, rest))
}

fn shape(rest: Rest) -> Step<Shape> {
    match rest.first() {
        Some(b'0'..=b'9') => integer(false, rest),
        Some(b'-') => integer(true, rest.take(1).1),
        Some(b'"') => quoted(rest.take(1).1),
        Some(b'e') => empty(rest),
        Some(letter) => match Kind::from_letter(letter) {
            Some(kind) => variable(kind, rest.take(1).1),
            None => rest.stuck(),
        },
        None => rest.stuck(),
    }
}

/// An integer, from behind its minus where it has one.
fn integer(minus: bool, rest: Rest) -> Step<Shape> {
    let (digits, rest) = digits(rest)?;
    Ok((Shape::Integer { minus, digits }, rest))
}

/// A string, from behind its first quote.
fn quoted(rest: Rest) -> Step<Shape> {
    let (bytes, rest) = rest.take_while(may_stand_in_string);
    match rest.after(b'"') {
        Some(behind) => Ok((Shape::Quoted(bytes), behind)),
        None => rest.stuck(),
    }
}

/// A variable, from behind its letter. A number that begins with 0 ends
/// there, for it has no leading zeros: `i01` is stuck at its last digit.
fn variable(kind: Kind, rest: Rest) -> Step<Shape> {
    let (number, rest) = match rest.first() {
        Some(b'0') => rest.take(1),
        _ => digits(rest)?,
    };
    Ok((Shape::Variable(kind, number), rest))
}

/// One digit or more.
fn digits(rest: Rest<'_>) -> Step<'_, &[u8]> {
    let (digits, left) = rest.take_while(is_digit);
    if digits.is_empty() {
        rest.stuck()
    } else {
        Ok((digits, left))
    }
}

fn empty(rest: Rest) -> Step<Shape> {
    Ok((Shape::Empty, exactly(b"empty", rest)?))
}

/// What follows these bytes, which have to come next.
fn exactly<'a>(bytes: &[u8], mut rest: Rest<'a>) -> Result<Rest<'a>, Stuck> {
    for &byte in bytes {
        match rest.after(byte) {
            Some(behind) => rest = behind,
            None => return rest.stuck(),
        }
    }
    Ok(rest)
}

fn is_digit(byte: u8) -> bool {
    byte.is_ascii_digit()
}

/// "Bytes from 32 to 126 other than the quote."
fn may_stand_in_string(byte: u8) -> bool {
    (32..=126).contains(&byte) && byte != b'"'
}
