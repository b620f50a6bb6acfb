//! Reading tinting rules, listing the overlaps of two, asking for the size of
//! the list first or only whether there are any, and carrying one out on a
//! slip, through the static library `libyopobrush.a`, whose functions are
//! proved to answer and to write exactly what their definitions say.
//!
//! ```
//! let mut room = [0; 100];
//! let listing = yopobrush::list_overlaps(b"a0:l0", b"l0:2", &mut room)?;
//! assert_eq!(listing.entries, 2);
//! assert_eq!(
//!     &room[..listing.bytes],
//!     b"2 <a0=2 <l0=empty >l0=empty\na0:l0:2 <a0=a0 <l0=l0:2 >l0=a0:l0\n"
//! );
//! # Ok::<(), yopobrush::Error>(())
//! ```
//!
//! No input makes a call panic. A listing takes up to a megabyte of the
//! thread's stack, and a question no more; Rust gives a thread two unless it is
//! told otherwise.

mod boundary;

use std::fmt;

use boundary::Reading;

/// Why a text is no rule or no slip: the number of the refusal and its place,
/// counted in bytes from 0.
///
/// 1: more than 4,096 bytes, or 8,192 in a slip. 2: not the grammar. 3: a
/// fifth field. 4: a seventeenth term in a field, or a sixty-fifth in a slip.
/// 5: a value, digit count, variable number or string length over its limit.
/// For a rule then 6: a list variable that occurs earlier in the left side, or
/// that follows another in its field there; and 10: a right-side variable that
/// the left side lacks. For a slip 7: a variable.
#[derive(Clone, Copy, Debug, PartialEq, Eq, Hash)]
pub struct Refusal {
    /// The refusal's number.
    pub number: u8,
    /// Where in the text it is met.
    pub place: usize,
}

impl fmt::Display for Refusal {
    fn fmt(&self, out: &mut fmt::Formatter) -> fmt::Result {
        write!(out, "refused {} at {}", self.number, self.place)
    }
}

impl std::error::Error for Refusal {}

/// The size of an overlap list.
#[derive(Clone, Copy, Debug, PartialEq, Eq, Hash)]
pub struct Listing {
    /// How many lines it has, one for each entry.
    pub entries: usize,
    /// How many bytes its lines have, each with its newline.
    pub bytes: usize,
}

/// Why no overlap list was written, or why its size is not said, or whether
/// there is an entry.
#[derive(Clone, Copy, Debug, PartialEq, Eq, Hash)]
pub enum Error {
    /// The left text is no rule.
    Left(Refusal),
    /// The left text is a rule, and the right one is none.
    Right(Refusal),
    /// The list needs more bytes than were lent: refusal 8.
    TooSmall(Listing),
    /// The counts are not those of the rules: refusal 13.
    Stale,
}

impl fmt::Display for Error {
    fn fmt(&self, out: &mut fmt::Formatter) -> fmt::Result {
        match self {
            Error::Left(refusal) => write!(out, "left rule {refusal}"),
            Error::Right(refusal) => write!(out, "right rule {refusal}"),
            Error::TooSmall(Listing { bytes, .. }) => write!(out, "{bytes} bytes are needed"),
            Error::Stale => write!(out, "the counts are not those of the rules"),
        }
    }
}

impl std::error::Error for Error {}

/// Whether the text is a rule, or why it is none.
///
/// # Errors
///
/// The text's refusal.
///
/// ```
/// use yopobrush::{read_rule, Refusal};
///
/// assert_eq!(read_rule(b"a0:l0|\"matt\""), Ok(()));
/// assert_eq!(read_rule(b"i01"), Err(Refusal { number: 2, place: 2 }));
/// ```
pub fn read_rule(text: &[u8]) -> Result<(), Refusal> {
    accepted(boundary::read_rule(text))
}

/// Writes the overlap list of the rules that two texts say, which looks at
/// their left sides only, to the front of `out`: a line for each entry, its
/// fields, then what the variables of the left rule (`<`) and of the right one
/// (`>`) are there. What stands behind the list is left as it was, and on an
/// error all of `out` is.
///
/// # Errors
///
/// A text that is no rule, the left one first, or a list without room.
pub fn list_overlaps(left: &[u8], right: &[u8], out: &mut [u8]) -> Result<Listing, Error> {
    written(boundary::list_overlaps(left, right, out))
}

/// The size of the overlap list of the rules that two texts say. Nothing is
/// written: a [commit](commit_overlaps) with this size writes the list.
///
/// # Errors
///
/// A text that is no rule, the left one first; the answer needs no room.
///
/// ```
/// use yopobrush::{ask_overlaps, Listing};
///
/// let asked = ask_overlaps(b"a0:l0", b"l0:2")?;
/// assert_eq!(asked, Listing { entries: 2, bytes: 62 });
/// # Ok::<(), yopobrush::Error>(())
/// ```
pub fn ask_overlaps(left: &[u8], right: &[u8]) -> Result<Listing, Error> {
    let asked = boundary::ask_overlaps(left, right);
    both_accepted(asked.left, asked.right)?;
    Ok(size(asked.entries, asked.bytes))
}

/// Writes the overlap list whose size was [asked for](ask_overlaps), as
/// [`list_overlaps`] does, where it still has this size. What stands behind the
/// list is left as it was, and on an error all of `out` is.
///
/// # Errors
///
/// A text that is no rule, the left one first, or other counts than the list
/// has, or a list without room.
///
/// ```
/// use yopobrush::{ask_overlaps, commit_overlaps, Error};
///
/// let asked = ask_overlaps(b"i0", b"2:l0")?;
/// let mut room = vec![0; asked.bytes];
/// commit_overlaps(asked, b"i0", b"2:l0", &mut room)?;
/// assert_eq!(room, b"2 <i0=2 >l0=empty\n");
///
/// let other = commit_overlaps(asked, b"i0", b"2", &mut room);
/// assert_eq!(other, Err(Error::Stale));
/// # Ok::<(), yopobrush::Error>(())
/// ```
pub fn commit_overlaps(
    asked: Listing,
    left: &[u8],
    right: &[u8],
    out: &mut [u8],
) -> Result<Listing, Error> {
    let (entries, bytes) = (asked.entries as u64, asked.bytes as u64);
    written(boundary::commit_overlaps(entries, bytes, left, right, out))
}

/// The size of the list that was written, or why none was.
fn written(listed: boundary::Listing) -> Result<Listing, Error> {
    both_accepted(listed.left, listed.right)?;
    let listing = size(listed.entries, listed.bytes);
    match listed.refusal {
        0 => Ok(listing),
        13 => Err(Error::Stale),
        _ => Err(Error::TooSmall(listing)),
    }
}

fn both_accepted(left: Reading, right: Reading) -> Result<(), Error> {
    accepted(left).map_err(Error::Left)?;
    accepted(right).map_err(Error::Right)
}

fn size(entries: u64, bytes: u64) -> Listing {
    Listing {
        entries: entries as usize,
        bytes: bytes as usize,
    }
}

/// The overlap list of the rules that two texts say, in memory of its own, as
/// many bytes as it has. A list has up to 65,536 entries and can have well over
/// a hundred megabytes.
///
/// # Errors
///
/// As of [`list_overlaps`]; the list has no room where there is not so much
/// memory.
///
/// ```
/// let list = yopobrush::overlaps(b"i0", b"2:l0")?;
/// assert_eq!(list, b"2 <i0=2 >l0=empty\n");
/// # Ok::<(), yopobrush::Error>(())
/// ```
pub fn overlaps(left: &[u8], right: &[u8]) -> Result<Vec<u8>, Error> {
    let asked = ask_overlaps(left, right)?;
    let mut list = zeros(asked.bytes).ok_or(Error::TooSmall(asked))?;
    commit_overlaps(asked, left, right, &mut list)?;
    Ok(list)
}

fn zeros(count: usize) -> Option<Vec<u8>> {
    let mut zeros = Vec::new();
    zeros.try_reserve_exact(count).ok()?;
    zeros.resize(count, 0);
    Some(zeros)
}

/// Whether the rules that two texts say overlap, which is whether some slip is
/// matched by both: whether their overlap list has an entry. The list is not
/// made, so that a yes comes with its first entry. The order of the two texts
/// does not matter, but for which refusal is told.
///
/// # Errors
///
/// A text that is no rule, the left one first; an answer needs no room.
///
/// ```
/// assert!(yopobrush::texts_overlap(b"i0", b"a0")?);
/// assert!(!yopobrush::texts_overlap(b"i0", b"s0")?);
/// # Ok::<(), yopobrush::Error>(())
/// ```
pub fn texts_overlap(left: &[u8], right: &[u8]) -> Result<bool, Error> {
    let overlapping = boundary::texts_overlap(left, right);
    both_accepted(overlapping.left, overlapping.right)?;
    Ok(overlapping.overlap == 1)
}

/// What carrying out a rule on a slip answers.
#[derive(Clone, Copy, Debug, PartialEq, Eq, Hash)]
pub enum Answer {
    /// The rule matches: the text is its right side with the filling put in.
    Yes,
    /// The rule does not match, or it has no right side: the text is the
    /// slip's.
    No,
    /// A field of the result would have more than 64 terms, refusal 11: the
    /// text is the slip's.
    TooLong,
}

/// An answer and the size of its text.
#[derive(Clone, Copy, Debug, PartialEq, Eq, Hash)]
pub struct Carrying {
    /// What carrying out answers.
    pub answer: Answer,
    /// How many bytes the plain text of the result, or of the slip, has.
    pub bytes: usize,
}

/// Why a rule was not carried out on a slip.
#[derive(Clone, Copy, Debug, PartialEq, Eq, Hash)]
pub enum CarryError {
    /// The rule text is no rule.
    Rule(Refusal),
    /// The rule text is a rule, and the slip text is no slip.
    Slip(Refusal),
    /// The text needs so many bytes, more than were lent: refusal 8.
    TooSmall(usize),
}

impl fmt::Display for CarryError {
    fn fmt(&self, out: &mut fmt::Formatter) -> fmt::Result {
        match self {
            CarryError::Rule(refusal) => write!(out, "rule {refusal}"),
            CarryError::Slip(refusal) => write!(out, "slip {refusal}"),
            CarryError::TooSmall(bytes) => write!(out, "{bytes} bytes are needed"),
        }
    }
}

impl std::error::Error for CarryError {}

/// Carries out the rule that a text says on the slip that another says, and
/// writes the plain text of the result, or of the unchanged slip, to the front
/// of `out`. What stands behind it is left as it was, and where it has no room
/// all of `out` is. A rule text that is refused changes no slip either, so the
/// slip's plain text is written even then.
///
/// # Errors
///
/// A text that is refused, the rule first, or a text without room.
///
/// ```
/// use yopobrush::{carry_out, Answer};
///
/// let mut room = [0; 100];
/// let carrying = carry_out(b"a0:l0=>l0:a0", b"1:2:3", &mut room)?;
/// assert_eq!(carrying.answer, Answer::Yes);
/// assert_eq!(&room[..carrying.bytes], b"2:3:1");
/// # Ok::<(), yopobrush::CarryError>(())
/// ```
pub fn carry_out(rule: &[u8], slip: &[u8], out: &mut [u8]) -> Result<Carrying, CarryError> {
    let carried = boundary::carry_out(rule, slip, out);
    accepted(carried.rule).map_err(CarryError::Rule)?;
    accepted(carried.slip).map_err(CarryError::Slip)?;
    let bytes = carried.bytes as usize;
    let answer = match carried.answer {
        0 => Answer::No,
        1 => Answer::Yes,
        11 => Answer::TooLong,
        _ => return Err(CarryError::TooSmall(bytes)),
    };
    Ok(Carrying { answer, bytes })
}

/// What carrying out answers, with the plain text of the result or of the
/// unchanged slip in memory of its own.
///
/// # Errors
///
/// As of [`carry_out`]; there is always room.
///
/// ```
/// use yopobrush::{carried, Answer};
///
/// assert_eq!(carried(b"l0=>l0:9|empty", b"empty")?, (Answer::Yes, b"9|empty".to_vec()));
/// assert_eq!(carried(b"1=>2", b"007")?, (Answer::No, b"7".to_vec()));
/// # Ok::<(), yopobrush::CarryError>(())
/// ```
pub fn carried(rule: &[u8], slip: &[u8]) -> Result<(Answer, Vec<u8>), CarryError> {
    let mut text = vec![0; LONGEST_SLIP];
    let carrying = carry_out(rule, slip, &mut text)?;
    text.truncate(carrying.bytes);
    Ok((carrying.answer, text))
}

/// As many bytes as the plain text of a slip can have: four fields of 64
/// strings of 15 bytes, with their quotes and separators.
const LONGEST_SLIP: usize = 4607;

/// No refusal has the number 0. Numbers and places are small: at most 10, and
/// at most 8,192.
fn accepted(reading: Reading) -> Result<(), Refusal> {
    if reading.refusal == 0 {
        return Ok(());
    }
    Err(Refusal {
        number: reading.refusal as u8,
        place: reading.place as usize,
    })
}
