//! "Ask first, print after" (document 02): an ask tells the size of the
//! overlap list, and a commit that is told this size writes the list.

use crate::overlaps::entries;
use crate::terms::Rule;
use crate::writing::entry_line;

/// How many entries a list has, and how many bytes their lines have.
#[derive(Clone, Copy, Debug, Default, PartialEq, Eq, Hash)]
pub struct Counts {
    pub entries: usize,
    pub bytes: usize,
}

/// What became of a lent buffer.
#[derive(Clone, Copy, Debug, PartialEq, Eq)]
pub enum Committed {
    /// The lines stand at its start.
    Lines(Counts),
    /// Refusal 8: the lines need more bytes. It has its old ones.
    TooSmall(Counts),
    /// Refusal 13: the counts are not those of the rules. It has its old
    /// bytes.
    Stale,
}

impl Committed {
    /// The refusal's number, if it is one, and the counts returned: 13
    /// "returns both counts as 0".
    pub fn told(self) -> (Option<u8>, Counts) {
        match self {
            Committed::Lines(counts) => (None, counts),
            Committed::TooSmall(counts) => (Some(8), counts),
            Committed::Stale => (Some(13), Counts::default()),
        }
    }
}

/// "The two counts are those of the definition's list."
pub fn ask(left: &Rule, right: &Rule) -> Counts {
    let mut counts = Counts::default();
    for entry in entries(left, right) {
        counts.entries += 1;
        counts.bytes += entry_line(&entry).len();
    }
    counts
}

/// Refusal 13 is "tried before 8", so the counts are compared before the
/// buffer is looked at.
pub fn commit(asked: Counts, left: &Rule, right: &Rule, buffer: &mut [u8]) -> Committed {
    if asked != ask(left, right) {
        return Committed::Stale;
    }
    list_into(left, right, buffer)
}

/// "The old call", which takes no counts and so is never stale.
pub fn list_into(left: &Rule, right: &Rule, buffer: &mut [u8]) -> Committed {
    let lines: Vec<Vec<u8>> = entries(left, right).map(|it| entry_line(&it)).collect();
    let text = lines.concat();
    let counts = Counts {
        entries: lines.len(),
        bytes: text.len(),
    };
    match buffer.get_mut(..text.len()) {
        Some(start) => {
            start.copy_from_slice(&text);
            Committed::Lines(counts)
        }
        None => Committed::TooSmall(counts),
    }
}
