//! A maker's book (document 02): rules by their position, from 1. "A slip's
//! rule is the first in the book that matches it."

use crate::matching::match_rule;
use crate::overlaps::overlap;
use crate::reading::{read_rule, Refusal};
use crate::terms::{Rule, Slip};

const MOST_RULES: usize = 16;

/// Reads one more rule into the book. Refusal 12 is "tried before that rule's
/// text is read".
pub fn add_rule(book: &mut Vec<Rule>, text: &[u8]) -> Result<(), Refusal> {
    if book.len() == MOST_RULES {
        let (number, place) = (12, 0);
        return Err(Refusal { number, place });
    }
    book.push(read_rule(text)?);
    Ok(())
}

/// The position of the rule that a slip gets.
pub fn pick(book: &[Rule], slip: &Slip) -> Option<usize> {
    let matches = |rule: &Rule| match_rule(rule, slip).is_some();
    let index = counted(book).iter().position(matches)?;
    Some(index + 1)
}

/// The positions of each two rules that overlap, in their order.
pub fn overlapping(book: &[Rule]) -> Vec<(usize, usize)> {
    let book = counted(book);
    let mut pairs = Vec::new();
    for (index, left) in book.iter().enumerate() {
        for (other, right) in book.iter().enumerate().skip(index + 1) {
            if overlap(left, right) {
                pairs.push((index + 1, other + 1));
            }
        }
    }
    pairs
}

/// "A book value of more than 16 rules counts as an empty book."
fn counted(book: &[Rule]) -> &[Rule] {
    if book.len() > MOST_RULES {
        &[]
    } else {
        book
    }
}
