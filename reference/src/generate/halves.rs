//! Lines of two texts with a tab between: what both kinds have in common.

use super::loose_text;
use super::rights::{right_side, with_arrow};
use crate::draw::Draw;
use crate::terms::Field;
use crate::writing::plain_fields;

/// The text of a rule with this left side. About every third has a right side
/// too.
pub(super) fn rule_text(left: &[Field], draw: &mut Draw) -> Vec<u8> {
    let text = side_text(left, draw);
    if draw.one_in(3) {
        let right = right_side(left, draw);
        with_arrow(text, side_text(&right, draw))
    } else {
        text
    }
}

pub(super) fn side_text(side: &[Field], draw: &mut Draw) -> Vec<u8> {
    some_text(side, 16, draw)
}

pub(super) fn slip_text(fields: &[Field], draw: &mut Draw) -> Vec<u8> {
    some_text(fields, 64, draw)
}

fn some_text(fields: &[Field], most_terms: usize, draw: &mut Draw) -> Vec<u8> {
    if draw.one_in(2) {
        plain_fields(fields)
    } else {
        loose_text(fields, most_terms, draw)
    }
}

pub(super) fn tabbed(first: Vec<u8>, second: Vec<u8>) -> Vec<u8> {
    [first, second].join(&b'\t')
}

/// The line with no tab, with several, or with nothing on one side of it.
pub(super) fn with_other_tabs(mut line: Vec<u8>, draw: &mut Draw) -> Vec<u8> {
    let tab = line.iter().position(|&byte| byte == b'\t');
    let tab = tab.unwrap_or(line.len());
    match draw.below(5) {
        0 => line.retain(|&byte| byte != b'\t'),
        1 => line.truncate(tab),
        2 => line.truncate(tab + 1),
        3 => {
            line.drain(..tab);
        }
        _ => {
            for _ in 0..=draw.below(3) {
                let at = draw.below(line.len() + 1);
                line.insert(at, b'\t');
            }
        }
    }
    line
}

/// The start made as long as a line may be, or nearly so, and sometimes much
/// longer.
pub(super) fn of_line_size(mut start: Vec<u8>, limit: usize, draw: &mut Draw) -> Vec<u8> {
    let size = match draw.below(12) {
        0 => draw.below(30_000),
        1 => 65_000 + draw.below(2_000),
        _ => limit - 2 + draw.below(5),
    };
    if draw.below(4) > 0 {
        start.push(b'\t');
    }
    let filler = draw.pick(&[
        &b"1:"[..],
        b"-1:",
        b"empty:",
        b"\"x\"|",
        b"1=>",
        b"1\t",
        b"\0",
        b"\xff",
    ]);
    let missing = size.saturating_sub(start.len());
    start.extend(filler.iter().cycle().take(missing));
    start.truncate(size);
    start
}
