//! What each program prints for one line of its input, and `book` for all of
//! its lines.

use crate::carrying::{carry_out, Carried};
use crate::comparing::compared;
use crate::matching::match_rule;
use crate::overlaps::entries;
use crate::reading::{read_rule, read_slip, Refusal};
use crate::terms::{Rule, Slip};
use crate::writing::{entry_line, plain_filling, plain_rule, plain_slip};

mod book;
mod solve;

pub use book::book_answer;
pub use solve::solve_answer;

/// A rule, a tab and a slip, each as long as reading allows.
const LONGEST_MATCH_LINE: usize = 12_289;

/// Two rules, each as long as reading allows, and a tab.
const LONGEST_PAIR_LINE: usize = 8_193;

/// As many bytes of overlap lines as `pairs` has room for.
const LONGEST_LIST: usize = 65_536;

/// For `texts`: the line as a rule, then as a slip.
pub fn texts_answer(_number: usize, line: &[u8]) -> Vec<u8> {
    let rule = match read_rule(line) {
        Ok(rule) => plain_rule(&rule),
        Err(refusal) => refusal.to_string().into_bytes(),
    };
    let slip = match read_slip(line) {
        Ok(_) => b"read".to_vec(),
        Err(refusal) => refusal.to_string().into_bytes(),
    };
    [b"rule ", rule.as_slice(), b"\nslip ", &slip, b"\n"].concat()
}

/// For `matches`: a rule, a tab and a slip.
pub fn matches_answer(number: usize, line: &[u8]) -> Vec<u8> {
    let mut text = format!("match {number}\n").into_bytes();
    text.extend(match_line(line));
    text
}

/// One line in any case.
fn match_line(line: &[u8]) -> Vec<u8> {
    let (rule, slip) = match rule_and_slip(line) {
        Ok(both) => both,
        Err(answer) => return answer,
    };
    let (answer, values) = match match_rule(&rule, &slip) {
        Some(filling) => ("yes", plain_filling(&filling, "")),
        None => ("no", Vec::new()),
    };
    let count = compared(&rule, &slip).to_string();
    [answer.as_bytes(), b" ", count.as_bytes(), &values, b"\n"].concat()
}

/// For `carry`: a rule, a tab and a slip.
pub fn carry_answer(number: usize, line: &[u8]) -> Vec<u8> {
    let mut text = format!("carry {number}\n").into_bytes();
    text.extend(carry_line(line));
    text
}

/// One line in any case.
fn carry_line(line: &[u8]) -> Vec<u8> {
    let (rule, slip) = match rule_and_slip(line) {
        Ok(both) => both,
        Err(answer) => return answer,
    };
    let (answer, slip) = match carry_out(&rule, &slip) {
        Carried::Yes(result) => ("yes", result),
        Carried::No => ("no", slip),
        Carried::TooLong => ("refusal 11", slip),
    };
    [answer.as_bytes(), b" ", &plain_slip(&slip), b"\n"].concat()
}

/// The two that a line has, or the answer where it has not both.
fn rule_and_slip(line: &[u8]) -> Result<(Rule, Slip), Vec<u8>> {
    if line.len() > LONGEST_MATCH_LINE {
        return Err(b"line too long\n".to_vec());
    }
    let (rule, slip) = divided(line);
    let rule = read_rule(rule).map_err(|refusal| refused("rule", refusal))?;
    let slip = read_slip(slip).map_err(|refusal| refused("slip", refusal))?;
    Ok((rule, slip))
}

/// For `pairs`: a rule, a tab and a rule.
pub fn pairs_answer(number: usize, line: &[u8]) -> Vec<u8> {
    let mut text = format!("pair {number}\n").into_bytes();
    text.extend(pair_lines(line));
    text
}

/// The overlap lines, or one line in their place.
fn pair_lines(line: &[u8]) -> Vec<u8> {
    if line.len() > LONGEST_PAIR_LINE {
        return b"line too long\n".to_vec();
    }
    let (left, right) = divided(line);
    let left = match read_rule(left) {
        Ok(rule) => rule,
        Err(refusal) => return refused("left", refusal),
    };
    let right = match read_rule(right) {
        Ok(rule) => rule,
        Err(refusal) => return refused("right", refusal),
    };
    overlap_lines(&left, &right)
}

/// Of a list that is too long only the length is kept.
fn overlap_lines(left: &Rule, right: &Rule) -> Vec<u8> {
    let (mut lines, mut length) = (Vec::new(), 0);
    for entry in entries(left, right) {
        let line = entry_line(&entry);
        length += line.len();
        if length <= LONGEST_LIST {
            lines.extend(line);
        }
    }
    if length > LONGEST_LIST {
        format!("too long {length}\n").into_bytes()
    } else {
        lines
    }
}

/// What stands before and behind the first tab; without a tab, nothing
/// stands behind it.
fn divided(line: &[u8]) -> (&[u8], &[u8]) {
    match line.iter().position(|&byte| byte == b'\t') {
        Some(tab) => (&line[..tab], &line[tab + 1..]),
        None => (line, b""),
    }
}

fn refused(what: &str, refusal: Refusal) -> Vec<u8> {
    let Refusal { number, place } = refusal;
    format!("refused {what} {number} at {place}\n").into_bytes()
}
