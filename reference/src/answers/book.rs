//! For `book`: a rule a line. One answer for the whole input.

use std::io::{self, BufRead, Read};

use super::refused;
use crate::book::{add_rule, overlapping};

/// A rule as long as reading allows and its newline; of a longer line, as much
/// as shows that it is one.
const ENOUGH_OF_A_LINE: u64 = 4_097;

/// A line for each overlapping pair, or one for the first refused rule. Of the
/// input no more is read than that takes.
pub fn book_answer(mut input: impl BufRead) -> io::Result<Vec<u8>> {
    let mut book = Vec::new();
    while let Some(line) = next_line(&mut input)? {
        if let Err(refusal) = add_rule(&mut book, &line) {
            let number = book.len() + 1;
            return Ok(refused(&number.to_string(), refusal));
        }
    }
    let lines = overlapping(&book).into_iter();
    let lines = lines.map(|(one, other)| format!("{one} {other}\n"));
    Ok(lines.collect::<String>().into_bytes())
}

/// The next line without its newline, which the last one may lack.
fn next_line(input: &mut impl BufRead) -> io::Result<Option<Vec<u8>>> {
    let mut line = Vec::new();
    let mut start = input.take(ENOUGH_OF_A_LINE);
    if start.read_until(b'\n', &mut line)? == 0 {
        return Ok(None);
    }
    if line.ends_with(b"\n") {
        line.pop();
    }
    Ok(Some(line))
}
