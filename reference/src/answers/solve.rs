//! What `solve` prints for one line.

use crate::reading::read_rule;
use crate::search::search;
use crate::terms::Field;
use crate::writing::answer_line;

/// Two rules, each as long as reading allows, three tabs, and the largest row
/// and room as they are written.
const LONGEST_LINE: usize = 8_204;

/// As many records and bytes as `solve` has.
const LARGEST_ROW: usize = 640;
const LARGEST_ROOM: usize = 131_072;

/// For `solve`: a field, a tab and a field; behind further tabs, how many
/// records and how many bytes are lent.
pub fn solve_answer(number: usize, line: &[u8]) -> Vec<u8> {
    let mut text = format!("search {number}\n").into_bytes();
    match Asked::of_line(line) {
        Ok(asked) => text.extend(asked.answer()),
        Err(words) => text.extend(format!("{words}\n").bytes()),
    }
    text
}

struct Asked<'a> {
    left: &'a [u8],
    right: &'a [u8],
    row: usize,
    room: usize,
}

impl Asked<'_> {
    fn of_line(line: &[u8]) -> Result<Asked<'_>, &'static str> {
        if line.len() > LONGEST_LINE {
            return Err("line too long");
        }
        let parts: Vec<&[u8]> = line.split(|&byte| byte == b'\t').collect();
        if parts.len() > 4 {
            return Err("bad line");
        }
        let part = |index: usize| parts.get(index).copied();
        Ok(Asked {
            left: part(0).unwrap_or_default(),
            right: part(1).unwrap_or_default(),
            row: size(part(2), LARGEST_ROW).ok_or("bad row")?,
            room: size(part(3), LARGEST_ROOM).ok_or("bad room")?,
        })
    }

    /// The refusal and the two counts, and the lines if there is none.
    fn answer(&self) -> Vec<u8> {
        let (Some(left), Some(right)) = (field(self.left), field(self.right)) else {
            return b"refusal 0 lines 0 bytes 0\n".to_vec();
        };
        let Some(found) = search(&left, &right, self.row) else {
            return b"refusal 9 lines 0 bytes 0\n".to_vec();
        };
        let lines = found.answers.iter().map(answer_line);
        let text = lines.collect::<Vec<_>>().concat();
        let (count, bytes) = (found.answers.len(), text.len());
        if bytes > self.room {
            return format!("refusal 8 lines {count} bytes {bytes}\n").into_bytes();
        }
        let counts = format!("refusal 0 lines {count} bytes {bytes}\n");
        [counts.as_bytes(), &text].concat()
    }
}

/// The only field of a rule that has no right side. Any other text stands for
/// a field that no rule has.
fn field(text: &[u8]) -> Option<Field> {
    let mut rule = read_rule(text).ok()?;
    if rule.left.len() == 1 && rule.right.is_none() {
        rule.left.pop()
    } else {
        None
    }
}

/// A decimal number up to the largest, which `-` and a part that is missing
/// or empty stand for.
fn size(part: Option<&[u8]>, largest: usize) -> Option<usize> {
    match part {
        None | Some(b"" | b"-") => Some(largest),
        Some(digits) if digits.iter().all(u8::is_ascii_digit) => {
            let number = std::str::from_utf8(digits).ok()?.parse().ok()?;
            Some(number).filter(|&number| number <= largest)
        }
        Some(_) => None,
    }
}
