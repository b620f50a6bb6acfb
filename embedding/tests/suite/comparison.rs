//! The second program, which shares no code with the library, on generated
//! lines: the same refusals, the same lists, the same results.

use reference::carrying::{self, Carried};
use reference::draw::Draw;
use reference::generate::carries::carry_line;
use reference::generate::pairs::pair_line;
use reference::overlaps::entries;
use reference::reading;
use reference::terms::Rule;
use reference::writing::{entry_line, plain_slip};
use yopobrush::{
    carried, carry_out, list_overlaps, overlaps, read_rule, texts_overlap, Answer, CarryError,
    Error, Listing, Refusal,
};

const LINES: usize = 4_000;

/// Longer lists are only counted.
const LONGEST: usize = 65_536;

fn ours(refusal: reading::Refusal) -> Refusal {
    Refusal {
        number: refusal.number,
        place: refusal.place,
    }
}

/// The list's front, and its size.
fn expected_list(left: &Rule, right: &Rule) -> (Vec<u8>, Listing) {
    let (mut list, mut listing) = (
        Vec::new(),
        Listing {
            entries: 0,
            bytes: 0,
        },
    );
    for entry in entries(left, right) {
        let line = entry_line(&entry);
        listing.entries += 1;
        listing.bytes += line.len();
        if listing.bytes <= LONGEST {
            list.extend(line);
        }
    }
    (list, listing)
}

/// What both programs say of two texts that are not both rules.
fn refusal(
    left: &Result<Rule, reading::Refusal>,
    right: &Result<Rule, reading::Refusal>,
) -> Option<Error> {
    match (left, right) {
        (Err(refusal), _) => Some(Error::Left(ours(*refusal))),
        (_, Err(refusal)) => Some(Error::Right(ours(*refusal))),
        _ => None,
    }
}

fn compare(left: &[u8], right: &[u8]) {
    let pair = format!("{} and {}", left.escape_ascii(), right.escape_ascii());
    let (left_read, right_read) = (reading::read_rule(left), reading::read_rule(right));
    for (text, read) in [(left, &left_read), (right, &right_read)] {
        assert_eq!(
            read_rule(text).err(),
            read.as_ref().err().map(|r| ours(*r)),
            "{pair}"
        );
    }
    let mut out = vec![7; LONGEST];
    let listed = list_overlaps(left, right, &mut out);
    if let Some(error) = refusal(&left_read, &right_read) {
        assert_eq!(listed, Err(error), "{pair}");
        assert_eq!(overlaps(left, right), Err(error), "{pair}");
        assert_eq!(texts_overlap(left, right), Err(error), "{pair}");
    }
    if let Some(error) = refusal(&right_read, &left_read) {
        assert_eq!(texts_overlap(right, left), Err(error), "{pair}");
    }
    let (Ok(left_rule), Ok(right_rule)) = (left_read, right_read) else {
        return;
    };
    let (list, listing) = expected_list(&left_rule, &right_rule);
    let overlap = Ok(listing.entries > 0);
    assert_eq!(texts_overlap(left, right), overlap, "{pair}");
    assert_eq!(texts_overlap(right, left), overlap, "{pair}");
    if listing.bytes > LONGEST {
        assert_eq!(listed, Err(Error::TooSmall(listing)), "{pair}");
    } else {
        assert_eq!(listed, Ok(listing), "{pair}");
        assert!(out.starts_with(&list), "the list of {pair}");
        assert!(overlaps(left, right) == Ok(list), "the list of {pair}");
    }
}

/// What stands before the first tab, and what behind it.
pub fn divided(line: &[u8]) -> (&[u8], &[u8]) {
    let mut parts = line.splitn(2, |&byte| byte == b'\t');
    let first = parts.next().unwrap_or_default();
    (first, parts.next().unwrap_or_default())
}

#[test]
fn the_same_lists_as_the_second_program() {
    let mut draw = Draw::new(5);
    for _ in 0..LINES {
        let line = pair_line(&mut draw);
        let (left, right) = divided(&line);
        compare(left, right);
    }
}

/// The second program's answer and its text.
fn expected_carrying(rule: &[u8], slip: &[u8]) -> Result<(Answer, Vec<u8>), CarryError> {
    let rule = reading::read_rule(rule).map_err(|refusal| CarryError::Rule(ours(refusal)))?;
    let slip = reading::read_slip(slip).map_err(|refusal| CarryError::Slip(ours(refusal)))?;
    let (answer, slip) = match carrying::carry_out(&rule, &slip) {
        Carried::Yes(result) => (Answer::Yes, result),
        Carried::No => (Answer::No, slip),
        Carried::TooLong => (Answer::TooLong, slip),
    };
    Ok((answer, plain_slip(&slip)))
}

#[test]
fn the_same_results_as_the_second_program() {
    let mut draw = Draw::new(6);
    for _ in 0..LINES {
        let line = carry_line(&mut draw);
        let (rule, slip) = divided(&line);
        let expected = expected_carrying(rule, slip);
        assert_eq!(carried(rule, slip), expected, "{}", line.escape_ascii());
        let Ok((_, text)) = expected else {
            continue;
        };
        let mut small = vec![7; text.len() - 1];
        let found = carry_out(rule, slip, &mut small);
        assert_eq!(found, Err(CarryError::TooSmall(text.len())));
        assert!(small.iter().all(|&byte| byte == 7));
    }
}
