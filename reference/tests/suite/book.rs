//! What `book` answers, and which rule of a book a slip gets.

use std::io::{self, BufReader, Read};

use reference::answers::book_answer;
use reference::book::{overlapping, pick};
use reference::generate::wide::{clashing_book, overlapping_book};
use reference::overlaps::overlap;
use reference::reading::{read_rule, read_slip};
use reference::terms::{Rule, Slip};

use crate::support::*;

fn answer(input: impl AsRef<[u8]>) -> String {
    let text = book_answer(input.as_ref()).unwrap();
    String::from_utf8(text).unwrap()
}

fn assert_book(lines: &[&str], answers: &[&str]) {
    let expected: String = answers.iter().map(|line| format!("{line}\n")).collect();
    let book = lines.join("\n");
    assert_eq!(answer(&book), expected, "{lines:?}");
    assert_eq!(answer(book + "\n"), expected, "{lines:?}");
}

fn rules(texts: &[&str]) -> Vec<Rule> {
    let rule = |text: &&str| read_rule(text.as_bytes()).unwrap();
    texts.iter().map(rule).collect()
}

fn slip(text: &str) -> Slip {
    read_slip(text.as_bytes()).unwrap()
}

/// The numbers from 1, which are disjoint rules.
fn numbers(count: usize) -> Vec<String> {
    (1..=count).map(|number| number.to_string()).collect()
}

#[test]
fn the_book_of_document_02() {
    assert_book(&["i0", "s0", "a0"], &["1 3", "2 3"]);
}

#[test]
fn books_without_a_pair() {
    assert_eq!(answer(""), "");
    assert_book(&["l0"], &[]);
    assert_book(&["i0", "s0"], &[]);
    assert_book(&["1", "2", "-1", "\"1\"", "1:1", "1|1", "empty"], &[]);
}

#[test]
fn pairs_of_rules_by_their_numbers() {
    assert_book(&["1", "01"], &["1 2"]);
    assert_book(&["1", "2", "1"], &["1 3"]);
    assert_book(&["a0", "i0", "s0"], &["1 2", "1 3"]);
    assert_book(
        &["a0:l0", "l0:2", "i0", "s0"],
        &["1 2", "1 3", "1 4", "2 3"],
    );
    assert_book(&["l0", "l0|l1", "1|2", "3"], &["1 4", "2 3"]);
    assert_book(
        &["a0|a0", "1|\"m\"", "i0|s0", "a0|a1"],
        &["1 4", "2 3", "2 4", "3 4"],
    );
    assert_book(&["-0", "0", "-7", "7"], &["1 2"]);
}

/// Of 16 rules, so that numbers of one digit and of two stand in one list.
#[test]
fn pairs_are_sorted_as_numbers() {
    let mut expected = String::new();
    for one in 1..=16 {
        for other in one + 1..=16 {
            expected += &format!("{one} {other}\n");
        }
    }
    assert_eq!(answer("a0\n".repeat(16)), expected);
    let mut lines = numbers(16);
    lines[1] = "10".to_string();
    lines[8] = "16".to_string();
    lines[15] = "i0".to_string();
    let mut expected: Vec<String> = (1..=15).map(|number| format!("{number} 16")).collect();
    expected.insert(1, "2 10".to_string());
    assert_eq!(answer(lines.join("\n")), expected.join("\n") + "\n");
}

/// "Overlaps look at left sides only" (document 02).
#[test]
fn right_sides_play_no_part() {
    assert_book(&["1=>2", "1=>3", "2=>1"], &["1 2"]);
    assert_book(&["i0=>i0:i0", "l0:1=>l0|l0", "s0=>empty"], &["1 2"]);
    assert_book(&["\"=>\"=>1", "s0"], &["1 2"]);
    assert_book(&["1", "i0=>a0", "1"], &["refused 2 10 at 4"]);
}

#[test]
fn the_first_refused_line_is_all_that_is_printed() {
    let mut table = refused_rules();
    // Lines that are texts of rules nowhere.
    table.push((String::new(), "2 at 0"));
    table.push(("1\t1".to_string(), "2 at 1"));
    table.push(("1\r".to_string(), "2 at 1"));
    for (text, refusal) in &table {
        for number in 1..=16 {
            let mut lines = vec!["l0"; 16];
            lines[number - 1] = text;
            let expected = format!("refused {number} {refusal}\n");
            assert_eq!(answer(lines.join("\n") + "\n"), expected);
            // What comes behind it changes nothing.
            lines[number..].fill("x");
            assert_eq!(answer(lines.join("\n") + "\n"), expected);
            assert_eq!(answer(lines.join("\n") + "\n1\n2"), expected);
        }
    }
}

#[test]
fn any_byte_is_a_part_of_its_line() {
    for byte in (0..=255).filter(|&byte| byte != b'\n') {
        let line = [b'1', b':', byte];
        let expected = match read_rule(&line) {
            Ok(_) => String::new(),
            Err(refusal) => format!("refused 2 {} at {}\n", refusal.number, refusal.place),
        };
        assert_eq!(answer([b"2\n", line.as_slice(), b"\n3"].concat()), expected);
    }
}

#[test]
fn empty_lines_are_texts() {
    assert_eq!(answer("\n"), "refused 1 2 at 0\n");
    assert_eq!(answer("\n\n"), "refused 1 2 at 0\n");
    assert_eq!(answer("\n1"), "refused 1 2 at 0\n");
    assert_eq!(answer("1\n\n"), "refused 2 2 at 0\n");
    assert_eq!(answer("1\n\n1"), "refused 2 2 at 0\n");
    assert_eq!(answer("1\n"), "");
}

#[test]
fn long_lines() {
    let line = |bytes: usize| "1\n".to_string() + &"x".repeat(bytes);
    for end in ["", "\n", "\n1", "\n\n"] {
        assert_eq!(answer(line(4095) + end), "refused 2 2 at 0\n");
        assert_eq!(answer(line(4096) + end), "refused 2 2 at 0\n");
        assert_eq!(answer(line(4097) + end), "refused 2 1 at 4096\n");
        assert_eq!(answer(line(4098) + end), "refused 2 1 at 4096\n");
        assert_eq!(answer(line(100_000) + end), "refused 2 1 at 4096\n");
    }
}

#[test]
fn a_seventeenth_line_is_refused_whatever_it_holds() {
    let sixteen = numbers(16).join("\n") + "\n";
    assert_eq!(answer(&sixteen), "");
    for line in ["17", "17\n", "\n", "x", "x\n", "\n\n", "17\nx\n", "\0"] {
        assert_eq!(answer(sixteen.clone() + line), "refused 17 12 at 0\n");
    }
    let long = "x".repeat(5_000);
    assert_eq!(answer(sixteen.clone() + &long), "refused 17 12 at 0\n");
    // The sixteen before it are read first.
    let fifteen = numbers(15).join("\n") + "\n";
    assert_eq!(answer(fifteen.clone() + "\n17"), "refused 16 2 at 0\n");
    assert_eq!(answer(fifteen + "i0\n17"), "refused 17 12 at 0\n");
}

/// Behind the end of what is needed, reading would never come to an end or
/// would fail.
#[test]
fn no_more_is_read_than_the_answer_takes() {
    struct Broken;
    impl Read for Broken {
        fn read(&mut self, _: &mut [u8]) -> io::Result<usize> {
            Err(io::Error::other("broken"))
        }
    }
    let found = |input: Box<dyn Read>| {
        let text = book_answer(BufReader::with_capacity(16, input)).ok()?;
        String::from_utf8(text).ok()
    };
    let endless = |start: &'static str| found(Box::new(start.as_bytes().chain(io::repeat(b'1'))));
    let broken = |start: &'static str| found(Box::new(start.as_bytes().chain(Broken)));
    assert_eq!(endless("").as_deref(), Some("refused 1 1 at 4096\n"));
    assert_eq!(endless("1\n2\n").as_deref(), Some("refused 3 1 at 4096\n"));
    assert_eq!(endless("1\nx\n").as_deref(), Some("refused 2 2 at 0\n"));
    assert_eq!(broken("1\nx\n").as_deref(), Some("refused 2 2 at 0\n"));
    assert_eq!(broken("1\n2\n"), None);
    assert_eq!(broken(""), None);
}

#[test]
fn a_slip_gets_the_first_rule_that_matches_it() {
    let book = rules(&["1:l0", "l0:2", "a0", "i0|i0", "l0"]);
    let table = [
        ("1", Some(1)),
        ("1:2", Some(1)),
        ("3:2", Some(2)),
        ("2", Some(2)),
        ("\"1\"", Some(3)),
        ("7|007", Some(4)),
        ("7|8", None),
        ("empty", Some(5)),
        ("3:3", Some(5)),
        ("1|2|3", None),
    ];
    for (text, position) in table {
        assert_eq!(pick(&book, &slip(text)), position, "{text}");
    }
    assert_eq!(pick(&[], &slip("1")), None);
    assert_eq!(pick(&rules(&["1=>2", "1"]), &slip("1")), Some(1));
}

#[test]
fn a_value_of_more_than_16_rules_counts_as_an_empty_book() {
    let sixteen = rules(&["l0"; 16]);
    assert_eq!(pick(&sixteen, &slip("1")), Some(1));
    assert_eq!(overlapping(&sixteen).len(), 120);
    let seventeen = rules(&["l0"; 17]);
    assert_eq!(pick(&seventeen, &slip("1")), None);
    assert_eq!(overlapping(&seventeen), []);
}

/// Reading returns no rule without fields.
#[test]
fn a_rule_without_fields_overlaps_with_none() {
    let (none, any) = (Rule::default(), Rule::of(vec![vec![var(b'l', 0)]]));
    assert!(!overlap(&none, &none));
    assert!(!overlap(&none, &any));
    assert!(!overlap(&any, &none));
}

/// What is timed has the answers that its name says, and no list is made of
/// 65,536 entries.
#[test]
fn wide_books() {
    assert_eq!(answer(overlapping_book()).lines().count(), 120);
    assert_eq!(answer(first_lines(&clashing_book(), 4)), "");
    for book in [overlapping_book(), clashing_book()] {
        assert_eq!(book.split(|&byte| byte == b'\n').count(), 17);
    }
}

fn first_lines(book: &[u8], count: usize) -> Vec<u8> {
    let lines = book.split_inclusive(|&byte| byte == b'\n');
    lines.take(count).collect::<Vec<_>>().concat()
}
