//! What `pairs` answers for a line.

use reference::answers::pairs_answer;
use reference::generate::large::{full_list, overfull_list};
use reference::overlaps::entries;
use reference::reading::read_rule;
use reference::terms::Rule;

use crate::support::*;

fn answer(line: &[u8]) -> String {
    let text = String::from_utf8(pairs_answer(7, line)).unwrap();
    text.strip_prefix("pair 7\n").unwrap().to_string()
}

fn assert_line(line: impl AsRef<[u8]>, lines: &[&str]) {
    let line = line.as_ref();
    let expected: String = lines.iter().map(|line| format!("{line}\n")).collect();
    assert_eq!(answer(line), expected, "{}", show(line));
}

fn assert_pair(left: &str, right: &str, lines: &[&str]) {
    assert_line(format!("{left}\t{right}"), lines);
}

fn rule(text: &str) -> Rule {
    read_rule(text.as_bytes()).unwrap()
}

#[test]
fn the_pairs_of_document_01() {
    assert_pair(
        "a0:l0",
        "l0:2",
        &[
            "2 <a0=2 <l0=empty >l0=empty",
            "a0:l0:2 <a0=a0 <l0=l0:2 >l0=a0:l0",
        ],
    );
    assert_pair("l0", "l0", &["l0 <l0=l0 >l0=l0"]);
    assert_pair("empty", "empty", &["empty"]);
    assert_pair("i0", "2:l0", &["2 <i0=2 >l0=empty"]);
    assert_pair("i0", "s0", &[]);
    assert_pair(
        "1:2:l0",
        "l0:2:3",
        &["1:2:3 <l0=3 >l0=1", "1:2:l0:2:3 <l0=l0:2:3 >l0=1:2:l0"],
    );
    assert_pair("a0|a0", "1|\"m\"", &[]);
    assert_pair("a0", "1", &["1 <a0=1"]);
    assert_pair("a0", "\"m\"", &["\"m\" <a0=\"m\""]);
    assert_pair("i0|i0:l0", "3|a0", &["3|3 <i0=3 <l0=empty >a0=3"]);
    assert_pair("a0:a0", "i0:l0", &["i0:i0 <a0=i0 >i0=i0 >l0=i0"]);
    assert_pair("a0:a0", "1:\"1\"", &[]);
    assert_pair("l0", "l0|l1", &[]);
}

#[test]
fn the_edges_of_document_01() {
    let most = "2147483647";
    assert_pair(most, "l0", &["2147483647 >l0=2147483647"]);
    assert_pair("2147483648", "l0", &["refused left 5 at 0"]);
    assert_pair("l0", "2147483648", &["refused right 5 at 0"]);
    let string = quoted(15);
    assert_pair(&string, "s0", &[&format!("{string} >s0={string}")]);
    assert_pair(&quoted(16), "s0", &["refused left 5 at 0"]);
    assert_pair("i01", "i0", &["refused left 2 at 2"]);
    assert_pair("i0", "i01", &["refused right 2 at 2"]);
    assert_pair("l0|l0", "1", &["refused left 6 at 3"]);
    assert_pair("1", "l0:l1", &["refused right 6 at 3"]);
    assert_pair("", "1", &["refused left 2 at 0"]);
    assert_pair("1", "", &["refused right 2 at 0"]);
}

#[test]
fn every_refusal_on_either_side() {
    for (text, refusal) in &refused_rules() {
        assert_pair(text, "l0", &[&format!("refused left {refusal}")]);
        assert_pair("l0", text, &[&format!("refused right {refusal}")]);
        if text.len() < 4096 {
            assert_pair(text, "i16", &[&format!("refused left {refusal}")]);
        }
    }
}

/// "Overlaps look at left sides only" (document 02).
#[test]
fn right_sides_play_no_part() {
    let lines = [
        "2 <a0=2 <l0=empty >l0=empty",
        "a0:l0:2 <a0=a0 <l0=l0:2 >l0=a0:l0",
    ];
    assert_pair("a0:l0=>l0:a0", "l0:2", &lines);
    assert_pair("a0:l0", "l0:2=>1|2|3|4", &lines);
    assert_pair("a0:l0=>l0:l0|l0", "l0:2=>empty", &lines);
    assert_pair("1=>2", "1=>3", &["1"]);
    assert_pair("1=>3", "2=>3", &[]);
    assert_pair("\"=>\"=>1", "s0", &["\"=>\" >s0=\"=>\""]);
    assert_pair("i0=>a0", "1", &["refused left 10 at 4"]);
    assert_pair("1", "i0=>a0", &["refused right 10 at 4"]);
    assert_pair("1=", "1", &["refused left 2 at 2"]);
}

#[test]
fn constants() {
    assert_pair("007", "7", &["7"]);
    assert_pair("7", "\"7\"", &[]);
    assert_pair("\"m\"", "\"m\"", &["\"m\""]);
    assert_pair("\"m\"", "\"M\"", &[]);
    assert_pair("1:2", "1", &[]);
    assert_pair("1:empty:2", "empty:1:2", &["1:2"]);
    assert_pair("1|2|3|4", "1|2|3|4", &["1|2|3|4"]);
    assert_pair("1|2|3|4", "1|2|3|5", &[]);
    assert_pair("s0", "\" <a0=\"", &["\" <a0=\" <s0=\" <a0=\""]);
}

#[test]
fn minus_amounts() {
    assert_pair(
        "i0:l0",
        "l0:-2",
        &[
            "-2 <i0=-2 <l0=empty >l0=empty",
            "i0:l0:-2 <i0=i0 <l0=l0:-2 >l0=i0:l0",
        ],
    );
    assert_pair("-0", "0", &["0"]);
    assert_pair("a0:a0", "-1:1", &[]);
    assert_pair("-007", "-7", &["-7"]);
    assert_pair("-7", "7", &[]);
    assert_pair("-7", "\"-7\"", &[]);
    assert_pair("i0", "-5", &["-5 <i0=-5"]);
    assert_pair("-5", "s0", &[]);
    assert_pair("a0:a0", "-1:-001", &["-1:-1 <a0=-1"]);
    assert_pair("a0:a0", "0:-0", &["0:0 <a0=0"]);
    assert_pair("a0|a0", "a0|-3", &["-3|-3 <a0=-3 >a0=-3"]);
    assert_pair("-1:l0", "l0:1", &["-1:l0:1 <l0=l0:1 >l0=-1:l0"]);
    assert_pair(
        "-1:l0=>-2",
        "l0:-1=>2",
        &["-1 <l0=empty >l0=empty", "-1:l0:-1 <l0=l0:-1 >l0=-1:l0"],
    );
    let lowest = "-2147483648";
    assert_pair(lowest, "l0", &["-2147483648 >l0=-2147483648"]);
    assert_pair("-2147483649", "l0", &["refused left 5 at 0"]);
    assert_pair("l0", "--1", &["refused right 2 at 1"]);
}

#[test]
fn types() {
    let table = [
        ("i0", "i0", "i0 <i0=i0 >i0=i0"),
        ("s0", "s0", "s0 <s0=s0 >s0=s0"),
        ("a0", "a0", "a0 <a0=a0 >a0=a0"),
        ("i0", "a0", "i0 <i0=i0 >a0=i0"),
        ("a0", "s0", "s0 <a0=s0 >s0=s0"),
        ("i0", "l0", "i0 <i0=i0 >l0=i0"),
        ("i0", "5", "5 <i0=5"),
        ("\"5\"", "s3", "\"5\" >s3=\"5\""),
    ];
    for (left, right, line) in table {
        assert_pair(left, right, &[line]);
    }
    for (left, right) in [("i0", "\"5\""), ("5", "s0"), ("i0", "s0"), ("s0", "i0")] {
        assert_pair(left, right, &[]);
    }
}

#[test]
fn variables_spelled_alike_are_kept_apart() {
    assert_pair("a0:a1", "a1:a0", &["a0:a1 <a0=a0 <a1=a1 >a0=a1 >a1=a0"]);
    assert_pair("i0:a0", "a0:i0", &["i0:i1 <i0=i0 <a0=i1 >i0=i1 >a0=i0"]);
    assert_pair("a0:1", "2:a0", &["2:1 <a0=2 >a0=1"]);
    assert_pair("l0:1", "2:l0", &["2:l0:1 <l0=2:l0 >l0=l0:1"]);
}

#[test]
fn variables_that_recur() {
    assert_pair("a0:a0", "1:a0", &["1:1 <a0=1 >a0=1"]);
    assert_pair("a0:a0", "1:2", &[]);
    assert_pair("a0:a0", "1:001", &["1:1 <a0=1"]);
    // What a later field says holds in the earlier one.
    assert_pair("a0|a0", "a0|3", &["3|3 <a0=3 >a0=3"]);
    assert_pair("a0|a0", "a0|i0", &["i0|i0 <a0=i0 >i0=i0 >a0=i0"]);
    assert_pair("a0|a0", "i0|s0", &[]);
    // A chain through variables of both rules.
    assert_pair(
        "a0:a1:a1:a2",
        "a0:a0:a1:a1",
        &["a0:a0:a0:a0 <a0=a0 <a1=a0 <a2=a0 >a0=a0 >a1=a0"],
    );
    assert_pair("a0:a1:a1:i0", "s0:s0:a1:a1", &[]);
    assert_pair(
        "1:a1:a1:a2",
        "a0:a0:a1:a1",
        &["1:1:1:1 <a1=1 <a2=1 >a0=1 >a1=1"],
    );
    // One length dies by a value of another field, the other lengths live.
    assert_pair("a0|a0:l0", "1|l0:2", &["1|1:l0:2 <a0=1 <l0=l0:2 >l0=1:l0"]);
}

#[test]
fn variables_of_an_entry_are_numbered_by_first_occurrence() {
    assert_pair(
        "s5:i7|a9:l3",
        "a0:a1|l0",
        &["s0:i0|a0:l0 <i7=i0 <s5=s0 <a9=a0 <l3=l0 >a0=s0 >a1=i0 >l0=a0:l0"],
    );
    assert_pair("l3|l1", "l0|l9", &["l0|l1 <l1=l1 <l3=l0 >l0=l0 >l9=l1"]);
    assert_pair(
        "a9:l0:a8",
        "l0:a3:a2",
        &[
            "a0:a1 <a8=a1 <a9=a0 <l0=empty >a2=a1 >a3=a0 >l0=empty",
            "a0:l0:a1:a2 <a8=a2 <a9=a0 <l0=l0:a1 >a2=a2 >a3=a1 >l0=a0:l0",
        ],
    );
}

#[test]
fn an_entry_may_have_32_variables_of_a_type_and_31_terms() {
    let names: Vec<String> = (0..15).map(|number| format!("a{number}")).collect();
    let names = names.join(":");
    let (left, right) = (format!("{names}:l0|a15:l1"), format!("l0:{names}|l1:a15"));
    let all: Vec<_> = entries(&rule(&left), &rule(&right)).collect();
    assert_eq!(all.len(), 16 * 2);
    let last = all.last().unwrap();
    assert_eq!(last.fields[0].len(), 31);
    assert_eq!(last.fields[0][30], var(b'a', 29));
    assert_eq!(last.fields[1], [var(b'a', 30), var(b'l', 1), var(b'a', 31)]);
}

#[test]
fn fields_without_a_list_variable_have_one_length() {
    assert_pair("l0", "empty", &["empty <l0=empty"]);
    assert_pair("a0:a1", "l0:1:2:3", &[]);
    assert_pair("a0:a1", "1:l0:2", &["1:2 <a0=1 <a1=2 >l0=empty"]);
    assert_pair("a0:a1:a2", "1:l0:2", &["1:a0:2 <a0=1 <a1=a0 <a2=2 >l0=a0"]);
    let full = times(16, "1");
    assert_pair(&full, "l0", &[&format!("{full} >l0={full}")]);
}

#[test]
fn lengths_in_their_order() {
    assert_pair(
        "a0:l0:a1",
        "l0",
        &["a0:l0:a1 <a0=a0 <a1=a1 <l0=l0 >l0=a0:l0:a1"],
    );
    assert_pair("1:l0:2", "l0:2:3", &[]);
    assert_pair(
        "l0:1:2",
        "1:l0",
        &["1:2 <l0=empty >l0=2", "1:l0:1:2 <l0=1:l0 >l0=l0:1:2"],
    );
    assert_pair(
        "1:1:l0",
        "l0:1:1",
        &[
            "1:1 <l0=empty >l0=empty",
            "1:1:1 <l0=1 >l0=1",
            "1:1:l0:1:1 <l0=l0:1:1 >l0=1:1:l0",
        ],
    );
    assert_pair(
        "l0:1|l1:1",
        "1:l0|1:l1",
        &[
            "1|1 <l0=empty <l1=empty >l0=empty >l1=empty",
            "1|1:l0:1 <l0=empty <l1=1:l0 >l0=empty >l1=l0:1",
            "1:l0:1|1 <l0=1:l0 <l1=empty >l0=l0:1 >l1=empty",
            "1:l0:1|1:l1:1 <l0=1:l0 <l1=1:l1 >l0=l0:1 >l1=l1:1",
        ],
    );
}

#[test]
fn different_field_counts() {
    assert_pair("empty", "empty|empty", &[]);
    assert_pair("1|2|3", "1|2", &[]);
    assert_pair("l0|l1|l2|l3", "l0|l1|l2", &[]);
}

#[test]
fn a_list_of_as_many_bytes_as_there_is_room_for() {
    let lines = answer(&full_list());
    assert_eq!(lines.len(), 65_536);
    assert_eq!(lines.lines().count(), 130);
    assert!(lines.ends_with('\n'));
    assert_eq!(answer(&overfull_list()), "too long 65537\n");
}

/// Strings that differ can't lie on each other, which leaves one entry.
#[test]
fn the_line_of_one_entry_may_be_long() {
    let (mut left, mut right) = (Vec::new(), Vec::new());
    for number in 10..14 {
        left.push(format!("{}:l{number}", times(15, &quoted(15))));
        right.push(format!(
            "l{number}:{}",
            times(15, &quoted(15).replace('x', "y"))
        ));
    }
    let line = answer([left.join("|"), right.join("|")].join("\t").as_bytes());
    assert_eq!(line.lines().count(), 1);
    assert_eq!(line.len(), 4_396);
}

#[test]
fn sixteen_candidates_a_field() {
    let ones = times(15, "1");
    let (left, right) = (format!("{ones}:l0"), format!("l0:{ones}"));
    assert_eq!(
        answer(format!("{left}\t{right}").as_bytes())
            .lines()
            .count(),
        16
    );
    let left = format!("{left}|{ones}:l1");
    let right = format!("{right}|l1:{ones}");
    let count = entries(&rule(&left), &rule(&right)).count();
    assert_eq!(count, 256);
}

#[test]
fn the_first_tab_divides() {
    assert_line("", &["refused left 2 at 0"]);
    assert_line("\t", &["refused left 2 at 0"]);
    assert_line("\t1", &["refused left 2 at 0"]);
    assert_line("1", &["refused right 2 at 0"]);
    assert_line("1\t", &["refused right 2 at 0"]);
    assert_line("1\t1\t", &["refused right 2 at 1"]);
    assert_line("1\t1\t1", &["refused right 2 at 1"]);
    assert_line("1\t\t1", &["refused right 2 at 0"]);
    assert_line("\"\t\"\t1", &["refused left 2 at 1"]);
    assert_line(b"1\t1\r", &["refused right 2 at 1"]);
    assert_line(b"1:\0\t1", &["refused left 2 at 2"]);
    assert_line(b"1\t\"\xff\"", &["refused right 2 at 1"]);
}

#[test]
fn long_lines() {
    let line = |left: usize, right: usize| ["x".repeat(left), "y".repeat(right)].join("\t");
    assert_line(line(4096, 4096), &["refused left 2 at 0"]);
    assert_line(line(4097, 4095), &["refused left 1 at 4096"]);
    assert_line(line(4097, 4096), &["line too long"]);
    assert_line(line(4096, 4097), &["line too long"]);
    assert_line("x".repeat(8193), &["refused left 1 at 4096"]);
    assert_line("x".repeat(8194), &["line too long"]);
    assert_line(
        format!("1\t{}", "x".repeat(8191)),
        &["refused right 1 at 4096"],
    );
    assert_line(format!("1\t{}", "x".repeat(8192)), &["line too long"]);
    assert_line(
        format!("1\t{}", "x".repeat(4096)),
        &["refused right 2 at 0"],
    );
}
