//! In which order the tests of a match stand, and how many items are compared
//! up to the first that fails.

use reference::comparing::Test::{Fields, Item, Length};
use reference::comparing::{all_tests, compared, Test};
use reference::reading::{read_rule, read_slip};
use reference::terms::{Rule, Slip};

use crate::support::*;

fn both(rule: &str, slip: &str) -> (Rule, Slip) {
    let rule = read_rule(rule.as_bytes()).unwrap();
    (rule, read_slip(slip.as_bytes()).unwrap())
}

fn assert_tests(rule: &str, slip: &str, tests: &[Test]) {
    let (left, fields) = both(rule, slip);
    assert_eq!(all_tests(&left, &fields), tests, "{rule} {slip}");
}

fn assert_count(rule: &str, slip: &str, count: usize) {
    let (left, fields) = both(rule, slip);
    assert_eq!(compared(&left, &fields), count, "{rule} {slip}");
}

#[test]
fn other_numbers_of_fields_compare_nothing() {
    assert_count("l0", "1|2", 0);
    assert_count("1", "1|2", 0);
    assert_count("1|2", "1", 0);
    assert_count("1|2|3|4", "1|2|3", 0);
    assert_count("1|2|3", "1|2|3|4", 0);
    let (rule, slip) = both("1", "1");
    assert_eq!(compared(&Rule::default(), &slip), 0);
    assert_eq!(compared(&rule, &Slip::default()), 0);
    assert_eq!(compared(&Rule::default(), &Slip::default()), 0);
}

#[test]
fn fields_from_the_left() {
    assert_count("1|2", "3|4", 1);
    assert_count("1|2", "3|2", 1);
    assert_count("1|2", "1|4", 2);
    assert_count("1:2|3:4", "9:2|3:4", 1);
    assert_count("1:2|3:4", "1:9|9:4", 2);
    assert_count("1:2|3:4", "1:2|9:9", 3);
    assert_count("1:2|3:4", "1:2|3:9", 4);
    assert_count("1|2|3|4", "1|2|9|9", 3);
    assert_count("1|2|3|4", "1|2|3|9", 4);
    // A later field's length does not matter where an earlier field fails.
    assert_count("1:2|3", "1:9|empty", 2);
    assert_count("1:2|3", "9:2|3:4", 1);
    assert_count("1:2|3", "1:2|empty", 2);
    assert_count("1:2|3", "1:2|3:4", 2);
    assert_count("i0|s0", "1|\"q\":4", 1);
}

#[test]
fn the_length_before_the_atoms() {
    assert_count("1:2", "1", 0);
    assert_count("1:2", "1:2:3", 0);
    assert_count("1:2", "9:9:9", 0);
    assert_count("1", "empty", 0);
    assert_count("empty", "1", 0);
    // With a list variable a field may be longer, but no shorter.
    assert_count("1:l0:1", "1", 0);
    assert_count("1:l0:1", "1:1", 2);
    assert_count("1:l0:2", "1:9:9:2", 2);
    assert_count("l0:1", "empty", 0);
    assert_count("1:l0", "empty", 0);
    assert_count("l0", "empty", 0);
    assert_count("1|1:l0:1", "1|1", 1);
}

#[test]
fn atoms_from_the_left() {
    assert_count("1:2:3", "9:9:9", 1);
    assert_count("1:2:3", "1:9:9", 2);
    assert_count("1:2:3", "1:2:9", 3);
    assert_count("1:2:3", "1:2:3", 3);
    // Behind a list variable too, though they lie on the last items.
    assert_count("l0:1:2", "7:9:9", 1);
    assert_count("l0:1:2", "7:1:9", 2);
    assert_count("1:l0:2:3", "9:7:7:9:9", 1);
    assert_count("1:l0:2:3", "1:7:7:9:9", 2);
    assert_count("1:l0:2:3", "1:7:7:2:9", 3);
    for at in 0..16 {
        let mut items = ["1"; 16];
        items[at] = "2";
        assert_count(&times(16, "1"), &items.join(":"), at + 1);
    }
}

#[test]
fn list_variables_are_no_atoms() {
    assert_count("l0", "1", 0);
    assert_count("l0", &times(64, "1"), 0);
    assert_count("l0|l1|l2|l3", "1|empty|2:3|4", 0);
    assert_count("1:l0:2", "1:5:3", 2);
    assert_count("1:l0:2", "1:5:5:5:3", 2);
    assert_count("i0:l0", "7:\"blue\":2", 1);
    assert_count("l0:1|l1|2", "7:7:1|7:7|9", 2);
}

#[test]
fn the_item_that_fails_is_counted() {
    assert_count("7", "8", 1);
    assert_count("7", "\"7\"", 1);
    assert_count("-7:1", "7:1", 1);
    assert_count("-7:1", "-007:-1", 2);
    assert_count("a0:a0:1", "-1:1:1", 2);
    assert_count("0:1", "-0:2", 2);
    assert_count("i0", "\"7\"", 1);
    assert_count("s0", "7", 1);
    assert_count("a0:a0", "1:2", 2);
    assert_count("a0:a0", "1:\"1\"", 2);
    assert_count("a0:i0:a0", "1:2:3", 3);
    assert_count("a0:i0:a0", "1:\"2\":3", 2);
    assert_count("a0:l0:a0", "1:2:3", 2);
    assert_count("a0|i0|a0", "1|2|3", 3);
    assert_count("i0|s0:3", "1|\"q\":4", 3);
    // The same number under another letter is another variable.
    assert_count("a0:i0:s0", "1:2:3", 3);
}

#[test]
fn the_most_items() {
    let rule = ["1", "a0", "a1", "i1"]
        .map(|term| times(16, term))
        .join("|");
    let ones = times(16, "1");
    let slip = [&ones[..], &ones, &ones, &ones].join("|");
    assert_count(&rule, &slip, 64);
    assert_count(&rule, &format!("2{}", &slip[1..]), 1);
    assert_count(&rule, &format!("{}2", &slip[..slip.len() - 1]), 64);
    assert_count(&rule, &format!("{slip}:1"), 48);
}

/// The whole list, which does not end at the first failure.
#[test]
fn all_tests_in_their_order() {
    assert_tests("empty", "empty", &[Fields(true), Length(true)]);
    assert_tests(
        "1:l0:2|i0",
        "1:5:3|\"q\":4",
        &[
            Fields(true),
            Length(true),
            Item(true),
            Item(false),
            Length(false),
            Item(false),
        ],
    );
    // A variable has the value that it has first.
    assert_tests(
        "a0:a0:a0|a0",
        "1:2:1|2",
        &[
            Fields(true),
            Length(true),
            Item(true),
            Item(false),
            Item(true),
            Length(true),
            Item(false),
        ],
    );
    // Of other numbers of fields, those that both have.
    assert_tests("1|2", "1", &[Fields(false), Length(true), Item(true)]);
    assert_tests("1", "2|1", &[Fields(false), Length(true), Item(false)]);
    // Too few items: of the atoms, those that lie on one.
    assert_tests(
        "1:l0:2:3",
        "3",
        &[Fields(true), Length(false), Item(false), Item(true)],
    );
}
