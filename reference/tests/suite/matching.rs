//! What `match` answers for a line.

use reference::answers::matches_answer;

use crate::support::*;

fn assert_matches(line: impl AsRef<[u8]>, answer: &str) {
    assert_line("match", matches_answer, line, answer);
}

fn assert_match(rule: &str, slip: &str, answer: &str) {
    assert_matches(format!("{rule}\t{slip}"), answer);
}

#[test]
fn constants() {
    assert_match("1", "1", "yes 1");
    assert_match("1", "2", "no 1");
    assert_match("007", "7", "yes 1");
    assert_match("7", "0000000007", "yes 1");
    assert_match("70", "7", "no 1");
    assert_match("2147483647", "2147483647", "yes 1");
    assert_match("\"m\"", "\"m\"", "yes 1");
    assert_match("\"m\"", "\"M\"", "no 1");
    assert_match("\"m\"", "\"m \"", "no 1");
    assert_match("\"\"", "\"\"", "yes 1");
    assert_match("\"\"", "empty", "no 0");
    assert_match("\"007\"", "\"7\"", "no 1");
    assert_match(&quoted(15), &quoted(15), "yes 1");
    assert_match(&quoted(15), &quoted(14), "no 1");
}

#[test]
fn minus_amounts() {
    assert_match("-1", "-1", "yes 1");
    assert_match("-1", "1", "no 1");
    assert_match("1", "-1", "no 1");
    assert_match("-007", "-7", "yes 1");
    assert_match("-7", "-0000000007", "yes 1");
    assert_match("-0", "0", "yes 1");
    assert_match("0", "-0000000000", "yes 1");
    assert_match("-2147483648", "-2147483648", "yes 1");
    assert_match("-2147483648", "-2147483647", "no 1");
    assert_match("\"-1\"", "-1", "no 1");
    assert_match("i0", "-7", "yes 1 i0=-7");
    assert_match("i0", "-0", "yes 1 i0=0");
    assert_match("a0", "-2147483648", "yes 1 a0=-2147483648");
    assert_match("s0", "-7", "no 1");
    assert_match("l0", "-007:7", "yes 0 l0=-7:7");
    assert_match("a0:a0", "-1:1", "no 2");
    assert_match("a0:a0", "-1:-01", "yes 2 a0=-1");
    assert_match("a0:a0", "-0:0", "yes 2 a0=0");
    assert_match("i0|i0", "7|-7", "no 2");
    assert_match("-", "1", "refused rule 2 at 1");
    assert_match("1", "--1", "refused slip 2 at 1");
    assert_match("-2147483649", "1", "refused rule 5 at 0");
    assert_match("1", "-1:-2147483649", "refused slip 5 at 3");
}

#[test]
fn strings_are_no_integers() {
    assert_match("1", "\"1\"", "no 1");
    assert_match("\"1\"", "1", "no 1");
    assert_match("i0", "\"1\"", "no 1");
    assert_match("s0", "1", "no 1");
    assert_match("i0", "1", "yes 1 i0=1");
    assert_match("s0", "\"1\"", "yes 1 s0=\"1\"");
    assert_match("a0", "1", "yes 1 a0=1");
    assert_match("a0", "\"1\"", "yes 1 a0=\"1\"");
    assert_match("l0", "1", "yes 0 l0=1");
    assert_match("l0", "\"1\":1", "yes 0 l0=\"1\":1");
}

#[test]
fn empty_is_dropped() {
    assert_match("empty", "empty", "yes 0");
    assert_match("empty", "empty:empty", "yes 0");
    assert_match("empty:1", "1:empty", "yes 1");
    assert_match("empty", "1", "no 0");
    assert_match("1", "empty", "no 0");
    assert_match("a0", "empty", "no 0");
    assert_match("a0:empty", "empty:1", "yes 1 a0=1");
}

#[test]
fn list_variables_take_any_run() {
    assert_match("l0", "empty", "yes 0 l0=empty");
    assert_match("l0:1", "1", "yes 1 l0=empty");
    assert_match("1:l0", "1", "yes 1 l0=empty");
    assert_match("1:l0:2", "1:2", "yes 2 l0=empty");
    assert_match("1:l0:2", "1:3:2", "yes 2 l0=3");
    assert_match("1:l0:2", "1:2:1:2", "yes 2 l0=2:1");
    assert_match("1:l0:1", "1", "no 0");
    assert_match("1:l0:1", "1:1", "yes 2 l0=empty");
    assert_match("l0:2", "2:2:2", "yes 1 l0=2:2");
    assert_match("l0:2", "2:2:3", "no 1");
    assert_match("a0:l0:a1", "1:007:\"m\":4", "yes 2 a0=1 a1=4 l0=7:\"m\"");
    let full = times(64, "1");
    assert_match("l0", &full, &format!("yes 0 l0={full}"));
    let most = times(62, "1");
    assert_match("a0:l0:a0", &full, &format!("yes 2 a0=1 l0={most}"));
    assert_match(&format!("{}:l0", times(15, "1")), &times(14, "1"), "no 0");
}

#[test]
fn variables_that_recur() {
    assert_match("a0:a0", "1:1", "yes 2 a0=1");
    assert_match("a0:a0", "1:2", "no 2");
    assert_match("a0:a0", "7:007", "yes 2 a0=7");
    assert_match("a0:a0", "1:\"1\"", "no 2");
    assert_match("a0|a0", "\"m\"|\"m\"", "yes 2 a0=\"m\"");
    assert_match("a0|a0", "1|\"m\"", "no 2");
    assert_match("i0|i0:l0", "3|3", "yes 2 i0=3 l0=empty");
    assert_match("i0|i0:l0", "3|4", "no 2");
    assert_match("l0:i0|i0:l1|i0", "1:2|2:1|2", "yes 3 i0=2 l0=1 l1=1");
    // The same number under another letter is another variable.
    assert_match("a0:i0", "1:2", "yes 2 i0=2 a0=1");
    assert_match("i1:i10", "1:2", "yes 2 i1=1 i10=2");
}

#[test]
fn variables_in_their_order() {
    assert_match(
        "l15:a2:a10|s3:i4:l0|i0:s0|a0:l7",
        "1:2:3|\"s\":4:5|6:\"t\"|\"u\"",
        "yes 7 i0=6 i4=4 s0=\"t\" s3=\"s\" a0=\"u\" a2=2 a10=3 l0=5 l7=empty l15=1",
    );
}

#[test]
fn fields_match_one_by_one() {
    assert_match("l0", "1|2", "no 0");
    assert_match("l0|l1", "1", "no 0");
    assert_match("l0|l1", "1|2:3", "yes 0 l0=1 l1=2:3");
    assert_match("1|2|3|4", "1|2|3|4", "yes 4");
    assert_match("1|2|3|4", "1|2|4|3", "no 3");
    assert_match("empty|l0", "empty|empty", "yes 0 l0=empty");
    assert_match("a0|a1|a2|a3", "1|2|3|empty", "no 3");
}

#[test]
fn values_are_plain_text() {
    assert_match("l0", "007:empty:\"a b\"", "yes 0 l0=7:\"a b\"");
    assert_match("s0", "\" =a0=\"", "yes 1 s0=\" =a0=\"");
    assert_match("i0", "0000000000", "yes 1 i0=0");
}

/// Matching looks at the left side.
#[test]
fn right_sides_play_no_part() {
    assert_match("1=>2", "1", "yes 1");
    assert_match("1=>2", "2", "no 1");
    assert_match("a0:l0=>l0:l0|a0", "1:2", "yes 1 a0=1 l0=2");
    assert_match("l0=>1", "empty", "yes 0 l0=empty");
    let full = times(64, "1");
    assert_match("l0=>l0:l0", &full, &format!("yes 0 l0={full}"));
    assert_match("\"=>\"=>1", "\"=>\"", "yes 1");
    assert_match("i0=>a0", "1", "refused rule 10 at 4");
    assert_match("1", "1=>2", "refused slip 2 at 1");
}

#[test]
fn refusals_name_the_side() {
    assert_match("i01", "1", "refused rule 2 at 2");
    assert_match("l0|l0", "1", "refused rule 6 at 3");
    assert_match("1|2|3|4|5", "1", "refused rule 3 at 8");
    assert_match(&times(17, "1"), "1", "refused rule 4 at 32");
    assert_match("2147483648", "1", "refused rule 5 at 0");
    assert_match(&"x".repeat(4097), "1", "refused rule 1 at 4096");
    assert_match("1", "i0", "refused slip 7 at 0");
    assert_match("1", "1|2|3|4|5", "refused slip 3 at 8");
    assert_match("1", &times(65, "1"), "refused slip 4 at 128");
    assert_match("1", "1:2147483648", "refused slip 5 at 2");
    assert_match("1", "emp", "refused slip 2 at 3");
    assert_match("1", &"x".repeat(8193), "refused slip 1 at 8192");
    // A refused rule is named whatever the slip is.
    assert_match("i16", "i16", "refused rule 5 at 0");
    assert_match("i16", "1", "refused rule 5 at 0");
    assert_match("i16", "", "refused rule 5 at 0");
}

#[test]
fn the_first_tab_divides() {
    assert_matches("", "refused rule 2 at 0");
    assert_matches("\t", "refused rule 2 at 0");
    assert_matches("\t1", "refused rule 2 at 0");
    assert_matches("1", "refused slip 2 at 0");
    assert_matches("1\t", "refused slip 2 at 0");
    assert_matches("1\t1\t", "refused slip 2 at 1");
    assert_matches("1\t\t1", "refused slip 2 at 0");
    assert_matches("\"\t\"\t1", "refused rule 2 at 1");
    assert_matches("1 \t1", "refused rule 2 at 1");
    assert_matches(b"1\t1\r", "refused slip 2 at 1");
    assert_matches(b"\0\t1", "refused rule 2 at 0");
    assert_matches(b"1\t1:\xff", "refused slip 2 at 2");
}

#[test]
fn long_lines() {
    let line = |rule: usize, slip: usize| ["x".repeat(rule), "y".repeat(slip)].join("\t");
    assert_matches(line(4096, 8192), "refused rule 2 at 0");
    assert_matches(line(4096, 8193), "line too long");
    assert_matches(line(4097, 8192), "line too long");
    assert_matches(line(4097, 8191), "refused rule 1 at 4096");
    assert_matches(line(12_288, 0), "refused rule 1 at 4096");
    assert_matches(line(12_289, 0), "line too long");
    assert_matches("x".repeat(12_289), "refused rule 1 at 4096");
    assert_matches("x".repeat(12_290), "line too long");
    assert_matches([b'\t'; 12_289], "refused rule 2 at 0");
    assert_matches([b'\t'; 12_290], "line too long");
    assert_match("1", &"y".repeat(12_287), "refused slip 1 at 8192");
    assert_match("1", &"y".repeat(12_288), "line too long");
    assert_match("1", &"y".repeat(8192), "refused slip 2 at 0");
}
