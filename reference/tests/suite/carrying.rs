//! What `carry` answers for a line.

use reference::answers::carry_answer;

use crate::support::*;

fn assert_carry(line: impl AsRef<[u8]>, answer: &str) {
    assert_line("carry", carry_answer, line, answer);
}

fn assert_carried(rule: &str, slip: &str, answer: &str) {
    assert_carry(format!("{rule}\t{slip}"), answer);
}

#[test]
fn the_right_side_with_the_filling_put_in() {
    assert_carried("1=>2", "1", "yes 2");
    assert_carried("l0=>l0:9|empty", "empty", "yes 9|empty");
    assert_carried("a0:l0=>l0:a0", "1:2:3", "yes 2:3:1");
    assert_carried("a0:l0=>l0:l0|l0", "1:2:3", "yes 2:3:2:3|2:3");
    assert_carried("a0:l0=>1", "1:2:3", "yes 1");
    assert_carried("i0|s0=>s0:i0", "7|\"m\"", "yes \"m\":7");
    assert_carried("i0:i0=>i0", "7:007", "yes 7");
    assert_carried("l0|l1=>l1:l0|l0:l1", "1:2|3", "yes 3:1:2|1:2:3");
    assert_carried("l0=>l0|l0|l0|l0", "1", "yes 1|1|1|1");
    assert_carried("1|2|3|4=>5", "1|2|3|4", "yes 5");
    assert_carried("l0=>l0", "empty", "yes empty");
    // The same number under another letter is another variable.
    assert_carried("a0:i0=>i0:a0", "1:2", "yes 2:1");
}

#[test]
fn results_are_plain_text() {
    assert_carried("l0=>l0:007:empty", "08:empty:\" =>\"", "yes 8:\" =>\":7");
    assert_carried("empty:1=>empty:empty", "1", "yes empty");
    assert_carried("\"=>\"=>\"=>\":1", "\"=>\"", "yes \"=>\":1");
}

#[test]
fn minus_amounts() {
    assert_carried("1=>-1", "1", "yes -1");
    assert_carried("-1=>1", "-01", "yes 1");
    assert_carried("-1=>2", "1", "no 1");
    assert_carried("1=>2", "-1", "no -1");
    assert_carried("0=>-0:-007", "-0", "yes 0:-7");
    assert_carried("i0:l0=>l0:i0|-2", "-3:-0:3", "yes 0:3:-3|-2");
    assert_carried("a0:a0=>a0", "-1:1", "no -1:1");
    assert_carried("a0:a0=>a0", "-0:0", "yes 0");
    assert_carried("-1=>-2147483648", "-1", "yes -2147483648");
    assert_carried("-1=>-2147483649", "-1", "refused rule 5 at 4");
    assert_carried("-1=>-", "-1", "refused rule 2 at 5");
    assert_carried("-1=>2", "-1:-", "refused slip 2 at 4");
    let (slip, longer) = (times(64, "-1"), times(64, "-01"));
    assert_carried("l0=>l0", &longer, &format!("yes {slip}"));
    assert_carried("l0=>l0:-1", &longer, &format!("refusal 11 {slip}"));
}

#[test]
fn a_slip_that_does_not_match_is_unchanged() {
    assert_carried("1=>2", "2", "no 2");
    assert_carried("1=>2", "1|1", "no 1|1");
    assert_carried("i0=>1", "\"m\"", "no \"m\"");
    assert_carried("a0:a0=>a0", "1:\"1\"", "no 1:\"1\"");
    assert_carried("a0:a0=>a0", "1:2", "no 1:2");
    assert_carried("l0|l1=>1", "1", "no 1");
    // It is written as it was read.
    assert_carried("1=>2", "007:empty|empty:empty", "no 7|empty");
}

#[test]
fn without_a_right_side_nothing_is_done() {
    assert_carried("1", "1", "no 1");
    assert_carried("l0", "01:\"m\"", "no 1:\"m\"");
    assert_carried("\"=>\"", "\"=>\"", "no \"=>\"");
    assert_carried("1", "2", "no 2");
}

#[test]
fn results_of_64_terms_and_more() {
    let ones = |count: usize| times(count, "1");
    assert_carried("l0=>l0", &ones(64), &format!("yes {}", ones(64)));
    assert_carried("l0=>l0:1", &ones(63), &format!("yes {}", ones(64)));
    assert_carried("l0=>l0:1", &ones(64), &format!("refusal 11 {}", ones(64)));
    assert_carried("l0=>l0:l0", &ones(32), &format!("yes {}", ones(64)));
    assert_carried("l0=>l0:l0", &ones(33), &format!("refusal 11 {}", ones(33)));
    assert_carried("l0=>1:l0:empty", &ones(63), &format!("yes {}", ones(64)));
    let sixteen = times(16, "l0");
    assert_carried(
        &format!("l0=>{sixteen}"),
        &ones(4),
        &format!("yes {}", ones(64)),
    );
    assert_carried(&format!("l0=>{sixteen}"), &ones(5), "refusal 11 1:1:1:1:1");
    // Any field of the result counts, and each by itself.
    let full = ones(64);
    assert_carried(
        "l0=>l0|l0|l0|l0",
        &full,
        &format!("yes {full}|{full}|{full}|{full}"),
    );
    assert_carried(
        "l0=>1|2|3|l0:l0",
        &ones(33),
        &format!("refusal 11 {}", ones(33)),
    );
    assert_carried(
        "l0=>l0:l0|1",
        &ones(33),
        &format!("refusal 11 {}", ones(33)),
    );
    // The slip comes back in plain text.
    let slip = times(64, "01");
    assert_carried("l0=>l0:1", &slip, &format!("refusal 11 {full}"));
    // Without a match there is no result.
    assert_carried("l0:2=>l0:l0:l0", &full, &format!("no {full}"));
}

#[test]
fn the_longest_result() {
    let field = times(64, &quoted(15));
    let line = format!("l0=>l0|l0|l0|l0\t{field}");
    let answer = carry_answer(1, line.as_bytes());
    assert_eq!(answer.len(), "carry 1\nyes \n".len() + 4607);
}

#[test]
fn refusals_name_the_side() {
    assert_carried("i01=>1", "1", "refused rule 2 at 2");
    assert_carried("1=>", "1", "refused rule 2 at 3");
    assert_carried("1=>1|2|3|4|5", "1", "refused rule 3 at 11");
    assert_carried(
        &format!("1=>{}", times(17, "1")),
        "1",
        "refused rule 4 at 35",
    );
    assert_carried("1=>2147483648", "1", "refused rule 5 at 3");
    assert_carried("l0|l0=>l0", "1", "refused rule 6 at 3");
    assert_carried("i0=>a0", "1", "refused rule 10 at 4");
    assert_carried(&"x".repeat(4097), "1", "refused rule 1 at 4096");
    assert_carried("1=>2", "i0", "refused slip 7 at 0");
    assert_carried("1=>2", "1=>2", "refused slip 2 at 1");
    assert_carried("1=>2", "1|2|3|4|5", "refused slip 3 at 8");
    assert_carried("1=>2", &times(65, "1"), "refused slip 4 at 128");
    assert_carried("1=>2", "1:2147483648", "refused slip 5 at 2");
    assert_carried("1=>2", &"x".repeat(8193), "refused slip 1 at 8192");
    assert_carried("1", "1:", "refused slip 2 at 2");
    // A refused rule is named whatever the slip is.
    assert_carried("1=>i0", "i0", "refused rule 10 at 3");
    assert_carried("1=>i0", "", "refused rule 10 at 3");
}

#[test]
fn the_first_tab_divides() {
    assert_carry("", "refused rule 2 at 0");
    assert_carry("\t", "refused rule 2 at 0");
    assert_carry("\t1", "refused rule 2 at 0");
    assert_carry("1=>2", "refused slip 2 at 0");
    assert_carry("1=>2\t", "refused slip 2 at 0");
    assert_carry("1=>2\t1\t", "refused slip 2 at 1");
    assert_carry("1=>2\t\t1", "refused slip 2 at 0");
    assert_carry("1\t=>2", "refused slip 2 at 0");
    assert_carry("1=\t>2", "refused rule 2 at 2");
    assert_carry("1=>2 \t1", "refused rule 2 at 4");
    assert_carry(b"1=>2\t1\r", "refused slip 2 at 1");
    assert_carry(b"1=>2\t1:\xff", "refused slip 2 at 2");
}

#[test]
fn long_lines() {
    let line = |rule: usize, slip: usize| ["x".repeat(rule), "y".repeat(slip)].join("\t");
    assert_carry(line(4096, 8192), "refused rule 2 at 0");
    assert_carry(line(4096, 8193), "line too long");
    assert_carry(line(4097, 8192), "line too long");
    assert_carry(line(4097, 8191), "refused rule 1 at 4096");
    assert_carry("x".repeat(12_289), "refused rule 1 at 4096");
    assert_carry("x".repeat(12_290), "line too long");
    assert_carry([b'\t'; 12_290], "line too long");
    assert_carried("1=>2", &"y".repeat(12_284), "refused slip 1 at 8192");
    assert_carried("1=>2", &"y".repeat(12_285), "line too long");
}
