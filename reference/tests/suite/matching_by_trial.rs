//! Matching held against its definition: "some filling of its variables, each
//! by its type, makes the two equal". All fillings over few constants are
//! put in, and every slip of few items is matched.

use std::collections::HashMap;

use reference::answers::matches_answer;
use reference::generate::matches::match_line;
use reference::matching::{fillings, match_rule};
use reference::terms::{Field, Filling, Term};

use crate::support::*;
use crate::universe::*;

fn compare(fields: usize, constants: &[Term], longest: usize, rules: usize, seed: u64) {
    let mut draw = Draw::new(seed);
    let runs = all_runs(constants, longest);
    let slips = all_slips(fields, &runs);
    let mut matched = 0;
    for _ in 0..rules {
        let rule = small_rule(fields, 3, constants, &mut draw);
        let names = names_of(&rule.left);
        let mut expected: HashMap<Vec<Field>, Filling> = HashMap::new();
        for filling in all_fillings(&names, &runs) {
            let slip = put_in(&rule.left, &filling);
            let earlier = expected.insert(slip, filling);
            assert_eq!(earlier, None, "two fillings of {rule:?}");
        }
        for slip in &slips {
            let found = match_rule(&rule, slip);
            assert_eq!(found.as_ref(), expected.get(&slip.0), "{rule:?} {slip:?}");
            matched += usize::from(found.is_some());
        }
    }
    assert!(matched > rules);
}

#[test]
fn one_field() {
    compare(1, &[int(1), int(-1), string("1")], 5, 300, 1);
}

#[test]
fn two_fields() {
    compare(2, &[int(1), string("m")], 3, 150, 2);
}

/// Slips of all lengths that a reading allows: what is found gives the slip
/// back, and nothing else is found.
#[test]
fn generated_lines_have_one_filling() {
    let mut draw = Draw::new(3);
    let mut found = 0;
    for _ in 0..5_000 {
        let line = match_line(&mut draw);
        let Some((rule, slip)) = read_both(&line) else {
            continue;
        };
        let all = fillings(&rule.left, &slip.0);
        assert!(all.len() <= 1, "{}", show(&line));
        for filling in all {
            assert_eq!(put_in(&rule.left, &filling), slip.0, "{}", show(&line));
            assert_eq!(
                filling.keys().copied().collect::<Vec<_>>(),
                names_of(&rule.left)
            );
            found += 1;
        }
    }
    assert!(found > 1_000);
}

/// The kinds of answer: yes, no, the refusals by side and number, too long.
fn answer_kind(line: &[u8]) -> String {
    let answer = String::from_utf8(matches_answer(1, line)).unwrap();
    let text = answer.strip_prefix("match 1\n").unwrap();
    let words: Vec<&str> = text.trim_end().split(' ').collect();
    match words[0] {
        "refused" => words[1..3].join(" "),
        other => other.to_string(),
    }
}

#[test]
fn generated_lines_have_every_answer() {
    let expected = [
        "yes", "no", "line", "rule 1", "rule 2", "rule 3", "rule 4", "rule 5", "rule 6", "rule 10",
        "slip 1", "slip 2", "slip 3", "slip 4", "slip 5", "slip 7",
    ];
    for seed in [0, 1] {
        let mut draw = Draw::new(seed);
        let counts =
            assert_every_kind(&expected, 50, 20_000, || match_line(&mut draw), answer_kind);
        assert!((8_000..12_000).contains(&counts["yes"]), "{counts:?}");
    }
}
