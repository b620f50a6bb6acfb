//! Carrying out held against its definition: all fillings over few constants
//! are put into both sides, and every slip of few items is carried out.

use std::collections::HashMap;

use reference::answers::carry_answer;
use reference::carrying::{carry_out, Carried};
use reference::generate::carries::carry_line;
use reference::matching::{fillings, match_rule};
use reference::reading::{read_rule, read_slip};
use reference::terms::{Field, Filling, Kind, Rule, Side, Slip, Term};
use reference::writing::{plain_rule, plain_slip};

use crate::support::*;
use crate::universe::*;

/// A right side over the variables of the left one, list variables as often
/// as they come.
fn small_right(left: &Side, constants: &[Term], draw: &mut Draw) -> Side {
    let names = names_of(left);
    let term = |draw: &mut Draw| {
        if names.is_empty() || draw.one_in(4) {
            return constants[draw.below(constants.len())].clone();
        }
        let (kind, number) = draw.pick(&names);
        Term::Var(kind, number)
    };
    let field = |draw: &mut Draw| (0..draw.below(5)).map(|_| term(draw)).collect();
    (0..=draw.below(4)).map(|_| field(draw)).collect()
}

/// Every slip of the universe that some filling makes of the left side is
/// carried to what that filling makes of the right side, whichever filling it
/// is; every other slip gives a no.
fn compare(fields: usize, constants: &[Term], longest: usize, rules: usize, seed: u64) {
    let mut draw = Draw::new(seed);
    let runs = all_runs(constants, longest);
    let slips = all_slips(fields, &runs);
    let mut carried = 0;
    for _ in 0..rules {
        let Rule { left, .. } = small_rule(fields, 3, constants, &mut draw);
        let right = small_right(&left, constants, &mut draw);
        let mut results: HashMap<Vec<Field>, Vec<Field>> = HashMap::new();
        for filling in all_fillings(&names_of(&left), &runs) {
            let result = put_in(&right, &filling);
            let earlier = results.insert(put_in(&left, &filling), result.clone());
            assert!(earlier.is_none_or(|earlier| earlier == result));
        }
        let rule = Rule {
            left,
            right: Some(right),
        };
        assert_eq!(read_rule(&plain_rule(&rule)).as_ref(), Ok(&rule));
        let without = Rule::of(rule.left.clone());
        for slip in &slips {
            let expected = match results.get(&slip.0) {
                Some(result) => Carried::Yes(Slip(result.clone())),
                None => Carried::No,
            };
            assert_eq!(carry_out(&rule, slip), expected, "{rule:?} {slip:?}");
            assert_eq!(carry_out(&without, slip), Carried::No);
            carried += usize::from(expected != Carried::No);
        }
    }
    assert!(carried > rules);
}

#[test]
fn one_field() {
    compare(1, &[int(1), int(-1), string("1")], 4, 300, 1);
}

#[test]
fn two_fields() {
    compare(2, &[int(1), string("m")], 3, 150, 2);
}

#[test]
fn three_fields() {
    compare(3, &[int(0), string("")], 2, 60, 3);
}

/// The longest field of a result, by adding up what its terms stand for.
fn longest_field(right: &Side, filling: &Filling) -> usize {
    let length = |term: &Term| match *term {
        Term::Var(Kind::List, number) => filling[&(Kind::List, number)].len(),
        _ => 1,
    };
    let lengths = right.iter().map(|field| field.iter().map(length).sum());
    lengths.max().unwrap_or_default()
}

/// Rules and slips of all sizes: the answer is the one that every filling of
/// the left side gives, and a result is a slip that can be read.
#[test]
fn generated_lines_are_carried_out_as_defined() {
    let mut draw = Draw::new(4);
    let mut counts = [0; 3];
    for _ in 0..8_000 {
        let line = carry_line(&mut draw);
        let Some((rule, slip)) = read_both(&line) else {
            continue;
        };
        let found = carry_out(&rule, &slip);
        let all = fillings(&rule.left, &slip.0);
        assert!(all.len() <= 1, "{}", show(&line));
        let (Some(right), Some(filling)) = (&rule.right, all.first()) else {
            assert_eq!(found, Carried::No, "{}", show(&line));
            counts[0] += 1;
            continue;
        };
        assert_eq!(put_in(&rule.left, filling), slip.0, "{}", show(&line));
        if longest_field(right, filling) > 64 {
            assert_eq!(found, Carried::TooLong, "{}", show(&line));
            counts[2] += 1;
            continue;
        }
        let result = Slip(put_in(right, filling));
        assert_eq!(read_slip(&plain_slip(&result)).as_ref(), Ok(&result));
        assert_eq!(found, Carried::Yes(result), "{}", show(&line));
        counts[1] += 1;
    }
    assert!(counts.iter().all(|&count| count > 500), "{counts:?}");
}

/// What stands on the right changes no other answer: the rule matches the
/// same slips with the same fillings.
#[test]
fn a_right_side_does_not_touch_matching() {
    let mut draw = Draw::new(5);
    for _ in 0..2_000 {
        let line = carry_line(&mut draw);
        let Some((rule, slip)) = read_both(&line) else {
            continue;
        };
        let without = Rule::of(rule.left.clone());
        assert_eq!(match_rule(&rule, &slip), match_rule(&without, &slip));
    }
}

/// The kinds of answer: yes, no, refusal, the refusals by side and number,
/// too long.
fn answer_kind(line: &[u8]) -> String {
    let answer = String::from_utf8(carry_answer(1, line)).unwrap();
    let text = answer.strip_prefix("carry 1\n").unwrap();
    let words: Vec<&str> = text.trim_end().split(' ').collect();
    match words[0] {
        "refused" => words[1..3].join(" "),
        other => other.to_string(),
    }
}

#[test]
fn generated_lines_have_every_answer() {
    let expected = [
        "yes", "no", "refusal", "line", "rule 1", "rule 2", "rule 3", "rule 4", "rule 5", "rule 6",
        "rule 10", "slip 1", "slip 2", "slip 3", "slip 4", "slip 5", "slip 7",
    ];
    for seed in [0, 1] {
        let mut draw = Draw::new(seed);
        let counts =
            assert_every_kind(&expected, 50, 20_000, || carry_line(&mut draw), answer_kind);
        assert!((7_000..11_000).contains(&counts["yes"]), "{counts:?}");
        assert!(counts["refusal"] > 1_000, "{counts:?}");
    }
}

/// How long the longest field of a result is, where there is one.
fn result_length(line: &[u8]) -> Option<usize> {
    let (rule, slip) = read_both(line)?;
    let filling = fillings(&rule.left, &slip.0).pop()?;
    Some(longest_field(rule.right.as_ref()?, &filling))
}

#[test]
fn generated_results_are_often_at_the_limit() {
    let mut draw = Draw::new(6);
    let lengths: Vec<usize> = (0..10_000)
        .filter_map(|_| result_length(&carry_line(&mut draw)))
        .collect();
    for length in 62..=66 {
        let count = lengths.iter().filter(|&&it| it == length).count();
        assert!(count >= 100, "{length}: {count}");
    }
}
