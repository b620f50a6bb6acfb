//! The count held against matching by trial: a rule is loosened until only
//! its first tests are left, and the first one that fails is the one with
//! which it stops matching.

use reference::answers::matches_answer;
use reference::comparing::{all_tests, compared, Test};
use reference::generate::matches::match_line;
use reference::matching::{fillings, match_rule};
use reference::terms::{Field, Kind, Rule, Side, Slip, Term};

use crate::support::*;
use crate::universe::*;

fn is_atom(term: &&Term) -> bool {
    !term.is_list()
}

fn atoms_of(field: &Field) -> usize {
    field.iter().filter(is_atom).count()
}

/// The left side with the tests up to some atoms of this field: the other
/// atoms of the field may be any items, the later fields anything.
fn loosened(left: &[Field], at: usize, atoms: usize) -> Side {
    // No rule's own variables have these numbers.
    let mut fresh = 100..;
    let mut any = |kind| Term::Var(kind, fresh.next().unwrap());
    let mut loose = left.to_vec();
    let others = loose[at].iter_mut().filter(|term| is_atom(&&**term));
    others.skip(atoms).for_each(|term| *term = any(Kind::Atom));
    for field in &mut loose[at + 1..] {
        *field = vec![any(Kind::List)];
    }
    loose
}

fn count_by_trial(left: &[Field], slip: &[Field]) -> usize {
    let mut count = 0;
    for (at, field) in left.iter().enumerate() {
        let fails = |&atoms: &usize| fillings(&loosened(left, at, atoms), slip).is_empty();
        if let Some(atoms) = (0..=atoms_of(field)).find(fails) {
            return count + atoms;
        }
        count += atoms_of(field);
    }
    count
}

/// Returns whether the rule matches.
fn assert_compared(rule: &Rule, slip: &Slip) -> bool {
    let found = match_rule(rule, slip).is_some();
    let passes = all_tests(rule, slip).into_iter().all(Test::passes);
    assert_eq!(passes, found, "{rule:?} {slip:?}");
    let count = count_by_trial(&rule.left, &slip.0);
    assert_eq!(compared(rule, slip), count, "{rule:?} {slip:?}");
    found
}

fn compare(fields: usize, constants: &[Term], longest: usize, rules: usize, seed: u64) {
    let mut draw = Draw::new(seed);
    let runs = all_runs(constants, longest);
    let slips = all_slips(fields, &runs);
    let mut matched = 0;
    for _ in 0..rules {
        let rule = small_rule(fields, 3, constants, &mut draw);
        let found = slips.iter().filter(|slip| assert_compared(&rule, slip));
        matched += found.count();
    }
    assert!(matched > rules);
}

#[test]
fn one_field() {
    compare(1, &[int(1), int(-1), string("1")], 4, 200, 1);
}

#[test]
fn two_fields() {
    compare(2, &[int(1), string("m")], 3, 100, 2);
}

#[test]
fn three_fields() {
    compare(3, &[int(0), string("")], 2, 40, 3);
}

/// The answer to a rule and a slip: whether it is yes, and its count.
fn answered(line: &[u8]) -> (bool, usize) {
    let answer = String::from_utf8(matches_answer(1, line)).unwrap();
    let words: Vec<&str> = answer.split_ascii_whitespace().collect();
    assert!(["yes", "no"].contains(&words[2]), "{}", show(line));
    (words[2] == "yes", words[3].parse().unwrap())
}

#[test]
fn generated_lines_are_compared_as_far_as_they_fit() {
    let mut draw = Draw::new(4);
    let mut counts = [0; 3];
    for _ in 0..6_000 {
        let line = match_line(&mut draw);
        let Some((rule, slip)) = read_both(&line) else {
            continue;
        };
        let (yes, count) = answered(&line);
        let atoms: usize = rule.left.iter().map(atoms_of).sum();
        if yes {
            assert_eq!(count, atoms, "{}", show(&line));
            counts[0] += 1;
        } else if rule.left.len() == slip.0.len() {
            assert!(count <= atoms, "{}", show(&line));
            counts[1] += 1;
        } else {
            assert_eq!(count, 0, "{}", show(&line));
            counts[2] += 1;
        }
        assert_eq!(assert_compared(&rule, &slip), yes);
    }
    assert!(counts.iter().all(|&count| count > 200), "{counts:?}");
}

/// Which test fails first: the number of fields, or of a field, counted from
/// 1, its length or a constant, a variable's type or its earlier value.
fn failure(line: &[u8]) -> String {
    let Some((rule, slip)) = read_both(line) else {
        return "refused".to_string();
    };
    let tests = all_tests(&rule, &slip);
    let Some(at) = tests.iter().position(|test| !test.passes()) else {
        return "yes".to_string();
    };
    let of_length = |test: &&Test| matches!(test, Test::Length(_));
    let field = tests[..=at].iter().filter(of_length).count();
    let what = match tests[at] {
        Test::Fields(_) => "fields",
        Test::Length(_) => "length",
        Test::Item(_) => failed_atom(&rule, compared(&rule, &slip)),
    };
    format!("{what} {field}")
}

/// What fails where the atom of this number, from 1, is the last one compared.
fn failed_atom(rule: &Rule, number: usize) -> &'static str {
    let atoms: Vec<&Term> = rule.left.iter().flatten().filter(is_atom).collect();
    let (earlier, atom) = (&atoms[..number - 1], atoms[number - 1]);
    match atom {
        Term::Var(..) if earlier.contains(&atom) => "value",
        Term::Var(..) => "type",
        _ => "constant",
    }
}

#[test]
fn generated_lines_fail_at_every_test() {
    let mut expected = vec!["fields 0".to_string()];
    for what in ["length", "constant", "type", "value"] {
        expected.extend((1..=4).map(|field| format!("{what} {field}")));
    }
    let expected: Vec<&str> = expected.iter().map(String::as_str).collect();
    let mut draw = Draw::new(5);
    assert_every_kind(&expected, 50, 20_000, || match_line(&mut draw), failure);
}

#[test]
fn generated_lines_fail_at_every_count() {
    let mut draw = Draw::new(6);
    let mut counts = [0; 65];
    for _ in 0..20_000 {
        let line = match_line(&mut draw);
        if read_both(&line).is_some() {
            let (yes, count) = answered(&line);
            counts[count] += usize::from(!yes);
        }
    }
    assert!(counts[..=10].iter().all(|&count| count >= 50), "{counts:?}");
    assert!(counts[11..].iter().sum::<usize>() >= 100, "{counts:?}");
}
