//! Books held against what document 02 says of their order: all orders of
//! small books on all small slips. The test for an overlap is held against
//! the overlap list, and the answers against a plain restatement.

use std::collections::{BTreeSet, HashMap};

use reference::answers::book_answer;
use reference::book::{overlapping, pick};
use reference::generate::books::any_book;
use reference::generate::pairs::pair_line;
use reference::matching::match_rule;
use reference::overlaps::{entries, overlap};
use reference::reading::{read_rule, read_slip};
use reference::terms::{Filling, Kind, Rule, Slip, Term};
use reference::writing::plain_slip;

use crate::support::*;
use crate::universe::*;

/// A slip of the first entry, if there is one: each variable has the least
/// value of its type.
fn shared_slip(left: &Rule, right: &Rule) -> Option<Slip> {
    let value = |kind: Kind| match kind {
        Kind::Integer | Kind::Atom => vec![int(0)],
        Kind::String => vec![string("")],
        Kind::List => vec![],
    };
    let entry = entries(left, right).next()?;
    let names = names_of(&entry.fields).into_iter();
    let filling: Filling = names.map(|name| (name, value(name.0))).collect();
    Some(Slip(put_in(&entry.fields, &filling)))
}

/// It can be read, and both rules match it.
fn assert_shared(slip: &Slip, left: &Rule, right: &Rule) {
    assert_eq!(read_slip(&plain_slip(slip)).as_ref(), Ok(slip));
    for rule in [left, right] {
        assert!(match_rule(rule, slip).is_some(), "{rule:?} {slip:?}");
    }
}

/// All orders of the positions from 1 to `count`.
fn all_orders(count: usize) -> Vec<Vec<usize>> {
    let mut orders = vec![vec![]];
    for position in 1..=count {
        let longer = |order: &Vec<usize>| {
            let with = |at: usize| {
                let mut next = order.clone();
                next.insert(at, position);
                next
            };
            (0..=order.len()).map(with).collect::<Vec<_>>()
        };
        orders = orders.iter().flat_map(longer).collect();
    }
    orders
}

/// What the slip gets in any of the orders, by old positions.
fn picked(book: &[Rule], slip: &Slip) -> BTreeSet<Option<usize>> {
    let in_order = |order: &Vec<usize>| {
        let rule = |&position: &usize| book[position - 1].clone();
        let reordered: Vec<Rule> = order.iter().map(rule).collect();
        pick(&reordered, slip).map(|position| order[position - 1])
    };
    all_orders(book.len()).iter().map(in_order).collect()
}

/// Up to four rules; in every other book none overlaps with another.
fn small_book(fields: usize, constants: &[Term], draw: &mut Draw) -> Vec<Rule> {
    let count = draw.pick(&[1, 2, 3, 4, 4]);
    let disjoint = draw.one_in(2);
    let mut book: Vec<Rule> = Vec::new();
    for _ in 0..20 * count {
        let fields = if draw.one_in(6) { 3 - fields } else { fields };
        let rule = small_rule(fields, 2, constants, draw);
        let fits = !disjoint || !book.iter().any(|other| overlap(other, &rule));
        if fits && book.len() < count {
            book.push(rule);
        }
    }
    book
}

/// How many of these books have a pair that overlaps, and how many of more
/// than one rule have none.
fn compare(fields: usize, constants: &[Term], books: usize, seed: u64) -> (usize, usize) {
    let mut draw = Draw::new(seed);
    let runs = all_runs(constants, 3);
    let slips: Vec<Slip> = (1..=fields).flat_map(|it| all_slips(it, &runs)).collect();
    let (mut with, mut without) = (0, 0);
    for _ in 0..books {
        let book = small_book(fields, constants, &mut draw);
        let pairs = overlapping(&book);
        for &(one, other) in &pairs {
            let (left, right) = (&book[one - 1], &book[other - 1]);
            let slip = shared_slip(left, right).unwrap();
            assert_shared(&slip, left, right);
            let picked = picked(&book, &slip);
            assert!(picked.contains(&Some(one)) && picked.contains(&Some(other)));
        }
        if pairs.is_empty() {
            for slip in &slips {
                assert_eq!(picked(&book, slip).len(), 1, "{book:?} {slip:?}");
            }
        }
        with += usize::from(!pairs.is_empty());
        without += usize::from(pairs.is_empty() && book.len() > 1);
    }
    (with, without)
}

#[test]
fn orders_of_books_of_one_field() {
    let constants = [int(0), int(1), string("")];
    let (with, without) = compare(1, &constants, 400, 1);
    assert!(with > 100 && without > 100, "{with} {without}");
}

#[test]
fn orders_of_books_of_two_fields() {
    let (with, without) = compare(2, &[int(0), string("")], 120, 2);
    assert!(with > 30 && without > 30, "{with} {without}");
}

/// Each slip of a small universe that two rules share shows that they overlap.
#[test]
fn rules_that_share_a_slip_overlap() {
    let constants = [int(1), string("1")];
    let slips = all_slips(2, &all_runs(&constants, 3));
    let mut draw = Draw::new(3);
    let mut counts = [0; 2];
    for _ in 0..200 {
        let left = small_rule(2, 2, &constants, &mut draw);
        let right = small_rule(2, 2, &constants, &mut draw);
        let matches = |rule, slip| match_rule(rule, slip).is_some();
        let shared = slips
            .iter()
            .any(|slip| matches(&left, slip) && matches(&right, slip));
        assert!(!shared || overlap(&left, &right), "{left:?} {right:?}");
        counts[usize::from(shared)] += 1;
    }
    assert!(counts.iter().all(|&count| count > 30), "{counts:?}");
}

/// Rules of all sizes: there is an overlap where there is an entry, whichever
/// rule is the left one, and the first entry's slip can be read.
#[test]
fn an_overlap_is_an_entry() {
    let mut draw = Draw::new(4);
    let mut counts = [0; 2];
    for _ in 0..4_000 {
        let line = pair_line(&mut draw);
        let Some((left, right)) = read_pair(&line) else {
            continue;
        };
        if is_widest(&left) && is_widest(&right) {
            continue;
        }
        let shared = shared_slip(&left, &right);
        assert_eq!(overlap(&left, &right), shared.is_some(), "{}", show(&line));
        assert_eq!(overlap(&right, &left), shared.is_some(), "{}", show(&line));
        let turned = entries(&right, &left).next();
        assert_eq!(turned.is_some(), shared.is_some(), "{}", show(&line));
        if let Some(slip) = &shared {
            assert_shared(slip, &left, &right);
        }
        counts[usize::from(shared.is_some())] += 1;
    }
    assert!(counts.iter().all(|&count| count > 500), "{counts:?}");
}

/// The lists of two of these would take most of the time.
fn is_widest(rule: &Rule) -> bool {
    rule.left.iter().all(|field| field.len() > 12) && rule.left.len() == 4
}

/// The whole answer, from all lines at once.
fn expected(input: &[u8]) -> String {
    let read: Vec<_> = lines_of(input).into_iter().map(read_rule).collect();
    for (index, result) in read.iter().enumerate().take(16) {
        if let Err(refusal) = result {
            let (line, number) = (index + 1, refusal.number);
            return format!("refused {line} {number} at {}\n", refusal.place);
        }
    }
    if read.len() > 16 {
        return "refused 17 12 at 0\n".to_string();
    }
    let book: Vec<Rule> = read.into_iter().flatten().collect();
    let mut lines = String::new();
    for one in 1..=book.len() {
        for other in one + 1..=book.len() {
            if entries(&book[one - 1], &book[other - 1]).next().is_some() {
                lines += &format!("{one} {other}\n");
            }
        }
    }
    lines
}

fn answer(book: &[u8]) -> String {
    String::from_utf8(book_answer(book).unwrap()).unwrap()
}

#[test]
fn generated_books_are_answered_as_defined() {
    let mut draw = Draw::new(5);
    for _ in 0..800 {
        let book = any_book(&mut draw);
        assert!(lines_of(&book).len() <= 18);
        let rules = lines_of(&book).into_iter().flat_map(read_rule);
        if rules.filter(is_widest).count() < 2 {
            assert_eq!(answer(&book), expected(&book), "{}", show(&book));
        }
    }
}

/// The kinds of answer: how many pairs of all there are, the refusals by
/// number.
fn answer_kind(book: &[u8]) -> String {
    let (answer, rules) = (answer(book), lines_of(book).len());
    if let Some(refused) = answer.strip_prefix("refused ") {
        let number = refused.split(' ').nth(1).unwrap();
        return format!("refused {number}");
    }
    let all = rules * rules.saturating_sub(1) / 2;
    let kind = match (rules, answer.lines().count()) {
        (0, _) => "no rule",
        (1, _) => "one rule",
        (16, 0) => "no pair of 16",
        (16, count) if count == all => "all pairs of 16",
        (16, _) => "some pairs of 16",
        (_, 0) => "no pair",
        (_, count) if count == all => "all pairs",
        _ => "some pairs",
    };
    kind.to_string()
}

#[test]
fn generated_books_have_every_answer() {
    let expected = [
        "no rule",
        "one rule",
        "no pair",
        "some pairs",
        "all pairs",
        "no pair of 16",
        "some pairs of 16",
        "all pairs of 16",
        "refused 1",
        "refused 2",
        "refused 3",
        "refused 4",
        "refused 5",
        "refused 6",
        "refused 10",
        "refused 12",
    ];
    let mut draw = Draw::new(6);
    let mut counts: HashMap<String, usize> = HashMap::new();
    for _ in 0..2_000 {
        *counts.entry(answer_kind(&any_book(&mut draw))).or_default() += 1;
    }
    for kind in expected {
        assert!(counts.get(kind) >= Some(&5), "{kind}: {counts:?}");
    }
}

/// The last line of a full book and the one behind it are often refused, and
/// that one is of every kind.
#[test]
fn generated_books_end_in_every_way() {
    let mut draw = Draw::new(7);
    let mut seventeenth: HashMap<&str, usize> = HashMap::new();
    let mut sixteenth = 0;
    for _ in 0..3_000 {
        let book = any_book(&mut draw);
        sixteenth += usize::from(answer(&book).starts_with("refused 16 "));
        if answer(&book).starts_with("refused 17 ") {
            let kind = match lines_of(&book)[16] {
                b"" => "empty",
                line if line.len() > 4096 => "too long",
                line if read_rule(line).is_err() => "bad",
                _ => "good",
            };
            *seventeenth.entry(kind).or_default() += 1;
        }
    }
    for kind in ["empty", "too long", "bad", "good"] {
        assert!(seventeenth.get(kind) >= Some(&3), "{kind}: {seventeenth:?}");
    }
    assert!(sixteenth >= 3, "{sixteenth}");
}
