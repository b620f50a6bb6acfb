//! The search held against the slips of small universes: its answers make the
//! two fields equal, and every slip that both fields match is an instance of
//! one of them; and the row decides only whether it is refused.

use std::collections::HashMap;
use std::slice::from_ref;

use reference::answers::solve_answer;
use reference::generate::searches::search_line;
use reference::matching::fillings;
use reference::overlaps::entries;
use reference::search::{search, Answer, Found};
use reference::terms::{Field, Kind, Rule, Term};
use reference::writing::answer_line;

use crate::support::*;
use crate::universe::*;

const AMPLE: usize = 640;

fn found(left: &Field, right: &Field) -> Found {
    search(left, right, AMPLE).unwrap()
}

fn at_or_below(lower: Kind, upper: Kind) -> bool {
    lower == upper || (upper == Kind::Atom && lower != Kind::List)
}

fn kind_of(term: &Term) -> Kind {
    match term {
        Term::Int(_) => Kind::Integer,
        Term::Str(_) => Kind::String,
        Term::Var(kind, _) => *kind,
    }
}

/// The field that the answer makes of both, once it is seen to be one, and
/// its values to be of their types.
fn common_field(left: &Field, right: &Field, answer: &Answer) -> Field {
    for (filling, field) in [(&answer.left, left), (&answer.right, right)] {
        let names: Vec<_> = filling.keys().copied().collect();
        assert_eq!(names, names_of(from_ref(field)));
        for ((kind, _), value) in filling {
            let typed = match value.as_slice() {
                [atom] => *kind == Kind::List || at_or_below(kind_of(atom), *kind),
                _ => *kind == Kind::List,
            };
            assert!(typed, "{left:?} {right:?} {answer:?}");
        }
    }
    let field = put_in(from_ref(left), &answer.left);
    assert_eq!(field, put_in(from_ref(right), &answer.right));
    field.into_iter().next().unwrap()
}

/// By first occurrence in the values the numbers of each type are 0, 1, 2 and
/// so on.
fn check_numbers(answer: &Answer) {
    let mut next: HashMap<Kind, u32> = HashMap::new();
    for term in answer.left.values().chain(answer.right.values()).flatten() {
        if let Term::Var(kind, number) = term {
            let next = next.entry(*kind).or_default();
            assert!(*number <= *next, "{answer:?}");
            *next = (*next).max(number + 1);
        }
    }
}

fn fits(pattern: &Field, items: &Field) -> bool {
    !fillings(from_ref(pattern), from_ref(items)).is_empty()
}

/// Fields of up to so many atoms, and all runs of up to so many constants.
fn compare(atoms: usize, longest: usize, constants: &[Term], pairs: usize, seed: u64) {
    let mut draw = Draw::new(seed);
    let runs = all_runs(constants, longest);
    let (mut solved, mut shared) = (0, 0);
    for _ in 0..pairs {
        let mut field = || small_rule(1, atoms, constants, &mut draw).left.remove(0);
        let (left, right) = (field(), field());
        let found = found(&left, &right);
        found.answers.iter().for_each(check_numbers);
        let common = |answer| common_field(&left, &right, answer);
        let commons: Vec<Field> = found.answers.iter().map(common).collect();
        let (left, right) = (Rule::of(vec![left]), Rule::of(vec![right]));
        let overlaps: Vec<Field> = entries(&left, &right)
            .map(|mut entry| entry.fields.remove(0))
            .collect();
        assert_eq!(commons.is_empty(), overlaps.is_empty());
        for run in &runs {
            let instance = commons.iter().any(|common| fits(common, run));
            let entry = overlaps.iter().any(|overlap| fits(overlap, run));
            assert_eq!(instance, entry, "{left:?} {right:?} {run:?}");
            shared += usize::from(instance);
        }
        solved += usize::from(!commons.is_empty());
    }
    assert!(solved > pairs / 3 && shared > pairs, "{solved} {shared}");
}

#[test]
fn few_atoms_and_three_constants() {
    compare(2, 5, &[int(1), int(-1), string("1")], 400, 1);
}

#[test]
fn more_atoms_and_two_constants() {
    compare(4, 8, &[int(1), string("")], 250, 2);
}

/// As many as wait at most are enough, and one less is not.
#[test]
fn the_row_decides_only_the_refusal() {
    let mut draw = Draw::new(3);
    for _ in 0..300 {
        let constants = [int(1), string("m")];
        let mut field = || small_rule(1, 4, &constants, &mut draw).left.remove(0);
        let (left, right) = (field(), field());
        let found = found(&left, &right);
        for row in 0..found.most_waiting + 3 {
            let refused = row < found.most_waiting;
            let again = search(&left, &right, row);
            assert_eq!(again.is_none(), refused, "{left:?} {right:?} {row}");
            assert!(again.is_none() || again.as_ref() == Some(&found));
        }
    }
}

/// The terms with a list variable put in at a place.
fn with_list(at: usize, terms: Vec<Term>) -> Field {
    let mut field = terms;
    field.insert(at, var(b'l', 0));
    field
}

/// Fields of sixteen terms whose searches take much: how many records, lines
/// and bytes. The row of 640 and the room of 131,072 are enough for them.
#[test]
fn wide_fields() {
    let long = || string("fifteen bytes..");
    let strings = (0..15).map(|n| var(b's', n)).collect();
    let mixed = |n: u32| {
        if n.is_multiple_of(2) {
            var(b'a', n)
        } else {
            long()
        }
    };
    let atoms = (10..16).map(|n| var(b'a', n));
    let named = atoms.chain([var(b's', 10)]).chain(vec![long(); 8]);
    let named = named.collect();
    let pairs = [
        (
            with_list(0, vec![long(); 15]),
            with_list(8, vec![long(); 15]),
        ),
        (
            with_list(0, strings),
            with_list(9, (0..15).map(mixed).collect()),
        ),
        (with_list(0, named), with_list(10, vec![long(); 15])),
    ];
    let taken = pairs.map(|(left, right)| {
        let found = found(&left, &right);
        for answer in &found.answers {
            common_field(&left, &right, answer);
        }
        let sizes = found.answers.iter().map(|a| answer_line(a).len());
        (
            found.most_waiting,
            found.answers.len(),
            sizes.sum::<usize>(),
        )
    });
    assert_eq!(
        taken,
        [(323, 280, 48_512), (412, 39, 12_266), (308, 258, 72_906)]
    );
}

/// The kinds of answer: the refusals, how many lines, what is said in their
/// place.
fn answer_kind(line: &[u8]) -> String {
    let answer = String::from_utf8(solve_answer(1, line)).unwrap();
    let text = answer.strip_prefix("search 1\n").unwrap();
    let words: Vec<&str> = text.split_whitespace().collect();
    match words[..4.min(words.len())] {
        ["refusal", "0", "lines", "0"] => "no line".to_string(),
        ["refusal", "0", "lines", "1"] => "one line".to_string(),
        ["refusal", "0", "lines", count] if count.len() == 1 => "several lines".to_string(),
        ["refusal", "0", ..] => "many lines".to_string(),
        ["refusal", number, ..] => number.to_string(),
        _ => words.join(" "),
    }
}

#[test]
fn generated_lines_have_every_answer() {
    let expected = [
        "no line",
        "one line",
        "several lines",
        "many lines",
        "8",
        "9",
        "bad row",
        "bad room",
        "bad line",
        "line too long",
    ];
    let mut draw = Draw::new(0);
    assert_every_kind(&expected, 20, 3_000, || search_line(&mut draw), answer_kind);
}
