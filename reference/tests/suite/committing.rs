//! Ask and commit, held against the lines that `pairs` prints and a plain
//! restatement of what document 02 says of a commit.

use std::collections::HashMap;

use reference::answers::pairs_answer;
use reference::committing::{ask, commit, list_into, Committed, Counts};
use reference::generate::commits::{old_bytes, other_counts, sizes, PAIRS};
use reference::generate::large::overfull_list;
use reference::generate::pairs::pair_line;
use reference::reading::read_rule;
use reference::terms::Rule;

use crate::support::*;

fn counts(entries: usize, bytes: usize) -> Counts {
    Counts { entries, bytes }
}

/// Two rules and the list that `pairs` prints for them.
#[derive(Debug)]
struct Pair {
    left: Rule,
    right: Rule,
    list: Vec<u8>,
}

impl Pair {
    /// None where a rule is refused, or the list too long for `pairs`.
    fn of_line(line: &[u8]) -> Option<Pair> {
        let (left, right) = read_pair(line)?;
        let answer = pairs_answer(1, line);
        let list = answer.strip_prefix(b"pair 1\n").unwrap().to_vec();
        if list.starts_with(b"too long") {
            return None;
        }
        Some(Pair { left, right, list })
    }

    fn of(left: &str, right: &str) -> Pair {
        Pair::of_line(format!("{left}\t{right}").as_bytes()).unwrap()
    }

    /// No string has a newline.
    fn counts(&self) -> Counts {
        let lines = self.list.iter().filter(|&&byte| byte == b'\n').count();
        counts(lines, self.list.len())
    }

    fn ask(&self) -> Counts {
        ask(&self.left, &self.right)
    }

    /// What a commit tells and leaves.
    fn commit(&self, asked: Counts, size: usize) -> (Committed, Vec<u8>) {
        let mut buffer = old_bytes(size);
        let committed = commit(asked, &self.left, &self.right, &mut buffer);
        (committed, buffer)
    }

    /// The old call on the same buffer.
    fn list(&self, size: usize) -> (Committed, Vec<u8>) {
        let mut buffer = old_bytes(size);
        let listed = list_into(&self.left, &self.right, &mut buffer);
        (listed, buffer)
    }

    /// What a commit is to tell and to leave.
    fn expected(&self, asked: Counts, size: usize) -> ((Option<u8>, Counts), Vec<u8>) {
        let old = old_bytes(size);
        if asked != self.counts() {
            return ((Some(13), counts(0, 0)), old);
        }
        if size < self.list.len() {
            return ((Some(8), asked), old);
        }
        let behind = &old[self.list.len()..];
        ((None, asked), [self.list.as_slice(), behind].concat())
    }

    fn assert_commit(&self, asked: Counts, size: usize) {
        let (committed, buffer) = self.commit(asked, size);
        let found = (committed.told(), buffer);
        assert_eq!(found, self.expected(asked, size), "{asked:?} {self:?}");
    }

    fn sizes(&self) -> [usize; 4] {
        sizes(self.list.len())
    }

    fn other_counts(&self) -> Vec<Counts> {
        other_counts(self.counts())
    }
}

fn documented_pairs() -> impl Iterator<Item = Pair> {
    let pairs = PAIRS.into_iter();
    pairs.map(|(left, right, ..)| Pair::of(left, right))
}

fn generated_pairs() -> impl Iterator<Item = Pair> {
    let mut draw = Draw::new(1);
    let lines = (0..800).map(move |_| pair_line(&mut draw));
    lines.filter_map(|line| Pair::of_line(&line))
}

fn all_pairs() -> impl Iterator<Item = Pair> {
    documented_pairs().chain(generated_pairs())
}

#[test]
fn the_generated_pairs_are_of_every_kind() {
    let mut kinds: HashMap<&str, usize> = HashMap::new();
    for pair in generated_pairs() {
        let entries = match pair.counts().entries {
            0 => "no entry",
            1 => "one entry",
            2..=9 => "several entries",
            _ => "many entries",
        };
        let right_sides = match (&pair.left.right, &pair.right.right) {
            (None, None) => "no right side",
            (Some(_), Some(_)) => "two right sides",
            _ => "one right side",
        };
        *kinds.entry(entries).or_default() += 1;
        *kinds.entry(right_sides).or_default() += 1;
    }
    assert_eq!(kinds.len(), 7, "{kinds:?}");
    assert!(kinds.values().all(|&count| count >= 5), "{kinds:?}");
}

#[test]
fn what_is_told() {
    let some = counts(2, 62);
    assert_eq!(Committed::Lines(some).told(), (None, some));
    assert_eq!(Committed::TooSmall(some).told(), (Some(8), some));
    assert_eq!(Committed::Stale.told(), (Some(13), counts(0, 0)));
}

#[test]
fn the_counts_of_document_01s_pairs() {
    for (left, right, entries, bytes) in PAIRS {
        let asked = Pair::of(left, right).ask();
        assert_eq!(asked, counts(entries, bytes), "{left} {right}");
    }
}

/// "The two counts are those of the definition's list."
#[test]
fn an_ask_counts_the_lines_and_their_bytes() {
    for pair in all_pairs() {
        assert_eq!(pair.ask(), pair.counts(), "{pair:?}");
    }
}

/// One byte more than `pairs` has room for.
#[test]
fn the_room_of_pairs_is_no_limit() {
    let (left, right) = read_pair(&overfull_list()).unwrap();
    let asked = ask(&left, &right);
    assert_eq!(asked.bytes, 65_537);
    let mut buffer = old_bytes(65_537);
    let committed = commit(asked, &left, &right, &mut buffer);
    assert_eq!(committed, Committed::Lines(asked));
    assert!(buffer.is_ascii() && buffer.ends_with(b"\n"));
    let committed = commit(asked, &left, &right, &mut buffer[1..]);
    assert_eq!(committed, Committed::TooSmall(asked));
}

/// "Ask then commit on the same rules leaves the bytes that the old call
/// left", and these are the list, or the old bytes where it has no room.
#[test]
fn ask_then_commit_is_the_old_call() {
    for pair in all_pairs() {
        for size in pair.sizes() {
            let asked = pair.ask();
            assert_eq!(pair.commit(asked, size), pair.list(size), "{pair:?}");
            pair.assert_commit(asked, size);
        }
    }
}

/// A commit compares both counts, and does so whatever the buffer's size.
#[test]
fn other_counts_are_refused_by_13_before_8() {
    let (mut stale, mut equal) = (0, 0);
    for pair in all_pairs() {
        for asked in pair.other_counts() {
            for size in pair.sizes() {
                pair.assert_commit(asked, size);
            }
            stale += usize::from(asked != pair.counts());
            equal += usize::from(asked == pair.counts());
        }
    }
    assert!(stale > 4_000 && equal > 400, "{stale} {equal}");
}

#[test]
fn a_stale_commit_into_no_bytes() {
    let pair = Pair::of("a0:l0", "l0:2");
    let told = |entries, bytes| pair.commit(counts(entries, bytes), 0).0.told();
    assert_eq!(told(2, 62), (Some(8), counts(2, 62)));
    for (entries, bytes) in [(1, 62), (2, 61), (2, 63), (62, 2), (0, 0)] {
        assert_eq!(told(entries, bytes), (Some(13), counts(0, 0)));
    }
}

/// Counts are numbers: a commit doesn't know which rules were asked for.
#[test]
fn equal_counts_of_another_pair_are_accepted() {
    let asked = Pair::of("a0", "1").ask();
    let (committed, buffer) = Pair::of("s0", "\"\"").commit(asked, 10);
    assert_eq!(committed, Committed::Stale);
    assert_eq!(buffer, old_bytes(10));
    let (committed, buffer) = Pair::of("2=>3", "i0").commit(asked, 8);
    assert_eq!(committed, Committed::Lines(asked));
    assert_eq!(buffer, b"2 >i0=2\n");
    let mut accepted = 0;
    for pair in generated_pairs() {
        for (.., entries, bytes) in PAIRS {
            let asked = counts(entries, bytes);
            pair.assert_commit(asked, pair.list.len());
            accepted += usize::from(entries > 0 && asked == pair.counts());
        }
    }
    assert!(accepted >= 10, "{accepted}");
}

/// The other way round a list has the same fields and its bindings exchanged,
/// so the counts are the same and the bytes are not.
#[test]
fn counts_of_the_exchanged_rules_are_accepted() {
    let mut others = 0;
    for pair in all_pairs() {
        let asked = ask(&pair.right, &pair.left);
        let (committed, buffer) = pair.commit(asked, asked.bytes);
        assert_eq!(committed, Committed::Lines(asked), "{pair:?}");
        assert_eq!(buffer, pair.list, "{pair:?}");
        let mut exchanged = old_bytes(asked.bytes);
        list_into(&pair.right, &pair.left, &mut exchanged);
        others += usize::from(exchanged != pair.list);
    }
    assert!(others > 200, "{others}");
}

/// "Overlaps look at left sides only" (document 02).
#[test]
fn right_sides_play_no_part() {
    for pair in all_pairs() {
        let of_left = |rule: &Rule| Rule::of(rule.left.clone());
        let asked = ask(&of_left(&pair.left), &of_left(&pair.right));
        for size in pair.sizes() {
            assert_eq!(pair.commit(asked, size), pair.list(size), "{pair:?}");
        }
    }
}

/// A text that is refused says such a rule.
#[test]
fn rules_with_no_fields() {
    let (none, any) = (Rule::default(), read_rule(b"l0").unwrap());
    for (left, right) in [(&none, &none), (&none, &any), (&any, &none)] {
        let (left, right, list) = (left.clone(), right.clone(), Vec::new());
        let pair = Pair { left, right, list };
        assert_eq!(pair.ask(), counts(0, 0));
        for size in [0, 1, 100] {
            let nothing = (Committed::Lines(counts(0, 0)), old_bytes(size));
            assert_eq!(pair.commit(counts(0, 0), size), nothing);
            for asked in pair.other_counts() {
                pair.assert_commit(asked, size);
            }
        }
    }
}
