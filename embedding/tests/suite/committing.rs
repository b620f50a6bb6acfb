//! "Ask first, print after" (document 02): an ask held against the listing and
//! the second program, and commits with the right counts and with others.

use reference::committing::{self, Committed, Counts};
use reference::draw::Draw;
use reference::generate::commits::{old_bytes, other_counts, sizes, PAIRS};
use reference::generate::pairs::pair_line;
use reference::reading::read_rule;
use reference::terms::Rule;
use yopobrush::{ask_overlaps, commit_overlaps, list_overlaps, overlaps, Error, Listing, Refusal};

use crate::comparison::divided;

const GENERATED: usize = 600;

/// Longer lists are only asked for.
const LONGEST: usize = 65_536;

fn listing(entries: usize, bytes: usize) -> Listing {
    Listing { entries, bytes }
}

fn theirs(Listing { entries, bytes }: Listing) -> Counts {
    Counts { entries, bytes }
}

fn ours(Counts { entries, bytes }: Counts) -> Listing {
    Listing { entries, bytes }
}

/// Two rules, as texts and as the second program reads them.
#[derive(Debug)]
struct Pair {
    texts: (Vec<u8>, Vec<u8>),
    rules: (Rule, Rule),
}

/// What a call answers, and the lent bytes behind it.
type Answered = (Result<Listing, Error>, Vec<u8>);

impl Pair {
    /// None where a text is refused.
    fn of(left: &[u8], right: &[u8]) -> Option<Pair> {
        let rules = (read_rule(left).ok()?, read_rule(right).ok()?);
        let texts = (left.to_vec(), right.to_vec());
        Some(Pair { texts, rules })
    }

    fn ask(&self) -> Listing {
        ask_overlaps(&self.texts.0, &self.texts.1).unwrap()
    }

    fn commit(&self, asked: Listing, room: usize) -> Answered {
        let mut out = old_bytes(room);
        let answer = commit_overlaps(asked, &self.texts.0, &self.texts.1, &mut out);
        (answer, out)
    }

    fn list(&self, room: usize) -> Answered {
        let mut out = old_bytes(room);
        let answer = list_overlaps(&self.texts.0, &self.texts.1, &mut out);
        (answer, out)
    }

    /// The second program's commit.
    fn expected(&self, asked: Listing, room: usize) -> Answered {
        let mut out = old_bytes(room);
        let (left, right) = &self.rules;
        let answer = match committing::commit(theirs(asked), left, right, &mut out) {
            Committed::Lines(counts) => Ok(ours(counts)),
            Committed::TooSmall(counts) => Err(Error::TooSmall(ours(counts))),
            Committed::Stale => Err(Error::Stale),
        };
        (answer, out)
    }

    fn rooms(&self) -> [usize; 4] {
        sizes(self.ask().bytes)
    }

    fn other_counts(&self) -> Vec<Listing> {
        let counts = other_counts(theirs(self.ask()));
        counts.into_iter().map(ours).collect()
    }
}

fn documented_pairs() -> impl Iterator<Item = Pair> {
    let pairs = PAIRS.into_iter();
    pairs.map(|(left, right, ..)| Pair::of(left.as_bytes(), right.as_bytes()).unwrap())
}

fn generated_lines() -> impl Iterator<Item = Vec<u8>> {
    let mut draw = Draw::new(8);
    (0..GENERATED).map(move |_| pair_line(&mut draw))
}

fn generated_pairs() -> impl Iterator<Item = Pair> {
    generated_lines().filter_map(|line| {
        let (left, right) = divided(&line);
        Pair::of(left, right)
    })
}

fn all_pairs() -> impl Iterator<Item = Pair> {
    documented_pairs().chain(generated_pairs())
}

/// Those whose lists are short.
fn short_pairs() -> impl Iterator<Item = Pair> {
    all_pairs().filter(|pair| pair.ask().bytes <= LONGEST)
}

#[test]
fn the_counts_of_document_01s_pairs() {
    for (pair, (.., entries, bytes)) in documented_pairs().zip(PAIRS) {
        assert_eq!(pair.ask(), listing(entries, bytes), "{pair:?}");
    }
}

/// "The two counts are those of the definition's list."
#[test]
fn an_ask_tells_what_the_list_and_the_second_program_count() {
    let mut several = 0;
    for pair in all_pairs() {
        let asked = pair.ask();
        let (left, right) = &pair.rules;
        assert_eq!(theirs(asked), committing::ask(left, right), "{pair:?}");
        let (listed, _) = pair.list(0);
        match asked.bytes {
            0 => assert_eq!(listed, Ok(asked), "{pair:?}"),
            _ => assert_eq!(listed, Err(Error::TooSmall(asked)), "{pair:?}"),
        }
        several += usize::from(asked.entries > 1);
    }
    assert!(several > 50, "{several}");
}

/// "Ask then commit on the same rules leaves the bytes that the old call left."
#[test]
fn ask_then_commit_is_the_old_call() {
    for pair in short_pairs() {
        let asked = pair.ask();
        for room in pair.rooms() {
            let answered = pair.commit(asked, room);
            assert_eq!(answered, pair.list(room), "{pair:?}");
            assert_eq!(answered, pair.expected(asked, room), "{pair:?}");
        }
        let (_, list) = pair.commit(asked, asked.bytes);
        assert_eq!(overlaps(&pair.texts.0, &pair.texts.1), Ok(list));
    }
}

/// "Refusal 13 is a commit whose counts aren't those of its rules, tried before
/// 8", and it "leaves the buffer's old bytes".
#[test]
fn other_counts_are_refused_whatever_the_room() {
    let mut stale = 0;
    for pair in short_pairs() {
        for asked in pair.other_counts() {
            for room in pair.rooms() {
                let answered = pair.commit(asked, room);
                if asked != pair.ask() {
                    assert_eq!(answered, (Err(Error::Stale), old_bytes(room)), "{pair:?}");
                    stale += 1;
                }
                assert_eq!(answered, pair.expected(asked, room), "{pair:?}");
            }
        }
    }
    assert!(stale > 10_000, "{stale}");
}

/// Counts are numbers: a commit doesn't know which rules were asked for.
#[test]
fn counts_of_another_pair() {
    let asked = ask_overlaps(b"a0", b"1").unwrap();
    let mut out = [7; 10];
    let stale = commit_overlaps(asked, b"s0", b"\"\"", &mut out);
    assert_eq!((stale, out), (Err(Error::Stale), [7; 10]));
    let same = commit_overlaps(asked, b"2=>3", b"i0", &mut out);
    assert_eq!(same, Ok(asked));
    assert_eq!(&out, b"2 >i0=2\n\x07\x07");
}

/// A text that is refused is told first, whatever the counts are, and nothing
/// is written.
fn assert_refused(left: &[u8], right: &[u8], error: Error) {
    assert_eq!(ask_overlaps(left, right), Err(error));
    for asked in [listing(0, 0), listing(1, 17), listing(usize::MAX, 0)] {
        let mut out = old_bytes(100);
        let answer = commit_overlaps(asked, left, right, &mut out);
        assert_eq!((answer, out), (Err(error), old_bytes(100)));
    }
}

#[test]
fn refused_texts() {
    let refusal = |number, place| Refusal { number, place };
    let left = Error::Left(refusal(2, 2));
    assert_refused(b"i01", b"l0:l1", left);
    assert_refused(b"i01", b"a0", left);
    assert_refused(b"a0", b"l0:l1", Error::Right(refusal(6, 3)));
    let mut refused = 0;
    for line in generated_lines() {
        let (left, right) = divided(&line);
        if let Err(error @ (Error::Left(_) | Error::Right(_))) = list_overlaps(left, right, &mut [])
        {
            assert_refused(left, right, error);
            refused += 1;
        }
    }
    assert!(refused > 50, "{refused}");
}

#[test]
fn what_a_stale_commit_says() {
    let stale = commit_overlaps(listing(0, 0), b"1", b"1", &mut []).unwrap_err();
    assert_eq!(stale.to_string(), "the counts are not those of the rules");
    let asked = ask_overlaps(b"1", b"1").unwrap();
    let small = commit_overlaps(asked, b"1", b"1", &mut []).unwrap_err();
    assert_eq!(small.to_string(), "2 bytes are needed");
}
