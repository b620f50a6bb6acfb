//! Times the ask, the listing into a large buffer, and the ask with a commit,
//! on pairs of rules from standard input, a pair a line with a tab between
//! them: prints the seconds of each.

use std::hint::black_box;
use std::io;
use std::time::Instant;

use yopobrush::{ask_overlaps, commit_overlaps, list_overlaps, Error, Listing};

/// Room for the lists that are timed.
const ROOM: usize = 1 << 28;

type Pair = (String, String);

/// The seconds that one call for each pair takes.
fn seconds(
    pairs: &[Pair],
    mut call: impl FnMut(&[u8], &[u8]) -> Result<Listing, Error>,
) -> Result<f64, Error> {
    let begin = Instant::now();
    for (left, right) in pairs {
        black_box(call(left.as_bytes(), right.as_bytes())?);
    }
    Ok(begin.elapsed().as_secs_f64())
}

fn main() -> Result<(), Box<dyn std::error::Error>> {
    let input = io::read_to_string(io::stdin())?;
    let lines = input.lines().map(|line| line.split_once('\t'));
    let owned = |(left, right): (&str, &str)| (left.to_owned(), right.to_owned());
    let pairs: Option<Vec<Pair>> = lines.map(|pair| pair.map(owned)).collect();
    let pairs = pairs.ok_or("a line has no tab")?;
    let mut out = vec![0; ROOM];
    // The system gives the buffer's memory when it is first written to.
    seconds(&pairs, |left, right| list_overlaps(left, right, &mut out))?;
    let ask = seconds(&pairs, ask_overlaps)?;
    let list = seconds(&pairs, |left, right| list_overlaps(left, right, &mut out))?;
    let commit = seconds(&pairs, |left, right| {
        let asked = ask_overlaps(left, right)?;
        commit_overlaps(asked, left, right, &mut out[..asked.bytes])
    })?;
    println!("{ask:.4} {list:.4} {commit:.4}");
    Ok(())
}
