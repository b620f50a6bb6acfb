//! What commits are tried with: pairs of rules, and counts and buffer sizes
//! beside those of a list.

use crate::committing::Counts;

/// Document 01's pairs, and how many lines and bytes their lists have.
pub const PAIRS: [(&str, &str, usize, usize); 13] = [
    ("a0:l0", "l0:2", 2, 62),
    ("l0", "l0", 1, 17),
    ("empty", "empty", 1, 6),
    ("i0", "2:l0", 1, 18),
    ("i0", "s0", 0, 0),
    ("1:2:l0", "l0:2:3", 2, 51),
    ("a0|a0", "1|\"m\"", 0, 0),
    ("a0", "1", 1, 8),
    ("a0", "\"m\"", 1, 12),
    ("i0|i0:l0", "3|a0", 1, 26),
    ("a0:a0", "i0:l0", 1, 27),
    ("a0:a0", "1:\"1\"", 0, 0),
    ("l0", "l0|l1", 0, 0),
];

/// No bytes, and as many as a list has, one fewer and one more.
pub fn sizes(bytes: usize) -> [usize; 4] {
    [0, bytes.saturating_sub(1), bytes, bytes + 1]
}

/// Counts next to a list's or made of them; some may be its own.
pub fn other_counts(Counts { entries, bytes }: Counts) -> Vec<Counts> {
    let (fewer, less) = (entries.wrapping_sub(1), bytes.wrapping_sub(1));
    let pairs = [
        (fewer, bytes),
        (entries + 1, bytes),
        (entries, less),
        (entries, bytes + 1),
        // The sum is right.
        (entries + 1, less),
        (fewer, bytes + 1),
        (bytes, entries),
        (0, 0),
        (0, bytes),
        (entries, 0),
        (usize::MAX, bytes),
        (entries, usize::MAX),
        (usize::MAX, usize::MAX),
    ];
    let counts = |(entries, bytes)| Counts { entries, bytes };
    pairs.into_iter().map(counts).collect()
}

/// Bytes that no list has, other ones side by side.
pub fn old_bytes(size: usize) -> Vec<u8> {
    (0..size).map(|index| 128 + (index % 127) as u8).collect()
}
