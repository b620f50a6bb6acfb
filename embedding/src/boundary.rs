//! The static library's functions as `yopobrush.h` declares them, and safe
//! functions over them. All unsafe code of this crate is here.
#![allow(unsafe_code)]

/// The number of a text's refusal and its place, or 0 and 0.
#[repr(C)]
pub struct Reading {
    pub refusal: u64,
    pub place: u64,
}

/// How each text is read; 8, of a commit also 13, or 0; the entries and bytes
/// of the list, or 0 and 0 with 13.
#[repr(C)]
pub struct Listing {
    pub left: Reading,
    pub right: Reading,
    pub refusal: u64,
    pub entries: u64,
    pub bytes: u64,
}

/// How each text is read; the entries and bytes of the list.
#[repr(C)]
pub struct Asking {
    pub left: Reading,
    pub right: Reading,
    pub entries: u64,
    pub bytes: u64,
}

/// How each text is read; 1 where their rules overlap, or 0.
#[repr(C)]
pub struct Overlapping {
    pub left: Reading,
    pub right: Reading,
    pub overlap: u64,
}

/// How each text is read; 0 for no, 1 for yes, 11 or 8; the bytes of the text
/// that is written, or that has no room.
#[repr(C)]
pub struct Carrying {
    pub rule: Reading,
    pub slip: Reading,
    pub answer: u64,
    pub bytes: u64,
}

extern "C" {
    fn yopobrush_read_rule(text: *const u8, length: usize) -> Reading;

    fn yopobrush_list_overlaps(
        left: *const u8,
        left_length: usize,
        right: *const u8,
        right_length: usize,
        out: *mut u8,
        out_length: usize,
    ) -> Listing;

    fn yopobrush_ask_overlaps(
        left: *const u8,
        left_length: usize,
        right: *const u8,
        right_length: usize,
    ) -> Asking;

    fn yopobrush_commit_overlaps(
        entries: u64,
        bytes: u64,
        left: *const u8,
        left_length: usize,
        right: *const u8,
        right_length: usize,
        out: *mut u8,
        out_length: usize,
    ) -> Listing;

    fn yopobrush_texts_overlap(
        left: *const u8,
        left_length: usize,
        right: *const u8,
        right_length: usize,
    ) -> Overlapping;

    fn yopobrush_carry_out(
        rule: *const u8,
        rule_length: usize,
        slip: *const u8,
        slip_length: usize,
        out: *mut u8,
        out_length: usize,
    ) -> Carrying;
}

pub fn read_rule(text: &[u8]) -> Reading {
    // SAFETY: the pointer and the length are a slice's. The function only
    // reads it, keeps no pointer, and is proved to do nothing undefined.
    unsafe { yopobrush_read_rule(text.as_ptr(), text.len()) }
}

pub fn list_overlaps(left: &[u8], right: &[u8], out: &mut [u8]) -> Listing {
    // SAFETY: as above; `out` is lent as mutable, so no other slice shares a
    // byte with it.
    unsafe {
        yopobrush_list_overlaps(
            left.as_ptr(),
            left.len(),
            right.as_ptr(),
            right.len(),
            out.as_mut_ptr(),
            out.len(),
        )
    }
}

pub fn ask_overlaps(left: &[u8], right: &[u8]) -> Asking {
    // SAFETY: as of `read_rule`.
    unsafe { yopobrush_ask_overlaps(left.as_ptr(), left.len(), right.as_ptr(), right.len()) }
}

pub fn commit_overlaps(
    entries: u64,
    bytes: u64,
    left: &[u8],
    right: &[u8],
    out: &mut [u8],
) -> Listing {
    // SAFETY: as of `list_overlaps`; any counts may be passed.
    unsafe {
        yopobrush_commit_overlaps(
            entries,
            bytes,
            left.as_ptr(),
            left.len(),
            right.as_ptr(),
            right.len(),
            out.as_mut_ptr(),
            out.len(),
        )
    }
}

pub fn texts_overlap(left: &[u8], right: &[u8]) -> Overlapping {
    // SAFETY: as of `read_rule`.
    unsafe { yopobrush_texts_overlap(left.as_ptr(), left.len(), right.as_ptr(), right.len()) }
}

pub fn carry_out(rule: &[u8], slip: &[u8], out: &mut [u8]) -> Carrying {
    // SAFETY: as of `list_overlaps`.
    unsafe {
        yopobrush_carry_out(
            rule.as_ptr(),
            rule.len(),
            slip.as_ptr(),
            slip.len(),
            out.as_mut_ptr(),
            out.len(),
        )
    }
}

#[cfg(test)]
mod tests {
    use super::*;

    /// Texts that are refused, and one that is accepted, with how each is read.
    const TEXTS: [(&str, (u64, u64)); 4] = [
        ("i01", (2, 2)),
        ("l0:l1", (6, 3)),
        ("a0=>i0", (10, 4)),
        ("a0", (0, 0)),
    ];

    /// Every pair of them.
    fn pairs() -> impl Iterator<Item = [(&'static str, (u64, u64)); 2]> {
        let each = |left| TEXTS.into_iter().map(move |right| [left, right]);
        TEXTS.into_iter().flat_map(each)
    }

    fn read(reading: Reading) -> (u64, u64) {
        (reading.refusal, reading.place)
    }

    /// How both texts are read is told, and a refused one overlaps none.
    #[test]
    fn a_refused_text_gives_its_refusal_and_no() {
        for [(left, left_read), (right, right_read)] in pairs() {
            let answer = texts_overlap(left.as_bytes(), right.as_bytes());
            let both = [left_read, right_read] == [(0, 0), (0, 0)];
            assert_eq!(answer.overlap, both as u64, "{left} and {right}");
            assert_eq!(read(answer.left), left_read, "{left} and {right}");
            assert_eq!(read(answer.right), right_read, "{left} and {right}");
        }
    }

    /// A refused text says the rule with no fields, which has no entries.
    #[test]
    fn the_counts_of_a_refused_text_are_0() {
        for [(left, left_read), (right, right_read)] in pairs() {
            let asked = ask_overlaps(left.as_bytes(), right.as_bytes());
            let both = [left_read, right_read] == [(0, 0), (0, 0)];
            let counts = if both { (1, 17) } else { (0, 0) };
            assert_eq!((asked.entries, asked.bytes), counts, "{left} and {right}");
            assert_eq!(read(asked.left), left_read, "{left} and {right}");
            assert_eq!(read(asked.right), right_read, "{left} and {right}");
        }
    }

    /// So a commit with 0 and 0 writes its no bytes, and one with any other
    /// counts is refused by 13; how both texts are read is told all the same.
    #[test]
    fn a_commit_to_a_refused_text() {
        let most = u64::MAX;
        let all_counts = [(0, 0), (0, 1), (1, 0), (1, 17), (0, most), (most, most)];
        for [(left, left_read), (right, right_read)] in pairs() {
            let both = [left_read, right_read] == [(0, 0), (0, 0)];
            let own = if both { (1, 17) } else { (0, 0) };
            for (entries, bytes) in all_counts {
                let mut out = [7; 10];
                let (left, right) = (left.as_bytes(), right.as_bytes());
                let answer = commit_overlaps(entries, bytes, left, right, &mut out);
                let told = (answer.refusal, answer.entries, answer.bytes);
                let expected = match (entries, bytes) {
                    (0, 0) if !both => (0, 0, 0),
                    counts if counts == own => (8, 1, 17),
                    _ => (13, 0, 0),
                };
                assert_eq!(told, expected, "{entries} {bytes}");
                assert_eq!(read(answer.left), left_read);
                assert_eq!(read(answer.right), right_read);
                assert_eq!(out, [7; 10]);
            }
        }
    }
}
