//! Document 01's cases, "Pairs on either side of an edge", and document 02's
//! rules with right sides and overlapping pairs.

use yopobrush::{list_overlaps, overlaps, read_rule, texts_overlap, Error, Refusal};

fn assert_list(left: &str, right: &str, lines: &[&str]) {
    let list: String = lines.iter().map(|line| format!("{line}\n")).collect();
    let listed = overlaps(left.as_bytes(), right.as_bytes());
    assert_eq!(listed, Ok(list.clone().into_bytes()), "{left} and {right}");
    let mut room = [0; 1000];
    let listing = list_overlaps(left.as_bytes(), right.as_bytes(), &mut room).unwrap();
    assert_eq!(listing.entries, lines.len(), "{left} and {right}");
    assert_eq!(&room[..listing.bytes], list.as_bytes());
    assert_overlap(left, right, !lines.is_empty());
}

/// In both orders.
fn assert_overlap(left: &str, right: &str, expected: bool) {
    for [left, right] in [[left, right], [right, left]] {
        let found = texts_overlap(left.as_bytes(), right.as_bytes());
        assert_eq!(found, Ok(expected), "{left} and {right}");
    }
}

fn assert_refused(text: impl AsRef<[u8]>, number: u8, place: usize) {
    let text = text.as_ref();
    assert_eq!(read_rule(text), Err(Refusal { number, place }));
}

#[test]
fn starred_pairs() {
    assert_list(
        "a0:l0",
        "l0:2",
        &[
            "2 <a0=2 <l0=empty >l0=empty",
            "a0:l0:2 <a0=a0 <l0=l0:2 >l0=a0:l0",
        ],
    );
    assert_list("l0", "l0", &["l0 <l0=l0 >l0=l0"]);
    assert_list("empty", "empty", &["empty"]);
    assert_list("i0", "2:l0", &["2 <i0=2 >l0=empty"]);
    assert_list("i0", "s0", &[]);
    assert_list(
        "1:2:l0",
        "l0:2:3",
        &["1:2:3 <l0=3 >l0=1", "1:2:l0:2:3 <l0=l0:2:3 >l0=1:2:l0"],
    );
    assert_list("a0|a0", "1|\"m\"", &[]);
    assert_list("i0|i0:l0", "3|a0", &["3|3 <i0=3 <l0=empty >a0=3"]);
    assert_list("a0:a0", "i0:l0", &["i0:i0 <a0=i0 >i0=i0 >l0=i0"]);
    assert_list("a0:a0", "1:\"1\"", &[]);
    assert_list("l0", "l0|l1", &[]);
}

#[test]
fn every_refusal_of_a_rule() {
    assert_eq!(read_rule(b"2147483647"), Ok(()));
    assert_refused("2147483648", 5, 0);
    assert_eq!(read_rule(b"\"123456789012345\""), Ok(()));
    assert_refused("\"1234567890123456\"", 5, 0);
    assert_refused("i01", 2, 2);
    assert_refused("l0|l0", 6, 3);
    assert_refused("l0:l1", 6, 3);
    assert_refused("", 2, 0);
    assert_refused(vec![b'1'; 4096], 5, 0);
    assert_refused(vec![b'1'; 4097], 1, 4096);
    assert_refused("1|1|1|1|1", 3, 8);
    assert_refused(vec!["1"; 17].join(":"), 4, 32);
    assert_refused([0, 255], 2, 0);
}

#[test]
fn every_refusal_of_a_rule_with_a_right_side() {
    for text in [
        "1=>2",
        "l0=>l0:l0|l0",
        "\"=>\"=>1",
        "\"=>\"",
        "i0|a0=>a0:i0",
    ] {
        assert_eq!(read_rule(text.as_bytes()), Ok(()), "{text}");
    }
    assert_refused("1|2|3|4|5=>(", 2, 11);
    assert_refused("i0=x", 2, 3);
    assert_refused("1=", 2, 2);
    assert_refused("1=>", 2, 3);
    assert_refused("=>1", 2, 0);
    assert_refused("1:=>2", 2, 2);
    assert_refused("1=>2=>3", 2, 4);
    assert_refused("1|2|3|4=>1|2|3|4|5", 3, 17);
    assert_refused(format!("1=>{}", vec!["1"; 17].join(":")), 4, 35);
    assert_refused("l0:l1=>i16", 5, 7);
    assert_refused("l0:l1=>s1", 6, 3);
    assert_refused("i0=>a0", 10, 4);
    assert_refused("i0=>i0:i1", 10, 7);
    assert_refused(format!("1=>{}", "1".repeat(4094)), 1, 4096);
}

/// "Overlaps look at left sides only."
#[test]
fn right_sides_change_no_list() {
    let lines = [
        "2 <a0=2 <l0=empty >l0=empty",
        "a0:l0:2 <a0=a0 <l0=l0:2 >l0=a0:l0",
    ];
    assert_list("a0:l0=>l0:l0|a0", "l0:2", &lines);
    assert_list("a0:l0", "l0:2=>1|2|3|4", &lines);
    assert_list("1=>2", "1=>3", &["1"]);
    assert_list("\"=>\"=>1", "s0=>s0", &["\"=>\" >s0=\"=>\""]);
}

/// "each overlapping pair", and "Overlaps look at left sides only."
#[test]
fn whether_two_rules_overlap() {
    assert_overlap("i0", "a0", true);
    assert_overlap("s0", "a0", true);
    assert_overlap("i0", "s0", false);
    assert_overlap("i0=>1", "a0=>a0|2", true);
    assert_overlap("i0=>1", "s0=>1", false);
    assert_overlap("007", "7", true);
    assert_overlap("1|l0", "1|2", true);
    assert_overlap("1|l0:3", "1|2", false);
    assert_overlap("1", "1|empty", false);
    assert_overlap("a0:l0|a0", "l0:2|1", true);
    assert_overlap("a0|a0:l0", "1|l0:2:3", true);
    assert_overlap("a0|a0:l0", "1|2:l0:3", false);
}

#[test]
fn the_left_refusal_goes_first() {
    let refusal = |number, place| Refusal { number, place };
    let list = |left: &[u8], right: &[u8]| list_overlaps(left, right, &mut [0; 100]);
    assert_eq!(list(b"i01", b"l0:l1"), Err(Error::Left(refusal(2, 2))));
    assert_eq!(list(b"a0", b"l0:l1"), Err(Error::Right(refusal(6, 3))));
    assert_eq!(overlaps(b"", b""), Err(Error::Left(refusal(2, 0))));
    assert_eq!(overlaps(b"1", b""), Err(Error::Right(refusal(2, 0))));
    assert_eq!(
        texts_overlap(b"i01", b"l0:l1"),
        Err(Error::Left(refusal(2, 2)))
    );
    assert_eq!(
        texts_overlap(b"a0", b"l0:l1"),
        Err(Error::Right(refusal(6, 3)))
    );
    assert_eq!(
        texts_overlap(b"i0=>a0", b"a0"),
        Err(Error::Left(refusal(10, 4)))
    );
    assert_eq!(texts_overlap(b"", b""), Err(Error::Left(refusal(2, 0))));
    assert_eq!(texts_overlap(b"1", b""), Err(Error::Right(refusal(2, 0))));
}

#[test]
fn what_errors_say() {
    let said = |left: &[u8], right: &[u8]| match list_overlaps(left, right, &mut []) {
        Ok(_) => String::new(),
        Err(error) => error.to_string(),
    };
    assert_eq!(said(b"i01", b"1"), "left rule refused 2 at 2");
    assert_eq!(said(b"1", b"l0:l1"), "right rule refused 6 at 3");
    assert_eq!(said(b"1", b"1"), "2 bytes are needed");
    assert_eq!(said(b"1", b"2"), "");
}
