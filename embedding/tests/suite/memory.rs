//! The lent bytes, memory that the wrapper takes itself, and the stack.

use std::thread;

use yopobrush::{
    ask_overlaps, commit_overlaps, list_overlaps, overlaps, texts_overlap, Error, Listing,
};

const LEFT: &[u8] = b"a0:l0";
const RIGHT: &[u8] = b"l0:2";
const LIST: &[u8] = b"2 <a0=2 <l0=empty >l0=empty\na0:l0:2 <a0=a0 <l0=l0:2 >l0=a0:l0\n";

const ASKED: Listing = Listing {
    entries: 2,
    bytes: LIST.len(),
};

#[test]
fn a_list_takes_as_many_bytes_as_it_has() {
    let list = |out: &mut [u8]| list_overlaps(LEFT, RIGHT, out);
    let commit = |out: &mut [u8]| commit_overlaps(ASKED, LEFT, RIGHT, out);
    for room in 0..LIST.len() + 10 {
        for call in [&list as &dyn Fn(&mut [u8]) -> _, &commit] {
            let mut out = vec![7; room];
            let listed = call(&mut out);
            if room < LIST.len() {
                assert_eq!(listed, Err(Error::TooSmall(ASKED)));
                assert_eq!(out, vec![7; room]);
            } else {
                assert_eq!(listed, Ok(ASKED));
                assert_eq!(&out[..LIST.len()], LIST);
                assert_eq!(&out[LIST.len()..], vec![7; room - LIST.len()]);
            }
        }
    }
}

#[test]
fn what_is_refused_leaves_the_lent_bytes() {
    let mut out = [7; 100];
    assert!(list_overlaps(b"i01", RIGHT, &mut out).is_err());
    assert!(list_overlaps(LEFT, b"i01", &mut out).is_err());
    assert!(commit_overlaps(ASKED, b"i01", RIGHT, &mut out).is_err());
    assert!(commit_overlaps(ASKED, LEFT, b"i01", &mut out).is_err());
    assert_eq!(out, [7; 100]);
}

#[test]
fn nothing_is_lent() {
    let none = Listing {
        entries: 0,
        bytes: 0,
    };
    assert_eq!(list_overlaps(b"1", b"2", &mut []), Ok(none));
    assert_eq!(ask_overlaps(b"1", b"2"), Ok(none));
    assert_eq!(commit_overlaps(none, b"1", b"2", &mut []), Ok(none));
    assert!(ask_overlaps(&[], &[]).is_err());
    assert!(commit_overlaps(none, &[], &[], &mut []).is_err());
    assert!(list_overlaps(&[], &[], &mut []).is_err());
    assert!(texts_overlap(&[], &[]).is_err());
}

/// Fifteen variables before or behind a list variable, in each field: as many
/// choices as two rules can have.
pub fn deepest(fields: usize) -> (Vec<u8>, Vec<u8>) {
    let atoms = (0..15).map(|n| format!("a{n}")).collect::<Vec<_>>();
    let atoms = atoms.join(":");
    let field = |n: usize| (format!("{atoms}:l{n}"), format!("l{n}:{atoms}"));
    let (left, right): (Vec<_>, Vec<_>) = (0..fields).map(field).unzip();
    (left.join("|").into_bytes(), right.join("|").into_bytes())
}

#[test]
fn a_list_of_many_lines() {
    let (left, right) = deepest(2);
    let list = overlaps(&left, &right).unwrap();
    let lines = list.iter().filter(|&&byte| byte == b'\n').count();
    assert_eq!(lines, 256);
    let mut room = vec![0; list.len()];
    let listing = list_overlaps(&left, &right, &mut room).unwrap();
    assert_eq!((listing.entries, listing.bytes), (256, list.len()));
    assert_eq!(room, list);
    assert_eq!(ask_overlaps(&left, &right), Ok(listing));
    let mut room = vec![0; list.len()];
    commit_overlaps(listing, &left, &right, &mut room).unwrap();
    assert_eq!(room, list);
}

#[test]
fn a_megabyte_of_stack_is_enough() {
    let (left, right) = deepest(4);
    let needed = Listing {
        entries: 65_536,
        bytes: 47_250_381,
    };
    let list = move || {
        let listed = list_overlaps(&left, &right, &mut [7; 10]);
        let asked = ask_overlaps(&left, &right);
        let committed = commit_overlaps(needed, &left, &right, &mut [7; 10]);
        (listed, asked, committed)
    };
    let thread = thread::Builder::new().stack_size(1 << 20);
    let (listed, asked, committed) = thread.spawn(list).unwrap().join().unwrap();
    assert_eq!(listed, Err(Error::TooSmall(needed)));
    assert_eq!(asked, Ok(needed));
    assert_eq!(committed, Err(Error::TooSmall(needed)));
}

/// Also where the last field leaves none of the 4,096 choices before it.
#[test]
fn asking_takes_no_more_stack() {
    let (left, right) = deepest(4);
    let (front, other) = deepest(3);
    let (front, other) = ([&front[..], b"|i0"].concat(), [&other[..], b"|s0"].concat());
    let ask = move || [texts_overlap(&left, &right), texts_overlap(&front, &other)];
    let thread = thread::Builder::new().stack_size(1 << 20);
    let asked = thread.spawn(ask).unwrap().join().unwrap();
    assert_eq!(asked, [Ok(true), Ok(false)]);
}
