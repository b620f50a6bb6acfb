use reference::reading::{read_rule, read_slip};

use crate::support::*;

#[test]
fn slips_are_read() {
    assert_slip("1", vec![vec![int(1)]]);
    assert_slip("empty", vec![vec![]]);
    assert_slip("007:empty|\"m\"", vec![vec![int(7)], vec![string("m")]]);
    assert_slip("\"i0\"", vec![vec![string("i0")]]);
    assert_eq!(read_slip(b"empty:1"), read_slip(b"1"));
    assert_eq!(read_slip(b"007"), read_slip(b"7"));
}

#[test]
fn every_byte_alone() {
    for byte in 0..=255u8 {
        let rule = read_rule(&[byte]).map(|rule| rule.left);
        let slip = read_slip(&[byte]).map(|slip| slip.0);
        assert_eq!(rule, slip, "byte {byte}");
    }
}

#[test]
fn bytes_of_the_text() {
    let string_of = |bytes: usize| quoted(bytes - 2);
    assert_slip_refused(string_of(4097), 5, 0);
    assert_slip_refused(string_of(8192), 5, 0);
    assert_slip_refused(string_of(8193), 1, 8192);
    assert_slip_refused("\"".to_string() + &"x".repeat(8191), 2, 8192);
    assert_slip_refused(" ".repeat(8192), 2, 0);
    assert_slip_refused(" ".repeat(8193), 1, 8192);
    assert_slip_refused([255; 100_000], 1, 8192);
}

#[test]
fn the_longest_slip() {
    let text = vec![times(64, &quoted(15)); 4].join("|");
    assert_eq!(text.len(), 4607);
    assert_rule_refused(&text, 1, 4096);
    assert_slip(text, vec![vec![string("x".repeat(15)); 64]; 4]);
}

#[test]
fn number_of_fields_and_terms() {
    assert_slip("1|1|1|1", vec![vec![int(1)]; 4]);
    assert_slip_refused("1|1|1|1|1", 3, 8);
    assert_slip(times(17, "1"), vec![vec![int(1); 17]]);
    assert_slip(times(64, "1"), vec![vec![int(1); 64]]);
    assert_slip_refused(times(65, "1"), 4, 128);
    assert_slip(times(64, "empty"), vec![vec![]]);
    assert_slip_refused(times(65, "empty"), 4, 384);
    let (full, over) = (times(64, "1"), times(65, "1"));
    assert_slip(format!("{full}|{full}"), vec![vec![int(1); 64]; 2]);
    assert_slip_refused(format!("{full}|{over}|{over}"), 4, 256);
}

#[test]
fn sizes() {
    assert_slip("2147483647", vec![vec![int(2147483647)]]);
    assert_slip("0000000000", vec![vec![int(0)]]);
    assert_slip(quoted(15), vec![vec![string("x".repeat(15))]]);
    for text in ["2147483648", "00000000000", "i16", "l100"] {
        assert_slip_refused(text, 5, 0);
    }
    assert_slip_refused(quoted(16), 5, 0);
    assert_slip_refused("9".repeat(8192), 5, 0);
    assert_slip_refused(format!("1|a{}", "9".repeat(8189)), 5, 2);
}

#[test]
fn variables_are_refused() {
    let table = [
        ("i0", 0),
        ("s0", 0),
        ("a0", 0),
        ("l0", 0),
        ("l15", 0),
        ("1:i0", 2),
        ("1|\"m\":a3", 6),
        ("1:i0:s0", 2),
        ("empty:l0", 6),
        ("l0:l0", 0),
        ("l0|l0", 0),
        ("1:l0:l1", 2),
    ];
    for (text, place) in table {
        assert_slip_refused(text, 7, place);
    }
}

#[test]
fn order_of_refusals() {
    let over = times(65, "1");
    let table = [
        (format!("|{}", "1".repeat(8192)), 1, 8192),
        ("1|2|3|4|5:".to_string(), 2, 10),
        (format!("{over}:"), 2, 130),
        ("99999999999|".to_string(), 2, 12),
        ("i0:".to_string(), 2, 3),
        (format!("{over}|2|3|4|5"), 3, 136),
        ("i0|2|3|4|99999999999".to_string(), 3, 9),
        (format!("99999999999|{over}"), 4, 140),
        (format!("i0|{over}"), 4, 131),
        ("i0:i16".to_string(), 5, 3),
        ("i0|2147483648".to_string(), 5, 3),
        ("l0:l0:l16".to_string(), 5, 6),
    ];
    for (text, number, place) in table {
        assert_slip_refused(text, number, place);
    }
}
