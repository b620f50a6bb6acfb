use reference::reading::read_rule;

use crate::support::*;

#[test]
fn each_kind_of_term_is_read() {
    let table = [
        ("0", int(0)),
        ("7", int(7)),
        ("2147483647", int(2147483647)),
        ("\"\"", string("")),
        ("\"m\"", string("m")),
        ("\" \"", string(" ")),
        ("\"~\"", string("~")),
        ("\"1:2|i0 empty\"", string("1:2|i0 empty")),
        ("i0", var(b'i', 0)),
        ("s1", var(b's', 1)),
        ("a9", var(b'a', 9)),
        ("l10", var(b'l', 10)),
        ("i15", var(b'i', 15)),
    ];
    for (text, term) in table {
        assert_rule(text, vec![vec![term]]);
    }
}

#[test]
fn separators_divide_fields_and_terms() {
    let (a0, l0) = (var(b'a', 0), var(b'l', 0));
    assert_rule("a0:l0", vec![vec![a0.clone(), l0.clone()]]);
    assert_rule("l0:2", vec![vec![l0.clone(), int(2)]]);
    assert_rule("a0|l0", vec![vec![a0.clone()], vec![l0.clone()]]);
    assert_rule(
        "1:a0|\":|\"|l0:2|i3",
        vec![
            vec![int(1), a0],
            vec![string(":|")],
            vec![l0, int(2)],
            vec![var(b'i', 3)],
        ],
    );
}

#[test]
fn empty_is_dropped() {
    assert_rule("empty", vec![vec![]]);
    assert_rule("empty:empty", vec![vec![]]);
    assert_rule("empty|empty", vec![vec![], vec![]]);
    assert_rule("empty|1|empty", vec![vec![], vec![int(1)], vec![]]);
    for text in ["1", "empty:1", "1:empty", "empty:1:empty"] {
        assert_rule(text, vec![vec![int(1)]]);
    }
    assert_rule("1:empty:2", vec![vec![int(1), int(2)]]);
}

#[test]
fn integers_are_equal_by_value() {
    assert_eq!(read_rule(b"007"), read_rule(b"7"));
    assert_eq!(read_rule(b"0000000000"), read_rule(b"0"));
    assert_eq!(read_rule(b"00:1"), read_rule(b"0:01"));
    assert_ne!(read_rule(b"7"), read_rule(b"70"));
    assert_ne!(read_rule(b"7"), read_rule(b"\"7\""));
}

#[test]
fn strings_are_compared_byte_by_byte() {
    assert_ne!(read_rule(b"\"m\""), read_rule(b"\"M\""));
    assert_ne!(read_rule(b"\"m\""), read_rule(b"\"m \""));
    assert_ne!(read_rule(b"\"007\""), read_rule(b"\"7\""));
}

#[test]
fn stops_early() {
    let texts = [
        "", "1:", "1|", "1:2|", "i", "1:l", "e", "em", "emp", "empt", "1|empt", "\"", "\"m",
        "\"m:1|i0", "empty:", "empty|",
    ];
    for text in texts {
        assert_not_grammar(text, text.len());
    }
}

#[test]
fn first_byte_that_cannot_stand() {
    let table = [
        ("|", 0),
        (":", 0),
        (" ", 0),
        (" 1", 0),
        ("+1", 0),
        ("x0", 0),
        ("I0", 0),
        ("Empty", 0),
        ("1 ", 1),
        ("1 :2", 1),
        ("1: 2", 2),
        ("1::2", 2),
        ("1||2", 2),
        ("1:|2", 2),
        ("1|:2", 2),
        ("1\t2", 1),
        ("1\n", 1),
        ("1\r", 1),
        ("1i0", 1),
        ("1\"m\"", 1),
        ("1.5", 1),
        ("i01", 2),
        ("i00", 2),
        ("l007", 2),
        ("ii", 1),
        ("i:", 1),
        ("i-1", 1),
        ("i 1", 1),
        ("i0i1", 2),
        ("i10a", 3),
        ("e:", 1),
        ("emty", 2),
        ("empt:", 4),
        ("empt1", 4),
        ("emptyy", 5),
        ("empty1", 5),
        ("empty ", 5),
        ("emptyempty", 5),
        ("\"m\"m", 3),
        ("\"m\"\"m\"", 3),
        ("\"m\"1", 3),
        ("1|2|3|i01", 8),
    ];
    for (text, place) in table {
        assert_not_grammar(text, place);
    }
}

#[test]
fn only_the_first_offence_counts() {
    assert_not_grammar("1 2 3", 1);
    assert_not_grammar("i01|i01", 2);
    assert_not_grammar("\"\x01\x02", 1);
}

#[test]
fn every_byte_alone() {
    for byte in 0..=255u8 {
        let text = [byte];
        match byte {
            b'0'..=b'9' => assert_rule(text, vec![vec![int(i64::from(byte - b'0'))]]),
            b'i' | b's' | b'a' | b'l' | b'e' | b'"' | b'-' => assert_not_grammar(text, 1),
            _ => assert_not_grammar(text, 0),
        }
    }
}

#[test]
fn every_byte_in_a_string() {
    for byte in 0..=255u8 {
        let text = [b'"', b'x', byte, b'y', b'"'];
        match byte {
            // The string ends, and nothing but a separator may follow.
            b'"' => assert_not_grammar(text, 3),
            32..=126 => assert_rule(text, vec![vec![string([b'x', byte, b'y'])]]),
            _ => assert_not_grammar(text, 2),
        }
    }
}

#[test]
fn every_byte_in_an_unclosed_string() {
    for byte in 0..=255u8 {
        let text = [b'1', b':', b'"', byte];
        match byte {
            b'"' => assert_rule(text, vec![vec![int(1), string("")]]),
            32..=126 => assert_not_grammar(text, 4),
            _ => assert_not_grammar(text, 3),
        }
    }
}

#[test]
fn every_byte_behind_a_letter() {
    for letter in *b"isal" {
        for byte in 0..=255u8 {
            let text = [letter, byte];
            if byte.is_ascii_digit() {
                assert_rule(text, vec![vec![var(letter, u32::from(byte - b'0'))]]);
            } else {
                assert_not_grammar(text, 1);
            }
        }
    }
}

#[test]
fn every_byte_behind_a_term() {
    for term in ["1", "-1", "-0", "1:2", "i1", "i0", "\"\"", "empty"] {
        let number_may_go_on = !matches!(term, "i0" | "\"\"" | "empty");
        for byte in 0..=255u8 {
            let mut text = term.as_bytes().to_vec();
            text.push(byte);
            if byte == b':' || byte == b'|' {
                assert_not_grammar(&text, text.len());
            } else if byte == b'=' {
                assert_rule_refused(&text, 2, text.len());
                assert_slip_refused(&text, 2, term.len());
            } else if byte.is_ascii_digit() && number_may_go_on {
                let refusal = read_rule(&text).err();
                assert!(refusal.is_none_or(|refusal| refusal.number == 5));
            } else {
                assert_not_grammar(&text, term.len());
            }
        }
    }
}

#[test]
fn sizes_play_no_part_in_the_grammar() {
    // Each is too large somewhere and breaks off behind it.
    let too_large = [
        "1|2|3|4|5".to_string(),
        times(17, "1"),
        times(65, "1"),
        "2147483648".to_string(),
        "-2147483649".to_string(),
        "9".repeat(100),
        "i16".to_string(),
        format!("s{}", "9".repeat(100)),
        quoted(16),
        "l0:l0".to_string(),
    ];
    for start in too_large {
        for (end, place) in [(":", 1), ("|", 1), (" ", 0), (":i01", 3)] {
            assert_not_grammar(format!("{start}{end}"), start.len() + place);
        }
    }
}

#[test]
fn bytes_of_the_text() {
    let string_of = |bytes: usize| quoted(bytes - 2);
    assert_rule_refused(string_of(4096), 5, 0);
    assert_rule_refused(string_of(4097), 1, 4096);
    assert_rule_refused(string_of(8193), 1, 4096);
    assert_rule_refused("7".repeat(4096), 5, 0);
    assert_rule_refused("7".repeat(4097), 1, 4096);
    assert_rule_refused("\"".to_string() + &"x".repeat(4095), 2, 4096);
    assert_rule_refused(" ".repeat(4096), 2, 0);
    assert_rule_refused(" ".repeat(4097), 1, 4096);
    assert_rule_refused([0; 4097], 1, 4096);
}

#[test]
fn the_longest_rule() {
    let text = vec![times(16, &quoted(15)); 4].join("|");
    assert_eq!(text.len(), 1151);
    assert_rule(text, vec![vec![string("x".repeat(15)); 16]; 4]);
}

#[test]
fn number_of_fields() {
    assert_rule("1|2|3|4", (1..=4).map(|value| vec![int(value)]).collect());
    assert_rule_refused("1|2|3|4|5", 3, 8);
    assert_rule_refused("1|2|3|4|5|6|7", 3, 8);
    assert_rule_refused("10|empty|\"|\"|i0:2|empty", 3, 18);
    assert_rule("\"|||||\"", vec![vec![string("|||||")]]);
}

#[test]
fn number_of_terms() {
    assert_rule(times(16, "1"), vec![vec![int(1); 16]]);
    assert_rule_refused(times(17, "1"), 4, 32);
    assert_rule_refused(times(40, "1"), 4, 32);
    assert_rule_refused(format!("1|{}", times(17, "10")), 4, 50);
    let full = times(16, "1");
    assert_rule(format!("{full}|{full}"), vec![vec![int(1); 16]; 2]);
    assert_rule("\":::::::::::::\"", vec![vec![string(":::::::::::::")]]);
}

#[test]
fn empty_counts_as_a_term_of_the_text() {
    assert_rule(times(16, "empty"), vec![vec![]]);
    assert_rule_refused(times(17, "empty"), 4, 96);
    assert_rule(format!("{}:1", times(15, "empty")), vec![vec![int(1)]]);
    assert_rule_refused(format!("{}:1", times(16, "empty")), 4, 96);
    assert_rule_refused(format!("{}:empty", times(16, "1")), 4, 32);
}

#[test]
fn the_leftmost_surplus_term_counts() {
    let (full, over) = (times(16, "1"), times(17, "1"));
    assert_rule_refused(format!("{over}|{over}"), 4, 32);
    assert_rule_refused(format!("{full}|{over}|{over}"), 4, 64);
}

#[test]
fn values_and_digits() {
    let table = [
        ("2147483646", 2147483646),
        ("2147483647", 2147483647),
        ("0000000000", 0),
        ("0000000007", 7),
        ("0147483648", 147483648),
        ("1000000000", 1000000000),
    ];
    for (text, value) in table {
        assert_rule(text, vec![vec![int(value)]]);
    }
    let over = [
        "2147483648",
        "2147483649",
        "4294967295",
        "4294967296",
        "4294967303",
        "9999999999",
        "00000000000",
        "00000000007",
        "02147483647",
        "12345678901",
        "18446744073709551616",
        "18446744073709551623",
    ];
    for text in over {
        assert_rule_refused(text, 5, 0);
    }
    assert_rule_refused("0".repeat(4096), 5, 0);
    assert_rule_refused("9".repeat(4096), 5, 0);
}

#[test]
fn lengths_of_strings() {
    for length in 0..=15 {
        assert_rule(quoted(length), vec![vec![string("x".repeat(length))]]);
    }
    for length in [16, 17, 255, 256, 271, 4094] {
        assert_rule_refused(quoted(length), 5, 0);
    }
}

#[test]
fn numbers_of_variables() {
    for letter in *b"isal" {
        let name = char::from(letter);
        for number in 0..=15 {
            assert_rule(format!("{name}{number}"), vec![vec![var(letter, number)]]);
        }
        for number in 16..=300 {
            assert_rule_refused(format!("{name}{number}"), 5, 0);
        }
        for number in ["4294967296", "4294967297", "18446744073709551616"] {
            assert_rule_refused(format!("{name}{number}"), 5, 0);
        }
        assert_rule_refused(format!("{name}{}", "1".repeat(4095)), 5, 0);
    }
}

#[test]
fn the_leftmost_size_counts() {
    assert_rule_refused("i16:s16", 5, 0);
    assert_rule_refused("1:i16|s16", 5, 2);
    assert_rule_refused("1|2147483648|i16", 5, 2);
    assert_rule_refused("-1|-2147483649|i16", 5, 3);
    assert_rule_refused(format!("i15:{}:i16", quoted(16)), 5, 4);
    assert_rule_refused("empty:empty|empty:99999999999", 5, 18);
}

#[test]
fn a_list_variable_occurs_once() {
    let table = [
        ("l0|l0", 3),
        ("l0:l1", 3),
        ("l0:l0", 3),
        ("l1:l0", 3),
        ("l0:1:l1", 5),
        ("1:l0:a0:i0:l1:2", 11),
        ("l0:empty:l1", 9),
        ("l0|1|l0", 5),
        ("l0|l1|l2|l0", 9),
        ("l0|l1|l2|l1", 9),
        ("l10|l1|l10", 7),
        ("l0:l1|l0", 3),
        ("l0|l0:l1", 3),
        ("l0|l1:l0", 6),
        ("l0:l1:l2", 3),
        ("empty|1:l0|2:3:l0", 15),
    ];
    for (text, place) in table {
        assert_rule_refused(text, 6, place);
    }
}

#[test]
fn different_list_variables_in_different_fields() {
    let accepted = [
        "l0",
        "l0|l1",
        "l10|l1",
        "l1|l10",
        "l0|l1|l2|l3",
        "l15|1:l14:2",
    ];
    for text in accepted {
        assert!(read_rule(text.as_bytes()).is_ok(), "{text}");
    }
    let fields = vec![vec![var(b'l', 10)], vec![var(b'l', 1)]];
    assert_rule("l10|l1", fields);
}

#[test]
fn other_variables_may_recur() {
    let a0 = var(b'a', 0);
    assert_rule("a0:a0", vec![vec![a0.clone(), a0.clone()]]);
    assert_rule("a0|a0", vec![vec![a0.clone()], vec![a0]]);
    let (i0, l0) = (var(b'i', 0), var(b'l', 0));
    assert_rule("i0|i0:l0", vec![vec![i0.clone()], vec![i0, l0]]);
    let zeros: Vec<_> = b"isal".iter().map(|&letter| var(letter, 0)).collect();
    assert_rule("i0:s0:a0:l0", vec![zeros]);
    assert_rule("s0:s0|s0", vec![vec![var(b's', 0); 2], vec![var(b's', 0)]]);
}

/// Each text has offences of several numbers; the lowest number counts,
/// though the others stand further left.
#[test]
fn order_of_refusals() {
    let over = times(17, "1");
    let table = [
        (format!("|{}", "1".repeat(4096)), 1, 4096),
        (format!("1|2|3|4|5|{}", times(2044, "1")), 1, 4096),
        ("1|2|3|4|5:".to_string(), 2, 10),
        (format!("{over}:"), 2, 34),
        ("99999999999:".to_string(), 2, 12),
        ("i16|i01".to_string(), 2, 6),
        ("l0:l0 ".to_string(), 2, 5),
        (format!("{over}|2|3|4|5"), 3, 40),
        ("99999999999|2|3|4|5".to_string(), 3, 18),
        ("l0|l0|3|4|5".to_string(), 3, 10),
        (format!("2147483648:{over}"), 4, 41),
        (format!("i16|{over}"), 4, 36),
        (format!("l0:l0|{over}"), 4, 38),
        ("99999999999|l0:l0".to_string(), 5, 0),
        ("l0:l0|99999999999".to_string(), 5, 6),
        ("l0:l0:i16".to_string(), 5, 6),
        ("l0|l0|l16".to_string(), 5, 6),
        ("l16:l16".to_string(), 5, 0),
    ];
    for (text, number, place) in table {
        assert_rule_refused(text, number, place);
    }
}

#[test]
fn the_pairs_of_document_01_are_read() {
    let texts = [
        "a0:l0", "l0:2", "l0", "empty", "i0", "2:l0", "s0", "1:2:l0", "l0:2:3", "a0|a0", "1|\"m\"",
        "i0|i0:l0", "3|a0", "a0:a0", "i0:l0", "1:\"1\"", "l0|l1",
    ];
    for text in texts {
        assert!(read_rule(text.as_bytes()).is_ok(), "{text}");
    }
}
