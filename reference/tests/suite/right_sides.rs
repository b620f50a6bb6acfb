//! Reading rules with right sides (document 02, E1).

use reference::reading::read_rule;
use reference::writing::plain_rule;

use crate::support::*;

#[test]
fn both_sides_are_read() {
    let (a0, l0) = (var(b'a', 0), var(b'l', 0));
    assert_whole_rule("1=>2", vec![vec![int(1)]], vec![vec![int(2)]]);
    assert_whole_rule(
        "a0:l0=>l0:\"m\":a0|empty",
        vec![vec![a0.clone(), l0.clone()]],
        vec![vec![l0.clone(), string("m"), a0], vec![]],
    );
    assert_whole_rule("empty=>empty", vec![vec![]], vec![vec![]]);
    assert_whole_rule(
        "1|2|3|4=>5|6|7|8",
        (1..=4).map(|value| vec![int(value)]).collect(),
        (5..=8).map(|value| vec![int(value)]).collect(),
    );
    let full = times(16, "1");
    let ones = vec![vec![int(1); 16]];
    assert_whole_rule(format!("{full}=>{full}"), ones.clone(), ones);
}

#[test]
fn an_arrow_in_a_string_is_none() {
    assert_rule("\"=>\"", vec![vec![string("=>")]]);
    assert_rule("\"1=>2\":1", vec![vec![string("1=>2"), int(1)]]);
    assert_whole_rule("\"=>\"=>1", vec![vec![string("=>")]], vec![vec![int(1)]]);
    assert_whole_rule("1=>\"=>\"", vec![vec![int(1)]], vec![vec![string("=>")]]);
    assert_slip("\"=>\"", vec![vec![string("=>")]]);
    assert_rule_refused("\"=>1", 2, 4);
    assert_rule_refused("1=>\"=>", 2, 6);
}

#[test]
fn broken_arrows() {
    let table = [
        ("i0=x", 3),
        ("1=", 2),
        ("1=>", 3),
        ("=>1", 0),
        ("1:=>2", 2),
        ("1|=>2", 2),
        ("1=>2=>3", 4),
        ("1=>2=", 4),
        ("1=>2>", 4),
        ("1=>=>2", 3),
        ("1==>2", 2),
        ("1=>>2", 3),
        ("1= >2", 2),
        ("1 =>2", 1),
        ("1=> 2", 3),
        ("1>2", 1),
        ("1->2", 1),
        ("1-=>2", 1),
        ("1=->2", 2),
        ("1=>-", 4),
        ("1=>-=>2", 4),
        ("-=>1", 1),
        ("1=>|2", 3),
        ("1=>:2", 3),
        ("1=>2|", 5),
        ("1=>2:", 5),
        ("1=>emp", 6),
        ("1=>i01", 5),
        ("i=>1", 1),
        ("emp=>1", 3),
        ("=", 0),
        (">", 0),
        ("=>", 0),
        ("1=>(", 3),
        ("1\"m\"=>1", 1),
    ];
    for (text, place) in table {
        assert_rule_refused(text, 2, place);
    }
}

#[test]
fn every_byte_behind_the_arrow() {
    for byte in 0..=255u8 {
        let text = [b'1', b'=', b'>', byte];
        match byte {
            b'0'..=b'9' => {
                let right = vec![vec![int(i64::from(byte - b'0'))]];
                assert_whole_rule(text, vec![vec![int(1)]], right);
            }
            b'i' | b's' | b'a' | b'l' | b'e' | b'"' | b'-' => assert_rule_refused(text, 2, 4),
            _ => assert_rule_refused(text, 2, 3),
        }
        let text = [b'1', b'=', byte];
        let place = if byte == b'>' { 3 } else { 2 };
        assert_rule_refused(text, 2, place);
    }
}

#[test]
fn slips_have_no_arrow() {
    assert_slip_refused("2=>3", 2, 1);
    assert_slip_refused("2=", 2, 1);
    assert_slip_refused("\"=>\"=>1", 2, 4);
    assert_slip_refused("i0=>i0", 2, 2);
    assert_slip_refused("1|2|3|4|5=>1", 2, 9);
}

#[test]
fn bytes_of_the_whole_text() {
    let side = |bytes: usize| quoted(bytes - 2);
    assert_rule_refused(format!("{}=>{}", side(2047), side(2047)), 5, 0);
    assert_rule_refused(format!("{}=>{}", side(2047), side(2048)), 1, 4096);
    assert_rule_refused(format!("1=>{}", "1".repeat(4093)), 5, 3);
    assert_rule_refused(format!("1=>{}", "1".repeat(4094)), 1, 4096);
    assert_rule_refused(format!("1=>{}x", "1".repeat(4092)), 2, 4095);
    assert_rule_refused(format!("{}=>", "1".repeat(4094)), 2, 4096);
    assert_rule_refused(format!("{}=>", "1".repeat(4095)), 1, 4096);
}

#[test]
fn the_longest_rule() {
    let side = vec![times(16, &quoted(15)); 4].join("|");
    let text = format!("{side}=>{side}");
    assert_eq!(text.len(), 2304);
    let fields = vec![vec![string("x".repeat(15)); 16]; 4];
    assert_whole_rule(text, fields.clone(), fields);
}

#[test]
fn numbers_of_fields_and_terms_begin_anew() {
    let (full, over) = (times(16, "1"), times(17, "1"));
    assert_rule_refused("1|2|3|4=>1|2|3|4|5", 3, 17);
    assert_rule_refused("1|2|3|4|5=>1|2|3|4|5", 3, 8);
    assert_rule_refused("1|2|3|4|5=>1", 3, 8);
    assert_rule_refused(format!("{full}=>{over}"), 4, 31 + 2 + 32);
    assert_rule_refused(format!("{over}=>{over}"), 4, 32);
    assert_rule_refused(format!("1=>2|{}", times(17, "empty")), 4, 3 + 2 + 96);
    assert!(read_rule(format!("{full}|1=>1:1|{full}").as_bytes()).is_ok());
}

#[test]
fn sizes_on_the_right() {
    assert_rule_refused("1=>2147483648", 5, 3);
    assert_rule_refused("1=>00000000000", 5, 3);
    assert_rule_refused("1=>-2147483649", 5, 3);
    assert_rule_refused("-1=>-00000000000", 5, 4);
    assert_rule_refused(format!("1=>2:{}", quoted(16)), 5, 5);
    assert_rule_refused("i15=>1|i16", 5, 7);
    assert_rule_refused("i16=>i16", 5, 0);
    assert_whole_rule("1=>007", vec![vec![int(1)]], vec![vec![int(7)]]);
    assert_whole_rule("-1=>-007", vec![vec![int(-1)]], vec![vec![int(-7)]]);
}

#[test]
fn list_variables_of_the_right_may_recur() {
    let accepted = [
        "l0=>l0:l0|l0",
        "l0|l1=>l0:l1:l0|l1:l0",
        "l0=>l0|l0|l0|l0",
        "a0:l15=>l15:a0:l15:a0",
    ];
    for text in accepted {
        assert!(read_rule(text.as_bytes()).is_ok(), "{text}");
    }
    assert_rule_refused("l0:l1=>1", 6, 3);
    assert_rule_refused("l0|l0=>l0", 6, 3);
}

/// A variable is its letter and its number.
#[test]
fn variables_that_the_left_lacks() {
    let table = [
        ("1=>i0", 3),
        ("1=>s0", 3),
        ("1=>a0", 3),
        ("1=>l0", 3),
        ("i0=>a0", 4),
        ("i0=>i1", 4),
        ("i1=>i10", 4),
        ("i10=>i1", 5),
        ("a0=>i0", 4),
        ("l0=>a0", 4),
        ("i0:s1=>i0:s1|i1", 13),
        ("i0:s1=>s0:i1", 7),
        ("i0=>i0:i0|2:l0:l0", 12),
        ("l0=>empty:\"l1\":l1", 15),
        ("\"i0\"=>i0", 6),
    ];
    for (text, place) in table {
        assert_rule_refused(text, 10, place);
    }
    let accepted = ["i0|a0=>a0:i0", "i0:i1=>i1", "l0=>1", "l0:\"m\"=>empty"];
    for text in accepted {
        assert!(read_rule(text.as_bytes()).is_ok(), "{text}");
    }
}

/// Each text has offences of several numbers; the lowest number counts, on
/// whichever side it is.
#[test]
fn order_of_refusals() {
    let over = times(17, "1");
    let table = [
        ("1|2|3|4|5=>(".to_string(), 2, 11),
        (format!("{over}=>"), 2, 35),
        ("i16=>".to_string(), 2, 5),
        ("l0:l0=>i01".to_string(), 2, 9),
        (format!("{over}=>1|2|3|4|5"), 3, 43),
        ("i16=>1|2|3|4|5".to_string(), 3, 13),
        ("l0:l1=>1|2|3|4|5".to_string(), 3, 15),
        ("1=>s0|2|3|4|5".to_string(), 3, 12),
        (format!("i16=>{over}"), 4, 37),
        (format!("l0:l1=>{over}"), 4, 39),
        (format!("1=>s0|{over}"), 4, 38),
        ("l0:l1=>i16".to_string(), 5, 7),
        ("1=>s0:i16".to_string(), 5, 6),
        ("1=>i16".to_string(), 5, 3),
        ("l0:l1=>s1".to_string(), 6, 3),
        ("l0|l0=>l1".to_string(), 6, 3),
    ];
    for (text, number, place) in table {
        assert_rule_refused(text, number, place);
    }
}

#[test]
fn plain_texts() {
    let table = [
        ("1=>2", "1=>2"),
        ("007:empty=>empty:007", "7=>7"),
        ("-007:-0=>-0:-007", "-7:0=>0:-7"),
        ("empty:empty=>empty:empty|empty", "empty=>empty|empty"),
        ("\"=>\"=>\"=>\"", "\"=>\"=>\"=>\""),
        ("l0=>l0:9|empty", "l0=>l0:9|empty"),
        ("i0:s1|a2:l3=>l3:l3:a2|s1:i0", "i0:s1|a2:l3=>l3:l3:a2|s1:i0"),
    ];
    for (text, plain) in table {
        let rule = read_rule(text.as_bytes()).unwrap();
        assert_eq!(show(&plain_rule(&rule)), show(plain.as_bytes()), "{text}");
        assert_eq!(read_rule(plain.as_bytes()), Ok(rule), "{text}");
    }
}

/// What stands before an arrow is read as it is read alone.
#[test]
fn a_side_alone_is_read_as_the_left_of_a_rule() {
    let texts = ["1", "a0:l0", "l0|l0", "i01", "1|2|3|4|5", "", "i16", "emp"];
    for text in texts {
        let alone = read_rule(text.as_bytes());
        let whole = read_rule(format!("{text}=>1").as_bytes());
        match (alone, whole) {
            (Ok(alone), Ok(whole)) => assert_eq!(alone.left, whole.left, "{text}"),
            (Err(alone), Err(whole)) => assert_eq!(alone, whole, "{text}"),
            other => panic!("{text}: {other:?}"),
        }
    }
}
