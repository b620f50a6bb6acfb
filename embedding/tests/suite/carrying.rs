//! Carrying out a rule on a slip: document 02's cases, and the lent bytes.

use std::thread;

use yopobrush::{carried, carry_out, Answer, CarryError, Carrying, Refusal};

fn assert_carried(rule: &str, slip: &str, answer: Answer, text: &str) {
    let found = carried(rule.as_bytes(), slip.as_bytes());
    let expected = (answer, text.as_bytes().to_vec());
    assert_eq!(found, Ok(expected), "{rule} on {slip}");
    let mut room = [7; 5000];
    let found = carry_out(rule.as_bytes(), slip.as_bytes(), &mut room);
    let bytes = text.len();
    assert_eq!(found, Ok(Carrying { answer, bytes }), "{rule} on {slip}");
    assert_eq!(&room[..bytes], text.as_bytes());
    assert!(room[bytes..].iter().all(|&byte| byte == 7));
}

fn assert_error(rule: impl AsRef<[u8]>, slip: impl AsRef<[u8]>, error: CarryError) {
    let (rule, slip) = (rule.as_ref(), slip.as_ref());
    assert_eq!(carried(rule, slip), Err(error));
    assert_eq!(carry_out(rule, slip, &mut [0; 5000]), Err(error));
}

fn times(count: usize, term: &str) -> String {
    vec![term; count].join(":")
}

fn refusal(number: u8, place: usize) -> Refusal {
    Refusal { number, place }
}

#[test]
fn the_right_side_with_the_filling_put_in() {
    let yes = |rule, slip, text| assert_carried(rule, slip, Answer::Yes, text);
    yes("1=>2", "1", "2");
    yes("l0=>l0:9|empty", "empty", "9|empty");
    yes("a0:l0=>l0:a0", "1:2:3", "2:3:1");
    yes("a0:l0=>l0:l0|l0", "1:02:3", "2:3:2:3|2:3");
    yes("i0|s0=>s0:i0", "7|\"m\"", "\"m\":7");
    yes("\"=>\"=>1", "\"=>\"", "1");
}

#[test]
fn a_slip_that_stays_as_it_is() {
    let no = |rule, slip, text| assert_carried(rule, slip, Answer::No, text);
    no("1=>2", "2", "2");
    no("1=>2", "007:empty|empty:empty", "7|empty");
    no("a0:a0=>a0", "1:\"1\"", "1:\"1\"");
    no("1", "1", "1");
    no("l0", "1:2", "1:2");
}

#[test]
fn results_of_64_terms_and_more() {
    let ones = |count| times(count, "1");
    assert_carried("l0=>l0:1", &ones(63), Answer::Yes, &ones(64));
    assert_carried("l0=>l0:1", &times(64, "01"), Answer::TooLong, &ones(64));
    assert_carried("l0=>l0:l0", &ones(32), Answer::Yes, &ones(64));
    assert_carried("l0=>1|l0:l0", &ones(33), Answer::TooLong, &ones(33));
}

#[test]
fn the_longest_text() {
    let field = times(64, "\"fifteen bytes..\"");
    let result = [field.as_str(); 4].join("|");
    assert_eq!(result.len(), 4607);
    assert_carried("l0=>l0|l0|l0|l0", &field, Answer::Yes, &result);
    assert_carried("1=>2", &result, Answer::No, &result);
    let needed = CarryError::TooSmall(4607);
    let mut room = [7; 4606];
    let found = carry_out(b"l0=>l0|l0|l0|l0", field.as_bytes(), &mut room);
    assert_eq!(found, Err(needed));
    assert_eq!(room, [7; 4606]);
}

#[test]
fn every_refusal_of_a_rule() {
    let error = |rule: &str, number, place| {
        assert_error(rule, "1", CarryError::Rule(refusal(number, place)));
    };
    error(&"1".repeat(4097), 1, 4096);
    error("1=>", 2, 3);
    error("1=>1|2|3|4|5", 3, 11);
    error(&format!("1=>{}", times(17, "1")), 4, 35);
    error("1=>i16", 5, 3);
    error("l0:l1=>s1", 6, 3);
    error("i0=>a0", 10, 4);
}

#[test]
fn every_refusal_of_a_slip() {
    let error = |slip: &str, number, place| {
        assert_error("1=>2", slip, CarryError::Slip(refusal(number, place)));
    };
    error(&"1".repeat(8193), 1, 8192);
    error("2=>3", 2, 1);
    error("", 2, 0);
    error("1|2|3|4|5", 3, 8);
    error(&times(65, "1"), 4, 128);
    error("2147483648", 5, 0);
    error("1:l0", 7, 2);
}

#[test]
fn the_refusal_of_the_rule_goes_first() {
    assert_error("1=>", "l0", CarryError::Rule(refusal(2, 3)));
    assert_error("", "", CarryError::Rule(refusal(2, 0)));
    assert_error("1", "", CarryError::Slip(refusal(2, 0)));
    // Also where the slip's text has no room.
    let found = carry_out(b"1=>", b"1:2", &mut [0; 2]);
    assert_eq!(found, Err(CarryError::Rule(refusal(2, 3))));
}

#[test]
fn what_errors_say() {
    let said = |rule: &[u8], slip: &[u8]| match carry_out(rule, slip, &mut []) {
        Ok(_) => String::new(),
        Err(error) => error.to_string(),
    };
    assert_eq!(said(b"i0=>a0", b"1"), "rule refused 10 at 4");
    assert_eq!(said(b"1=>2", b"l0"), "slip refused 7 at 0");
    assert_eq!(said(b"1=>2:3", b"1"), "3 bytes are needed");
    assert_eq!(said(b"1=>2:3", b"4"), "1 bytes are needed");
}

#[test]
fn a_text_takes_as_many_bytes_as_it_has() {
    let table = [
        ("a0:l0=>l0:a0|a0", "1:2:3", Answer::Yes, "2:3:1|1"),
        ("1=>2", "007:\"m\"", Answer::No, "7:\"m\""),
        ("1", "1", Answer::No, "1"),
    ];
    for (rule, slip, answer, text) in table {
        let bytes = text.len();
        for room in 0..bytes + 10 {
            let mut out = vec![7; room];
            let found = carry_out(rule.as_bytes(), slip.as_bytes(), &mut out);
            if room < bytes {
                assert_eq!(found, Err(CarryError::TooSmall(bytes)));
                assert_eq!(out, vec![7; room]);
            } else {
                assert_eq!(found, Ok(Carrying { answer, bytes }));
                assert_eq!(&out[..bytes], text.as_bytes());
                assert_eq!(&out[bytes..], vec![7; room - bytes]);
            }
        }
    }
}

/// A refused rule changes no slip, and the slip with no fields has no bytes.
#[test]
fn the_lent_bytes_where_a_text_is_refused() {
    let mut out = [7; 10];
    assert!(carry_out(b"i0=>a0", b"01:2", &mut out).is_err());
    assert_eq!(&out, b"1:2\x07\x07\x07\x07\x07\x07\x07");
    let mut out = [7; 10];
    assert!(carry_out(b"1=>2", b"l0", &mut out).is_err());
    assert!(carry_out(b"", b"", &mut out).is_err());
    assert_eq!(out, [7; 10]);
    let mut out = [7; 2];
    assert!(carry_out(b"i0=>a0", b"01:2", &mut out).is_err());
    assert_eq!(out, [7; 2]);
}

#[test]
fn nothing_is_lent() {
    assert_eq!(
        carry_out(b"1=>2", b"1", &mut []),
        Err(CarryError::TooSmall(1))
    );
    assert!(carry_out(&[], &[], &mut []).is_err());
}

#[test]
fn a_megabyte_of_stack_is_enough() {
    let field = times(64, "\"fifteen bytes..\"");
    let slip = [field.as_str(); 4].join("|");
    let carry = move || carried(b"l0|l1|l2|l3=>l3|l2|l1|l0", slip.as_bytes());
    let thread = thread::Builder::new().stack_size(1 << 20);
    let (answer, text) = thread.spawn(carry).unwrap().join().unwrap().unwrap();
    assert_eq!((answer, text.len()), (Answer::Yes, 4607));
}
