use reference::reading::{read_rule, read_slip};
use reference::terms::{Field, Rule, Slip};
use reference::writing::{plain_field, plain_fields, plain_rule, plain_slip};

use crate::support::*;

#[test]
fn plain_texts_of_rules() {
    let table = [
        ("1", "1"),
        ("007", "7"),
        ("0000000000", "0"),
        ("2147483647", "2147483647"),
        ("-007", "-7"),
        ("-0", "0"),
        ("-0000000000", "0"),
        ("-2147483648", "-2147483648"),
        ("\"-0\"", "\"-0\""),
        ("empty", "empty"),
        ("empty:empty", "empty"),
        ("empty:1", "1"),
        ("1:empty", "1"),
        ("1:empty:02", "1:2"),
        ("empty|empty:empty|01", "empty|empty|1"),
        ("\"\"", "\"\""),
        ("\"007\"", "\"007\""),
        ("\"empty\"", "\"empty\""),
        ("\" :| \"|l15:a0", "\" :| \"|l15:a0"),
        ("i0:s1:a2:l3", "i0:s1:a2:l3"),
    ];
    for (text, plain) in table {
        let rule = read_rule(text.as_bytes()).unwrap();
        assert_eq!(show(&plain_rule(&rule)), show(plain.as_bytes()), "{text}");
        assert_eq!(read_rule(plain.as_bytes()), Ok(rule), "{text}");
    }
}

#[test]
fn plain_texts_of_slips() {
    let table = [
        ("007:empty|\"m\"", "7|\"m\"".to_string()),
        ("-007:-0|\"-\"", "-7:0|\"-\"".to_string()),
        ("-12|-3", "-12|-3".to_string()),
        ("empty", "empty".to_string()),
        (&times(64, "-00"), times(64, "0")),
        (&times(64, "00"), times(64, "0")),
        (&times(64, "empty"), "empty".to_string()),
    ];
    for (text, plain) in table {
        let slip = read_slip(text.as_bytes()).unwrap();
        assert_eq!(show(&plain_slip(&slip)), show(plain.as_bytes()), "{text}");
        assert_eq!(read_slip(plain.as_bytes()), Ok(slip), "{text}");
    }
}

#[test]
fn plain_texts_of_fields() {
    assert_eq!(plain_field(&[]), b"empty");
    assert_eq!(plain_field(&[int(0)]), b"0");
    assert_eq!(plain_field(&[int(-2), int(0), int(2)]), b"-2:0:2");
    assert_eq!(
        plain_field(&[int(1), string(":"), var(b'l', 3)]),
        b"1:\":\":l3"
    );
    // An entry's fields go beyond the limits of a rule.
    assert_eq!(plain_field(&[var(b'a', 31)]), b"a31");
    let long = vec![int(1); 31];
    assert_eq!(plain_field(&long), times(31, "1").as_bytes());
    assert_eq!(plain_fields(&[long, vec![]]).len(), 61 + 6);
    assert_eq!(plain_fields(&[]), b"");
}

/// Fields that neither a rule nor a slip can have.
fn unreadable() -> Vec<Vec<Field>> {
    vec![
        vec![],
        vec![vec![]; 5],
        vec![vec![int(1); 65]],
        vec![vec![int(2147483648)]],
        vec![vec![int(i64::from(u32::MAX))]],
        vec![vec![int(-2147483649)]],
        vec![vec![int(i64::MIN)]],
        vec![vec![int(i64::MAX)]],
        vec![vec![string("x".repeat(16))]],
        vec![vec![string("\"")]],
        vec![vec![string("\":\"")]],
        vec![vec![string("\"|\"")]],
        vec![vec![string([31])]],
        vec![vec![string([127])]],
        vec![vec![string([255])]],
        vec![vec![var(b'a', 16)]],
        vec![vec![var(b'l', 0), var(b'l', 1)]],
        vec![vec![var(b'l', 0)], vec![var(b'l', 0)]],
    ]
}

#[test]
fn a_value_that_no_reading_returns_gives_no_bytes() {
    for fields in unreadable() {
        assert_eq!(plain_rule(&Rule::of(fields.clone())), b"", "{fields:?}");
        assert_eq!(plain_slip(&Slip(fields.clone())), b"", "{fields:?}");
    }
    // A good left side and a right one that reading does not return.
    let over = vec![vec![int(1); 17]];
    let unknown = vec![vec![var(b'i', 0)]];
    for right in [vec![], vec![vec![]; 5], over, unknown] {
        let rule = Rule {
            left: vec![vec![var(b'a', 0)]],
            right: Some(right),
        };
        assert_eq!(plain_rule(&rule), b"", "{rule:?}");
    }
    let seventeen = vec![vec![int(1); 17]];
    assert_eq!(plain_rule(&Rule::of(seventeen.clone())), b"");
    assert_eq!(plain_slip(&Slip(seventeen)), times(17, "1").as_bytes());
    let variable = vec![vec![var(b'i', 0)]];
    assert_eq!(plain_rule(&Rule::of(variable.clone())), b"i0");
    assert_eq!(plain_slip(&Slip(variable)), b"");
}
