//! What `solve` answers for a line.

use reference::answers::solve_answer;

use crate::support::*;

fn answer(line: impl AsRef<[u8]>) -> String {
    let text = String::from_utf8(solve_answer(7, line.as_ref())).unwrap();
    text.strip_prefix("search 7\n").unwrap().to_string()
}

/// The lines of a search that is not refused.
fn assert_search(line: &str, lines: &[&str]) {
    let text: String = lines.iter().map(|line| format!("{line}\n")).collect();
    let counts = format!("refusal 0 lines {} bytes {}\n", lines.len(), text.len());
    assert_eq!(answer(line), counts + &text, "{line}");
}

const NOT_FIELDS: &str = "refusal 0 lines 0 bytes 0\n";
const NO_RECORD: &str = "refusal 9 lines 0 bytes 0\n";

/// Document 001, Figure 8, with repeats.
const FIGURE_8: [&str; 5] = [
    "<l0=a0 >a0=a0 >l0=2",
    "<l0=a0:l0 >a0=a0 >l0=l0:2",
    "<l0=empty >a0=2 >l0=empty",
    "<l0=a0:l0 >a0=a0 >l0=l0:2",
    "<l0=a0 >a0=a0 >l0=2",
];

#[test]
fn figure_8() {
    assert_search("l0:2\ta0:l0", &FIGURE_8);
    assert_search("l0:2\ta0:l0\t7", &FIGURE_8);
    assert_eq!(answer("l0:2\ta0:l0\t6"), NO_RECORD);
}

#[test]
fn the_pairs_of_document_01() {
    assert_search(
        "a0:l0\tl0:2",
        &[
            "<a0=a0 <l0=2 >l0=a0",
            "<a0=a0 <l0=l0:2 >l0=a0:l0",
            "<a0=2 <l0=empty >l0=empty",
            "<a0=a0 <l0=l0:2 >l0=a0:l0",
            "<a0=a0 <l0=2 >l0=a0",
        ],
    );
    assert_search("l0\tl0", &["<l0=l0 >l0=l0"]);
    assert_search("empty\tempty", &[""]);
    assert_search("i0\t2:l0", &["<i0=2 >l0=empty"]);
    assert_search("i0\ts0", &[]);
    assert_search(
        "1:2:l0\tl0:2:3",
        &[
            "<l0=3 >l0=1",
            "<l0=2:3 >l0=1:2",
            "<l0=l0:2:3 >l0=1:2:l0",
            "<l0=3 >l0=1",
            "<l0=l0:2:3 >l0=1:2:l0",
            "<l0=2:3 >l0=1:2",
        ],
    );
    assert_search("a0:a0\ti0:l0", &["<a0=i0 >i0=i0 >l0=i0"]);
    assert_search("a0:a0\t1:\"1\"", &[]);
}

#[test]
fn minus_amounts() {
    assert_search("i0\t-2:l0", &["<i0=-2 >l0=empty"]);
    assert_search("a0:a0\t-1:1", &[]);
    assert_search("-7\t7", &[]);
    assert_search("-7\t\"-7\"", &[]);
    assert_search("-007\t-7", &["", ""]);
    assert_search("-0\t0", &["", ""]);
    let lines = FIGURE_8.map(|line| line.replace('2', "-2"));
    assert_search("l0:-2\ta0:l0", &lines.each_ref().map(String::as_str));
    assert_search("-2147483648\ti0", &[">i0=-2147483648"]);
    assert_eq!(answer("-2147483649\ti0"), NOT_FIELDS);
    assert_eq!(answer("i0\t-"), NOT_FIELDS);
    // Only where a field stands is it a sign.
    assert_search("-1\t-1\t-\t-", &["", ""]);
    assert_eq!(answer("-1\t-1\t-1"), "bad row\n");
}

/// Remove and Decomp3 both apply to equal constants.
#[test]
fn repeats_stay() {
    for count in 0..=16 {
        let constants = if count == 0 {
            "empty".to_string()
        } else {
            times(count, "1")
        };
        let line = format!("{constants}\t{constants}");
        assert_search(&line, &vec![""; count + 1]);
    }
    assert_search(
        "a0:a0:l0\ti0:i0",
        &["<a0=i0 <l0=empty >i0=i0", "<a0=i0 <l0=empty >i0=i0"],
    );
}

/// Each type from 0, in the values only and by the line's order.
#[test]
fn variables_are_renumbered() {
    assert_search("a7\ta7", &["<a7=a0 >a7=a0"]);
    assert_search(
        "s9:a3:l5\ta8:a9:l7",
        &["<s9=s0 <a3=a0 <l5=l0 >a8=s0 >a9=a0 >l7=l0"],
    );
    assert_search("i5:s5\ti7:s7", &["<i5=i0 <s5=s0 >i7=i0 >s7=s0"]);
    assert_search("i0:a0\ta0:i0", &["<i0=i0 <a0=i1 >i0=i1 >a0=i0"]);
}

#[test]
fn the_least_rows() {
    for (fields, row) in [
        ("l0\tl0", 1),
        ("2\t2", 2),
        ("i0\ts0", 1),
        ("l0:2\ta0:l0", 7),
        ("a0:l0\tl0:2", 7),
    ] {
        for size in 0..10 {
            let refused = answer(format!("{fields}\t{size}")) == NO_RECORD;
            assert_eq!(refused, size < row, "{fields} {size}");
        }
    }
}

#[test]
fn the_least_rooms() {
    let bytes = FIGURE_8.iter().map(|line| line.len() + 1).sum::<usize>();
    assert_eq!(bytes, 118);
    assert_search("l0:2\ta0:l0\t-\t118", &FIGURE_8);
    let refused = "refusal 8 lines 5 bytes 118\n";
    for room in [0, 1, 117] {
        assert_eq!(answer(format!("l0:2\ta0:l0\t640\t{room}")), refused);
    }
    // 9 is tried before 8.
    assert_eq!(answer("l0:2\ta0:l0\t6\t117"), NO_RECORD);
    assert_eq!(answer("1\t1\t2\t1"), "refusal 8 lines 2 bytes 2\n");
    assert_search("1\t2\t1\t0", &[]);
}

#[test]
fn what_is_no_field_has_no_lines() {
    for line in [
        "",
        "1",
        "\t",
        "1\t",
        "\t1",
        "1|1\t1",
        "1\t1|1",
        "1|1\t1|1",
        "i01\t1",
        "l0:l1\tl0",
        "16:\t1",
        "1\tx\t0",
        "1\tx\t0\t0",
        "1|1\t1|1\t0\t0",
        "1=>1\t1",
        "1\tl0=>l0",
        "1=>1\t1=>1\t0",
        "1=>i0\t1",
        "1=\t1",
    ] {
        assert_eq!(answer(line), NOT_FIELDS, "{line}");
    }
    assert_eq!(answer("1\t1\t0"), NO_RECORD);
    assert_eq!(answer("1\t2\t0\t0"), NO_RECORD);
    assert_search("007\t7", &["", ""]);
    assert_search("empty:1:empty\t01", &["", ""]);
}

#[test]
fn sizes() {
    for size in ["", "2", "-", "640", "002", "0000000000000000000000002"] {
        assert_search(&format!("1\t1\t{size}"), &["", ""]);
        assert_search(&format!("1\t1\t{size}\t-"), &["", ""]);
        assert_search(&format!("1\t1\t-\t{size}"), &["", ""]);
    }
    assert_search("1\t1\t-\t131072", &["", ""]);
    for size in ["641", "x", "--", "-1", "+2", " 2", "2 ", "2x", "2.0"] {
        assert_eq!(answer(format!("1\t1\t{size}")), "bad row\n", "{size}");
        assert_eq!(answer(format!("\t\t{size}\t{size}")), "bad row\n", "{size}");
        if size != "641" {
            assert_eq!(answer(format!("1\t1\t2\t{size}")), "bad room\n", "{size}");
            assert_eq!(answer(format!("1\t1\t0\t{size}")), "bad room\n", "{size}");
        }
    }
    let beyond = ["131073", "4294967298", "18446744073709551618"];
    for size in beyond {
        assert_eq!(answer(format!("1\t1\t2\t{size}")), "bad room\n");
        assert_eq!(answer(format!("1\t1\t{size}\t2")), "bad row\n");
    }
}

#[test]
fn more_than_four_parts() {
    assert_eq!(answer("1\t1\t2\t2\t"), "bad line\n");
    assert_eq!(answer("1\t1\tx\tx\tx"), "bad line\n");
    assert_eq!(answer("\t\t\t\t"), "bad line\n");
}

#[test]
fn long_lines() {
    let zeros = |count| format!("1\t1\t{}2", "0".repeat(count));
    assert_eq!(zeros(8199).len(), 8204);
    assert_search(&zeros(8199), &["", ""]);
    assert_eq!(answer(zeros(8200)), "line too long\n");
    assert_eq!(answer("\t".repeat(8205)), "line too long\n");
    // The longest texts, and the largest sizes.
    let rule = "1".repeat(4096);
    let line = format!("{rule}\t{rule}\t640\t131072");
    assert_eq!(line.len(), 8204);
    assert_eq!(answer(&line), NOT_FIELDS);
    assert_eq!(answer(line + "\t"), "line too long\n");
}
