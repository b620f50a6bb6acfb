//! Programs in C, over `yopobrush.h`, built by the compiler that Rust links
//! with.

use std::env;
use std::path::{Path, PathBuf};
use std::process::Command;

use yopobrush::overlaps;

use crate::memory::deepest;

/// The status, standard output and standard error of a program.
type Said = (Option<i32>, Vec<u8>, Vec<u8>);

fn library() -> PathBuf {
    let folder = match env::var_os("YOPOBRUSH_LIB_DIR") {
        Some(folder) => PathBuf::from(folder),
        None => Path::new(env!("CARGO_MANIFEST_DIR")).join("../target/staticlib"),
    };
    folder.join("libyopobrush.a")
}

fn built(name: &str) -> PathBuf {
    let here = Path::new(env!("CARGO_MANIFEST_DIR"));
    let program = Path::new(env!("CARGO_TARGET_TMPDIR")).join(name);
    let status = Command::new("cc")
        .args(["-std=c99", "-Wall", "-Wextra", "-Werror", "-pedantic", "-I"])
        .arg(here)
        .arg(here.join(format!("examples/{name}.c")))
        .arg(library())
        .arg("-o")
        .arg(&program)
        .status();
    assert!(status.unwrap().success());
    program
}

fn said(program: &Path, texts: &[&str]) -> Said {
    let output = Command::new(program).args(texts).output().unwrap();
    (output.status.code(), output.stdout, output.stderr)
}

fn prints(text: &str) -> Said {
    (Some(0), text.as_bytes().to_vec(), Vec::new())
}

fn complains(text: &str) -> Said {
    (Some(1), Vec::new(), text.as_bytes().to_vec())
}

#[test]
fn overlaps_from_c() {
    let program = built("overlaps");
    let said = |left, right| said(&program, &[left, right]);
    let list = "2 <a0=2 <l0=empty >l0=empty\na0:l0:2 <a0=a0 <l0=l0:2 >l0=a0:l0\n";
    assert_eq!(said("a0:l0", "l0:2"), prints(list));
    assert_eq!(said("i0", "s0"), prints(""));
    let left = complains("left rule refused 2 at 2\n");
    assert_eq!(said("i01", "l0:l1"), left);
    let right = complains("right rule refused 6 at 3\n");
    assert_eq!(said("1", "l0:l1"), right);
    let (left, right, list) = long_list();
    let needed = format!("{} bytes are needed\n", list.len());
    assert_eq!(said(&left, &right), complains(&needed));
}

/// Two rules whose list has more than the 65,536 bytes that `overlaps` lends.
fn long_list() -> (String, String, String) {
    let (left, right) = deepest(3);
    let list = overlaps(&left, &right).unwrap();
    let text = |bytes| String::from_utf8(bytes).unwrap();
    (text(left), text(right), text(list))
}

#[test]
fn asking_first_from_c() {
    let program = built("ask");
    let said = |left, right| said(&program, &[left, right]);
    let list = "2 <a0=2 <l0=empty >l0=empty\na0:l0:2 <a0=a0 <l0=l0:2 >l0=a0:l0\n";
    let sized = format!("2 entries, 62 bytes\n{list}");
    assert_eq!(said("a0:l0", "l0:2"), prints(&sized));
    let (left, right, list) = long_list();
    let sized = format!("4096 entries, {} bytes\n{list}", list.len());
    assert!(said(&left, &right) == prints(&sized), "a long list");
    assert_eq!(said("i0", "s0"), prints("0 entries, 0 bytes\n"));
    let left = complains("left rule refused 2 at 2\n");
    assert_eq!(said("i01", "l0:l1"), left);
    let right = complains("right rule refused 6 at 3\n");
    assert_eq!(said("1", "l0:l1"), right);
}

#[test]
fn overlapping_pairs_from_c() {
    let program = built("book");
    let said = |rules: &[&str]| said(&program, rules);
    assert_eq!(said(&["i0", "s0", "a0"]), prints("1 3\n2 3\n"));
    assert_eq!(
        said(&["a0=>1", "i0", "\"m\"", "l0"]),
        prints("1 2\n1 3\n1 4\n2 4\n3 4\n")
    );
    assert_eq!(said(&["i0", "s0"]), prints(""));
    let refused = complains("rule 2 refused 2 at 2\n");
    assert_eq!(said(&["a0", "i01", "l0:l1"]), refused);
}

#[test]
fn carrying_out_from_c() {
    let program = built("carry");
    let said = |rule: &str, slip: &str| said(&program, &[rule, slip]);
    assert_eq!(said("a0:l0=>l0:a0", "1:2:3"), prints("yes 2:3:1\n"));
    assert_eq!(said("1=>2", "007"), prints("no 7\n"));
    let ones = vec!["1"; 64].join(":");
    let too_long = format!("refusal 11 {ones}\n");
    assert_eq!(said("l0=>l0:1", &ones), prints(&too_long));
    let rule = complains("rule refused 10 at 4\n");
    assert_eq!(said("i0=>a0", "l0"), rule);
    let slip = complains("slip refused 7 at 0\n");
    assert_eq!(said("1=>2", "l0"), slip);
}
