//! The program as it is run.

use std::io::Write;
use std::process::{self, Command, Output, Stdio};
use std::{env, fs, thread};

use reference::generate::wide::{clashing_book, overlapping_book};

use crate::support::{lines_of, Draw};

fn run(arguments: &[&str], input: &[u8]) -> Output {
    let mut child = Command::new(env!("CARGO_BIN_EXE_reference"))
        .args(arguments)
        .stdin(Stdio::piped())
        .stdout(Stdio::piped())
        .stderr(Stdio::piped())
        .spawn()
        .unwrap();
    let mut pipe = child.stdin.take().unwrap();
    let input = input.to_vec();
    // Written beside the reading, or two full pipes would wait for each other.
    // The program may end without reading, so an error here means nothing.
    let writer = thread::spawn(move || drop(pipe.write_all(&input)));
    let output = child.wait_with_output().unwrap();
    writer.join().unwrap();
    output
}

fn answer(command: &str, input: &[u8]) -> String {
    let output = run(&[command], input);
    assert_eq!(output.status.code(), Some(0));
    assert!(output.stderr.is_empty());
    String::from_utf8(output.stdout).unwrap()
}

fn read(input: &[u8]) -> String {
    answer("read", input)
}

fn count_lines(input: &[u8]) -> usize {
    lines_of(input).len()
}

#[test]
fn prints_a_rule_and_a_slip_for_each_line() {
    let input = b"a0:l0\n007:empty|\"m\"\n-007:-0\n1:-\nemp\nl0|l0\ni16\nl0=>01:l0\ni0=>a0\n";
    let expected = "\
rule a0:l0
slip refused 7 at 0
rule 7|\"m\"
slip read
rule -7:0
slip read
rule refused 2 at 3
slip refused 2 at 3
rule refused 2 at 3
slip refused 2 at 3
rule refused 6 at 3
slip refused 7 at 0
rule refused 5 at 0
slip refused 5 at 0
rule l0=>1:l0
slip refused 2 at 2
rule refused 10 at 4
slip refused 2 at 2
";
    assert_eq!(read(input), expected);
}

#[test]
fn the_last_newline_may_be_missing() {
    assert_eq!(read(b""), "");
    assert_eq!(read(b"1"), "rule 1\nslip read\n");
    assert_eq!(read(b"1\n"), "rule 1\nslip read\n");
    let empty_line = "rule refused 2 at 0\nslip refused 2 at 0\n";
    assert_eq!(read(b"\n"), empty_line);
    assert_eq!(read(b"1\n\n"), format!("rule 1\nslip read\n{empty_line}"));
    assert_eq!(read(b"1\r\n"), "rule refused 2 at 1\nslip refused 2 at 1\n");
}

#[test]
fn long_lines() {
    let mut input = vec![b'x'; 1_000_000];
    input.extend(b"\n1");
    let expected = "rule refused 1 at 4096\nslip refused 1 at 8192\nrule 1\nslip read\n";
    assert_eq!(read(&input), expected);
}

#[test]
fn any_bytes_are_answered() {
    let mut draw = Draw::new(6);
    let input: Vec<u8> = (0..500_000).map(|_| draw.below(256) as u8).collect();
    assert_eq!(read(&input).lines().count(), 2 * count_lines(&input));
    let matches = answer("match", &input);
    assert_eq!(matches.lines().count(), 2 * count_lines(&input));
    let carried = answer("carry", &input);
    assert_eq!(carried.lines().count(), 2 * count_lines(&input));
    let pairs = answer("pairs", &input);
    let numbered = pairs.lines().filter(|line| line.starts_with("pair "));
    assert_eq!(numbered.count(), count_lines(&input));
    let searches = answer("solve", &input);
    assert_eq!(searches.lines().count(), 2 * count_lines(&input));
}

#[test]
fn matches_are_numbered() {
    assert_eq!(answer("match", b""), "");
    let one = "match 1\nyes 1 a0=1 l0=empty\n";
    assert_eq!(answer("match", b"a0:l0\t1"), one);
    assert_eq!(answer("match", b"a0:l0\t1\n"), one);
    let input = b"1\t1\n\n\t\n1\n1\t2\n1\t\n1\t2\t";
    let expected = "\
match 1
yes 1
match 2
refused rule 2 at 0
match 3
refused rule 2 at 0
match 4
refused slip 2 at 0
match 5
no 1
match 6
refused slip 2 at 0
match 7
refused slip 2 at 1
";
    assert_eq!(answer("match", input), expected);
}

#[test]
fn carryings_are_numbered() {
    assert_eq!(answer("carry", b""), "");
    let one = "carry 1\nyes 2:1\n";
    assert_eq!(answer("carry", b"a0:l0=>l0:a0\t1:2"), one);
    assert_eq!(answer("carry", b"a0:l0=>l0:a0\t1:2\n"), one);
    let input = b"1=>2\t01\n\n\t\n1=>2\n1=>2\t2:03\n1\t1\n1=>i0\t\n1=>2\t2=>3\n1=>2\t1\t";
    let expected = "\
carry 1
yes 2
carry 2
refused rule 2 at 0
carry 3
refused rule 2 at 0
carry 4
refused slip 2 at 0
carry 5
no 2:3
carry 6
no 1
carry 7
refused rule 10 at 3
carry 8
refused slip 2 at 1
carry 9
refused slip 2 at 1
";
    assert_eq!(answer("carry", input), expected);
}

#[test]
fn the_pairs_of_document_01_whole() {
    let expected = "\
pair 1
2 <a0=2 <l0=empty >l0=empty
a0:l0:2 <a0=a0 <l0=l0:2 >l0=a0:l0
pair 2
";
    assert_eq!(answer("pairs", b"a0:l0\tl0:2\ni0\ts0\n"), expected);
    assert_eq!(answer("pairs", b"a0:l0\tl0:2\ni0\ts0"), expected);
}

#[test]
fn pairs_are_numbered() {
    assert_eq!(answer("pairs", b""), "");
    let input = b"1\t1\n\n\t\n1\n1\t2\n1\t1\t\nl0:l1\tl0:l1";
    let expected = "\
pair 1
1
pair 2
refused left 2 at 0
pair 3
refused left 2 at 0
pair 4
refused right 2 at 0
pair 5
pair 6
refused right 2 at 1
pair 7
refused left 6 at 3
";
    assert_eq!(answer("pairs", input), expected);
}

#[test]
fn searches_are_numbered() {
    assert_eq!(answer("solve", b""), "");
    let one = "search 1\nrefusal 0 lines 1 bytes 16\n<i0=2 >l0=empty\n";
    assert_eq!(answer("solve", b"i0\t2:l0"), one);
    assert_eq!(answer("solve", b"i0\t2:l0\n"), one);
    let input = b"1\t1\t1\n\n1\t1\t2\n1\t1\tx\n1\t2\n1\t1\t-\t1";
    let expected = "\
search 1
refusal 9 lines 0 bytes 0
search 2
refusal 0 lines 0 bytes 0
search 3
refusal 0 lines 2 bytes 2


search 4
bad row
search 5
refusal 0 lines 0 bytes 0
search 6
refusal 8 lines 2 bytes 2
";
    assert_eq!(answer("solve", input), expected);
}

#[test]
fn the_book_of_document_02_whole() {
    assert_eq!(answer("book", b"i0\ns0\na0\n"), "1 3\n2 3\n");
    assert_eq!(answer("book", b"i0\ns0\na0"), "1 3\n2 3\n");
    assert_eq!(answer("book", b""), "");
    assert_eq!(answer("book", b"l0\n\nl0\n"), "refused 2 2 at 0\n");
    assert_eq!(answer("book", &b"l0\n".repeat(18)), "refused 17 12 at 0\n");
    assert_eq!(answer("book", &[b'1'; 1_000_000]), "refused 1 1 at 4096\n");
}

const GENERATORS: [&str; 5] = [
    "generate",
    "generate-matches",
    "generate-carry",
    "generate-pairs",
    "generate-solve",
];

fn generate(command: &str, seed: &str, count: &str) -> Vec<u8> {
    run(&[command, seed, count], b"").stdout
}

#[test]
fn generated_lines_are_those_of_the_seed() {
    for command in GENERATORS {
        let lines = generate(command, "7", "1000");
        assert!(count_lines(&lines) >= 999);
        assert_eq!(lines, generate(command, "7", "1000"));
        assert_ne!(lines, generate(command, "8", "1000"));
        assert!(lines.starts_with(&generate(command, "7", "10")));
        assert!(generate(command, "0", "0").is_empty());
    }
}

#[test]
fn some_generated_sets_end_without_a_newline() {
    let seeds: Vec<String> = (0..20).map(|seed| seed.to_string()).collect();
    for command in GENERATORS {
        let closed = |seed: &&String| generate(command, seed, "20").ends_with(b"\n");
        let count = seeds.iter().filter(closed).count();
        let always = command == "generate";
        assert_eq!(count == seeds.len(), always, "{command}: {count}");
        assert!(count > 0);
    }
}

/// The files of a folder of its own, in the order of their numbers.
fn generate_books(seed: &str, count: usize) -> Vec<Vec<u8>> {
    let name = format!("books-{}-{seed}-{count}", process::id());
    let folder = env::temp_dir().join(name);
    let path = folder.to_str().unwrap();
    let output = run(&["generate-books", seed, &count.to_string(), path], b"");
    assert_eq!(output.status.code(), Some(0));
    assert!(output.stdout.is_empty());
    assert_eq!(fs::read_dir(&folder).unwrap().count(), count);
    let book = |number: usize| fs::read(folder.join(number.to_string())).unwrap();
    let books = (1..=count).map(book).collect();
    fs::remove_dir_all(&folder).unwrap();
    books
}

#[test]
fn generated_books_are_those_of_the_seed() {
    let books = generate_books("7", 50);
    assert!(books.iter().any(|book| book.ends_with(b"\n")));
    assert!(books.iter().any(|book| !book.ends_with(b"\n")));
    assert_eq!(books[..20], generate_books("7", 20));
    assert_ne!(books[..20], generate_books("8", 20));
    assert!(generate_books("7", 0).is_empty());
}

#[test]
fn wide_books_are_written_whole() {
    let book = |kind| run(&["generate-wide-book", kind], b"").stdout;
    assert_eq!(book("overlapping"), overlapping_book());
    assert_eq!(book("clashing"), clashing_book());
}

#[test]
fn other_commands_are_refused() {
    let misuses = [
        &[][..],
        &["write"],
        &["read", "read"],
        &[""],
        &["--help"],
        &["generate"],
        &["generate", "1"],
        &["generate", "1", "2", "3"],
        &["generate", "one", "2"],
        &["generate", "1", "-2"],
        &["match", "1"],
        &["matches"],
        &["generate-matches"],
        &["generate-matches", "1"],
        &["generate-matches", "1", "two"],
        &["carry", "1"],
        &["generate-carry"],
        &["generate-carry", "1"],
        &["pairs", "1"],
        &["generate-pairs"],
        &["generate-pairs", "1", "2", "3"],
        &["solve", "1"],
        &["generate-solve", "1"],
        &["book", "1"],
        &["generate-books", "1", "2"],
        &["generate-books", "1", "two", "folder"],
        &["generate-books", "1", "2", "folder", "3"],
        &["generate-wide-book"],
        &["generate-wide-book", "1"],
        &["generate-wide-book", "clashing", "overlapping"],
    ];
    for arguments in misuses {
        let output = run(arguments, b"1\n");
        assert_eq!(output.status.code(), Some(2), "{arguments:?}");
        assert!(output.stdout.is_empty());
        assert!(output.stderr.starts_with(b"usage: "));
    }
}
