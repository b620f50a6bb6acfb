use std::env;
use std::ffi::OsString;
use std::fs;
use std::io::{self, BufRead, BufWriter, Write};
use std::path::Path;
use std::process::ExitCode;

use reference::answers::{
    book_answer, carry_answer, matches_answer, pairs_answer, solve_answer, texts_answer,
};
use reference::draw::Draw;
use reference::generate::{
    any_line,
    books::any_book,
    carries::carry_line,
    matches::match_line,
    pairs::pair_line,
    searches::search_line,
    wide::{clashing_book, overlapping_book},
};

const USAGE: &str = "usage: reference read | match | carry | pairs | solve | book
       reference generate | generate-matches | generate-carry | generate-pairs
                 | generate-solve SEED COUNT
       reference generate-books SEED COUNT FOLDER
       reference generate-wide-book overlapping | clashing
  read       read each line of standard input as a rule and as a slip
  match      match the rule with the slip behind the tab, line by line
  carry      carry the rule out on the slip behind the tab, line by line
  pairs      list the overlaps of the rules on either side of the tab
  solve      search for what makes the fields on either side of the tab equal
  book       list which rules overlap, of one rule a line
  generate   write COUNT lines for `read`, the same for the same SEED
  generate-matches, generate-carry, generate-pairs, generate-solve
             write lines for `match`, `carry`, `pairs`, `solve`
  generate-books
             write COUNT inputs for `book` into files 1, 2, .. of FOLDER
  generate-wide-book
             write an input for `book` that has the most choices, with overlaps
             in all pairs or in none";

/// What a program prints for a line, given the line's number from 1.
type Answer = fn(usize, &[u8]) -> Vec<u8>;

/// Draws a line without its newline.
type AnyLine = fn(&mut Draw) -> Vec<u8>;

/// Whether the last generated line always has its newline.
enum Ending {
    Closed,
    SometimesOpen,
}

fn main() -> ExitCode {
    let arguments: Vec<OsString> = env::args_os().skip(1).collect();
    match arguments.as_slice() {
        [command] if command == "read" => answer(texts_answer),
        [command] if command == "match" => answer(matches_answer),
        [command] if command == "carry" => answer(carry_answer),
        [command] if command == "pairs" => answer(pairs_answer),
        [command] if command == "solve" => answer(solve_answer),
        [command] if command == "book" => status(book_answer(io::stdin().lock()).and_then(print)),
        [command, numbers @ ..] if command == "generate" => {
            generate(numbers, any_line, Ending::Closed)
        }
        [command, numbers @ ..] if command == "generate-matches" => {
            generate(numbers, match_line, Ending::SometimesOpen)
        }
        [command, numbers @ ..] if command == "generate-carry" => {
            generate(numbers, carry_line, Ending::SometimesOpen)
        }
        [command, numbers @ ..] if command == "generate-pairs" => {
            generate(numbers, pair_line, Ending::SometimesOpen)
        }
        [command, numbers @ ..] if command == "generate-solve" => {
            generate(numbers, search_line, Ending::SometimesOpen)
        }
        [command, seed, count, folder] if command == "generate-books" => {
            generate_books(seed, count, folder)
        }
        [command, kind] if command == "generate-wide-book" => match kind.to_str() {
            Some("overlapping") => status(print(overlapping_book())),
            Some("clashing") => status(print(clashing_book())),
            _ => misused(),
        },
        _ => misused(),
    }
}

fn misused() -> ExitCode {
    complain(USAGE);
    ExitCode::from(2)
}

fn answer(answer: Answer) -> ExitCode {
    let output = BufWriter::new(io::stdout().lock());
    status(answer_lines(answer, io::stdin().lock(), output))
}

fn generate(numbers: &[OsString], line: AnyLine, ending: Ending) -> ExitCode {
    let numbers: Option<Vec<u64>> = numbers.iter().map(number).collect();
    match numbers.as_deref() {
        Some(&[seed, count]) => {
            let output = BufWriter::new(io::stdout().lock());
            status(write_lines(line, seed, count, ending, output))
        }
        _ => misused(),
    }
}

fn generate_books(seed: &OsString, count: &OsString, folder: &OsString) -> ExitCode {
    match (number(seed), number(count)) {
        (Some(seed), Some(count)) => status(write_books(seed, count, Path::new(folder))),
        _ => misused(),
    }
}

fn number(argument: &OsString) -> Option<u64> {
    argument.to_str()?.parse().ok()
}

fn status(result: io::Result<()>) -> ExitCode {
    match result {
        Ok(()) => ExitCode::SUCCESS,
        Err(error) => {
            complain(&format!("reference: {error}"));
            ExitCode::FAILURE
        }
    }
}

/// Unlike `eprintln`, does not panic where standard error is closed.
fn complain(message: &str) {
    let _ = writeln!(io::stderr(), "{message}");
}

fn answer_lines(answer: Answer, mut input: impl BufRead, mut output: impl Write) -> io::Result<()> {
    let mut line = Vec::new();
    let mut number = 0;
    while input.read_until(b'\n', &mut line)? > 0 {
        number += 1;
        // The last newline may be missing.
        let text = line.strip_suffix(b"\n").unwrap_or(&line);
        output.write_all(&answer(number, text))?;
        line.clear();
    }
    output.flush()
}

fn print(text: Vec<u8>) -> io::Result<()> {
    let mut output = io::stdout().lock();
    output.write_all(&text)?;
    output.flush()
}

fn write_lines(
    line: AnyLine,
    seed: u64,
    count: u64,
    ending: Ending,
    mut output: impl Write,
) -> io::Result<()> {
    let mut draw = Draw::new(seed);
    for index in 0..count {
        output.write_all(&line(&mut draw))?;
        let last = index + 1 == count;
        if !(last && matches!(ending, Ending::SometimesOpen) && draw.one_in(4)) {
            output.write_all(b"\n")?;
        }
    }
    output.flush()
}

/// A file for each book, since every byte can be in one.
fn write_books(seed: u64, count: u64, folder: &Path) -> io::Result<()> {
    fs::create_dir_all(folder)?;
    let mut draw = Draw::new(seed);
    for number in 1..=count {
        fs::write(folder.join(number.to_string()), any_book(&mut draw))?;
    }
    Ok(())
}
