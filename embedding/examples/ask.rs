//! Asks for the size of the overlap list of the two rules that are given, takes
//! as much memory as it needs, and then lists them.

use std::env;
use std::io::{self, Write};

fn main() -> Result<(), Box<dyn std::error::Error>> {
    let arguments: Vec<String> = env::args().skip(1).collect();
    let [left, right] = arguments.as_slice() else {
        return Err("two rules are needed".into());
    };
    let (left, right) = (left.as_bytes(), right.as_bytes());
    let asked = yopobrush::ask_overlaps(left, right)?;
    println!("{} entries, {} bytes", asked.entries, asked.bytes);
    let mut room = vec![0; asked.bytes];
    yopobrush::commit_overlaps(asked, left, right, &mut room)?;
    io::stdout().write_all(&room)?;
    Ok(())
}
