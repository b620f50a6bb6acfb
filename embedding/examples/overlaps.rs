//! Lists the overlaps of the two rules that are given.

use std::env;
use std::io::{self, Write};

fn main() -> Result<(), Box<dyn std::error::Error>> {
    let arguments: Vec<String> = env::args().skip(1).collect();
    let [left, right] = arguments.as_slice() else {
        return Err("two rules are needed".into());
    };
    let list = yopobrush::overlaps(left.as_bytes(), right.as_bytes())?;
    io::stdout().write_all(&list)?;
    Ok(())
}
