//! Carries out the rule that is given on the slip that is given.

use std::env;
use std::io::{self, Write};

use yopobrush::Answer;

fn main() -> Result<(), Box<dyn std::error::Error>> {
    let arguments: Vec<String> = env::args().skip(1).collect();
    let [rule, slip] = arguments.as_slice() else {
        return Err("a rule and a slip are needed".into());
    };
    let (answer, text) = yopobrush::carried(rule.as_bytes(), slip.as_bytes())?;
    let answer = match answer {
        Answer::Yes => "yes ",
        Answer::No => "no ",
        Answer::TooLong => "refusal 11 ",
    };
    io::stdout().write_all(&[answer.as_bytes(), &text, b"\n"].concat())?;
    Ok(())
}
