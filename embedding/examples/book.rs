//! Tells which of the rules that are given overlap: a line for each pair, with
//! their numbers from 1.

use std::env;

fn main() -> Result<(), Box<dyn std::error::Error>> {
    let rules: Vec<String> = env::args().skip(1).collect();
    for (rule, number) in rules.iter().zip(1..) {
        yopobrush::read_rule(rule.as_bytes()).map_err(|r| format!("rule {number} {r}"))?;
    }
    for (left, number) in rules.iter().zip(1..) {
        for (right, other) in rules.iter().zip(1..).skip(number) {
            if yopobrush::texts_overlap(left.as_bytes(), right.as_bytes())? {
                println!("{number} {other}");
            }
        }
    }
    Ok(())
}
