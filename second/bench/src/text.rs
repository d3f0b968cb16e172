//! The assembler and the listing: how much they write in a second.

use comparer::assembly::{program, Reference, MOST};
use comparer::process::Program;
use comparer::random::Random;

use crate::measure::seconds_of_input;

pub const HEADING: &str = "\
| Program | Reads | Writes | Seconds | Written, MB a second |
|---|---|---|---|---|";

/// Chains whose code or text just fits.
fn chains(fits: impl Fn(&[u8]) -> bool) -> Vec<u8> {
    let mut random = Random::new(7);
    let mut code = Vec::new();
    loop {
        let mut more = code.clone();
        more.extend(program(&mut random, 500));
        if !fits(&more) {
            return code;
        }
        code = more;
    }
}

/// A row for a program: what it makes of an input is known.
fn row(name: &str, input: &[u8], wanted: &[u8], runs: u32) -> Result<String, String> {
    let seconds = seconds_of_input(&Program::find(name)?, name, input, wanted, runs)?;
    let rate = wanted.len() as f64 / 1e6 / seconds;
    let (reads, writes) = (input.len(), wanted.len());
    Ok(format!(
        "| {name} | {reads} | {writes} | {seconds:.5} | {rate:.1} |"
    ))
}

/// The assembler on a text of at most 1 MiB, the listing on code of at most 1 MiB.
pub fn rows(assembler: &str, lister: &str, runs: u32) -> Result<[String; 2], String> {
    let text = |code: &[u8]| Reference::RIGHT.list(code).into_bytes();
    let short = chains(|code| text(code).len() <= MOST);
    let long = chains(|code| code.len() <= MOST);
    Ok([
        row(assembler, &text(&short), &short, runs)?,
        row(lister, &long, &text(&long), runs)?,
    ])
}
