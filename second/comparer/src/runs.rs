//! Whole runs of document 01's program: random standard inputs, what is written compared.

use crate::process::Program;
use crate::program::{self, Written};
use crate::random::Random;
use crate::random_code;

/// A program that runs code from standard input.
pub enum Runner {
    Second,
    Program(Program),
}

impl Runner {
    /// `second`, or a program.
    pub fn find(text: &str) -> Result<Runner, String> {
        if text == "second" {
            return Ok(Runner::Second);
        }
        Program::find(text).map(Runner::Program)
    }

    fn run(&self, input: &[u8]) -> Result<Written, String> {
        match self {
            Runner::Second => Ok(program::run(input)),
            Runner::Program(program) => {
                let outcome = program.run(input.to_vec())?;
                let complaint = outcome.complaint;
                if !outcome.status.success() {
                    let complaint = complaint.trim();
                    return Err(format!("a run ended with {}: {complaint}", outcome.status));
                }
                let line = String::from_utf8_lossy(&outcome.output).into();
                Ok(Written { line, complaint })
            }
        }
    }
}

/// Lengths around the limits of the program's memory come first.
const LENGTHS: [usize; 8] = [0, 1, 4_019, 4_020, 4_021, 4_022, 8_042, 2];

/// The number of runs that differ, and the first few in words.
pub fn compare(
    a: &Runner,
    b: &Runner,
    seed: u64,
    count: u64,
) -> Result<(u64, Vec<String>), String> {
    let mut random = Random::new(seed);
    let mut different = 0;
    let mut shown = Vec::new();
    for number in 0..count {
        let input = input(&mut random, number);
        let (ours, theirs) = (a.run(&input)?, b.run(&input)?);
        if ours == theirs {
            continue;
        }
        different += 1;
        if shown.len() < 3 {
            let head: Vec<String> = input
                .iter()
                .take(40)
                .map(|byte| format!("{byte:02X}"))
                .collect();
            shown.push(format!(
                "run {number}: {} bytes, {}\n  {}{}  against\n  {}{}",
                input.len(),
                head.join(" "),
                ours.line,
                ours.complaint,
                theirs.line,
                theirs.complaint
            ));
        }
    }
    Ok((different, shown))
}

fn input(random: &mut Random, number: u64) -> Vec<u8> {
    let first = LENGTHS.get(number as usize).copied();
    let length = first.unwrap_or_else(|| match random.below(10) {
        0 => random.between(4_000, 4_030) as usize,
        1 => random.below(30) as usize,
        _ => random.between(30, 300) as usize,
    });
    if number == LENGTHS.len() as u64 {
        return vec![0x41, 0x81, 0x25, 0xF8, 0x21, 0xF0];
    }
    match random.below(4) {
        0 => (0..length).map(|_| random.word() as u8).collect(),
        _ => {
            let mut code = random_code::program(random, program::MEMORY as u32, length);
            code.resize(length, 0);
            code
        }
    }
}
