//! cases SEED COUNT [--seq] [--table] [--check]: writes random cases in the batch protocol, with --seq
//! sequences of calls from fresh. With --table it prints how often each call, function and operation
//! was accepted and met each refusal instead, with --check it fails if one falls short of the bar.
#![forbid(unsafe_code)]

use std::io::{self, BufWriter, Write};
use std::process::ExitCode;

use comparer::case::{Call, Case};
use comparer::compare::Source;
use comparer::protocol::put_case;
use comparer::respond::respond;
use comparer::table::{Before, Table};
use emulator::Emulator;

/// What must be accepted at least this often in 200,000 cases.
const BAR: u64 = 100;

fn main() -> ExitCode {
    match work() {
        Ok(()) => ExitCode::SUCCESS,
        Err(text) => {
            eprintln!("cases: {text}");
            ExitCode::FAILURE
        }
    }
}

fn work() -> Result<(), String> {
    let is_flag = |argument: &String| argument.starts_with("--");
    let (flags, numbers): (Vec<_>, Vec<_>) = std::env::args().skip(1).partition(is_flag);
    let numbers: Option<Vec<u64>> = numbers.iter().map(|number| number.parse().ok()).collect();
    let known = |flag: &String| ["--seq", "--table", "--check"].contains(&flag.as_str());
    let (Some([seed, count]), true) = (numbers.as_deref(), flags.iter().all(known)) else {
        return Err("SEED COUNT [--seq] [--table] [--check]".into());
    };
    let asks = |name: &str| flags.iter().any(|flag| flag == name);
    let source = Source::new(*seed, &Call::ALL, asks("--seq"));
    if !asks("--table") && !asks("--check") {
        return write(source, *count);
    }
    let table = tally(source, *count)?;
    if asks("--table") {
        println!("{}", table.print());
    }
    let short = table.shortfalls(BAR);
    if asks("--check") && !short.is_empty() {
        let short = short.join("\n");
        return Err(format!("the generator falls short:\n{short}"));
    }
    Ok(())
}

/// Cases chunk by chunk.
fn each(mut source: Source, count: u64, mut work: impl FnMut(Case)) -> Result<(), String> {
    let mut left = count;
    while left > 0 {
        let cases = source.chunk(left.min(1_000) as usize)?;
        left -= cases.len() as u64;
        cases.into_iter().for_each(&mut work);
    }
    Ok(())
}

fn write(source: Source, count: u64) -> Result<(), String> {
    let mut output = BufWriter::new(io::stdout().lock());
    let mut outcome = Ok(());
    each(source, count, |case| {
        let mut bytes = Vec::new();
        put_case(&mut bytes, &case);
        if outcome.is_ok() {
            outcome = output.write_all(&bytes);
        }
    })?;
    let outcome = outcome.and_then(|()| output.flush());
    outcome.map_err(|error| error.to_string())
}

fn tally(source: Source, count: u64) -> Result<Table, String> {
    let mut emulator = Emulator::new();
    let mut table = Table::new();
    each(source, count, |case| {
        let before = Before::of(&case);
        table.count(before, &respond(&mut emulator, case));
    })?;
    Ok(table)
}
