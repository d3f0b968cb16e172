//! Measures the proved stepper against the second emulator and prints a table.
#![forbid(unsafe_code)]

use std::io::Write;
use std::process::ExitCode;

use bench::scenario::{all, in_round, refused, Scenario};
use bench::table::{round, row, Options, HEADING};
use comparer::explain::explain;
use comparer::process::Program;
use comparer::protocol::put_case;
use comparer::side::Side;

const USAGE: &str = "\
bench [--counts | --times] [--runs N] [--calls N] [--lines LIST] [PROGRAM_A PROGRAM_B]
bench --check [PROGRAM_A PROGRAM_B]
bench --text [--runs N] [ASSEMBLER LISTER]
bench --input LINE ROUNDS
Without --counts or --times, both are measured. A program is a path, a name (beside bench, else
Rattle's crates/NAME/out) or rattle:PATH; t414_batch and second_batch if none are given. Each has to
answer what the second emulator does.
--counts      instructions a call
--times       calls a second, the best of --runs (7) runs of about --calls (500,000) calls
--lines LIST  only these lines: arithmetic,call,channel,move,nothing,tick
--check       measure nothing: hold the responses to each line and to refused ones against each other
--text        how much the assembler and the listing write in a second; t414_asm and t414_list if
              none are given, the best of --runs (7) runs
--input       write a line's case for so many rounds to standard output";

struct Arguments {
    options: Options,
    lines: Vec<Scenario>,
    programs: [String; 2],
}

fn main() -> ExitCode {
    let given: Vec<String> = std::env::args().skip(1).collect();
    let outcome = match given.split_first() {
        Some((first, rest)) if first == "--input" => input(rest),
        Some((first, rest)) if first == "--check" => check(rest),
        Some((first, rest)) if first == "--text" => text(rest),
        Some((first, _)) if first == "--help" => {
            println!("{USAGE}");
            Ok(())
        }
        _ => arguments(given).and_then(|arguments| measure(&arguments)),
    };
    match outcome {
        Ok(()) => ExitCode::SUCCESS,
        Err(text) => {
            eprintln!("bench: {text}");
            ExitCode::FAILURE
        }
    }
}

fn arguments(given: Vec<String>) -> Result<Arguments, String> {
    let (mut only, mut lines, mut places) = (None, all(), Vec::new());
    let (mut runs, mut calls) = (7, 500_000);
    let mut given = given.into_iter();
    while let Some(argument) = given.next() {
        let mut next = || given.next().ok_or(USAGE);
        match argument.as_str() {
            "--counts" | "--times" => only = Some(argument),
            "--runs" => runs = next()?.parse().map_err(|_| USAGE)?,
            "--calls" => calls = next()?.parse().map_err(|_| USAGE)?,
            "--lines" => {
                let wanted = next()?;
                lines.retain(|line| wanted.split(',').any(|name| name == line.name));
            }
            flag if flag.starts_with("--") => return Err(USAGE.into()),
            _ => places.push(argument),
        }
    }
    let programs = programs(places)?;
    let options = Options {
        counts: only.as_deref() != Some("--times"),
        times: only.as_deref() != Some("--counts"),
        runs,
        calls,
    };
    Ok(Arguments {
        options,
        lines,
        programs,
    })
}

fn programs(places: Vec<String>) -> Result<[String; 2], String> {
    if places.is_empty() {
        return Ok(["t414_batch".into(), "second_batch".into()]);
    }
    <[String; 2]>::try_from(places).map_err(|_| USAGE.into())
}

/// Every line with two rounds, there and back, and the refused ones.
fn check(given: &[String]) -> Result<(), String> {
    let [a, b] = programs(given.to_vec())?;
    let lines = all().into_iter().flat_map(|line| [line.with_undo(), line]);
    let mut cases: Vec<_> = lines.map(|line| line.case(2)).collect();
    cases.extend(refused());
    let ours = Side::find(&a)?.responses(&cases)?;
    let theirs = Side::find(&b)?.responses(&cases)?;
    for (at, case) in cases.iter().enumerate() {
        if ours[at] != theirs[at] {
            let text = explain(case, &ours[at], &theirs[at]);
            return Err(format!("case {at}: {text}"));
        }
    }
    println!("{a} against {b}: {} cases of repeat, 0 differ", cases.len());
    Ok(())
}

/// A row for the assembler and one for the listing.
fn text(given: &[String]) -> Result<(), String> {
    let (runs, places) = match given {
        [flag, runs, rest @ ..] if flag == "--runs" => (runs.parse().map_err(|_| USAGE)?, rest),
        rest => (7, rest),
    };
    let [assembler, lister] = match places {
        [] => ["t414_asm", "t414_list"],
        [assembler, lister] => [assembler.as_str(), lister.as_str()],
        _ => return Err(USAGE.into()),
    };
    println!("{}", bench::text::HEADING);
    for row in bench::text::rows(assembler, lister, runs)? {
        println!("{row}");
    }
    Ok(())
}

fn input(given: &[String]) -> Result<(), String> {
    let [name, rounds] = given else {
        return Err(USAGE.into());
    };
    let rounds = rounds.parse().map_err(|_| USAGE)?;
    let line = all().into_iter().find(|line| line.name == name);
    let mut bytes = Vec::new();
    put_case(&mut bytes, &line.ok_or(USAGE)?.case(rounds));
    let written = std::io::stdout().write_all(&bytes);
    written.map_err(|error| error.to_string())
}

/// A line for each scenario, and one for taking its steps back.
fn measure(arguments: &Arguments) -> Result<(), String> {
    let [a, b] = &arguments.programs;
    let (first, second) = (Program::find(a)?, Program::find(b)?);
    let programs = [&first, &second];
    println!("{HEADING}");
    for line in &arguments.lines {
        let calls = in_round(line.counts(1));
        let there = round(programs, line, &arguments.options)?;
        println!("{}", row(line.what, there.of_one(calls)));
        let back = line.with_undo();
        if back.counts(1).undos > 0 {
            let both = round(programs, &back, &arguments.options)?;
            let what = format!("undo of it ({})", line.name);
            println!("{}", row(&what, both.less(there).of_one(calls)));
        }
    }
    Ok(())
}
