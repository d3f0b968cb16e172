//! Holds two emulators against each other, or an assembler and a lister against the reference. Ends
//! with 0 if nothing differs, 1 if something does, 2 if a side could not be run.
#![forbid(unsafe_code)]

use std::process::ExitCode;
use std::time::Instant;

use comparer::assembly::{hold_assembler, hold_both, hold_lister, Findings, Tool};
use comparer::case::Call;
use comparer::compare::{compare, Options, Report};
use comparer::protocol::put_case;
use comparer::runs::{self, Runner};
use comparer::side::Side;

const USAGE: &str = "\
compare [--calls LIST] [--seq] [--first] [--save FILE] PROGRAM_A PROGRAM_B SEED COUNT
compare --run PROGRAM_A PROGRAM_B SEED COUNT
compare --asm ASM SEED COUNT
compare --list [--addresses] LIST SEED COUNT
compare --list-asm LIST ASM SEED COUNT
A program is a path, a name (beside compare, else Rattle's crates/NAME/out), rattle:PATH,
second (inside compare) or wrong:NAME (a wrong variant).
--calls LIST  only these calls: fresh,step,tick,take,give,event,undo,clear
--seq         sequences of calls from fresh in place of random states
--first       end after the first 2,000 cases with a difference
--save FILE   write the first differing case to a file, in the batch protocol
--run         runs of code from standard input, what is written compared
--asm         an assembler against the reference: fixed lines, COUNT random lines, bad lines
--list        a lister against the reference: COUNT random byte strings
--addresses   the listing with addresses: the lister is given --addresses
--list-asm    COUNT random programs of shortest chains, listed and assembled again";

/// What is compared.
#[derive(Clone, Copy, PartialEq)]
enum Kind {
    Cases,
    Run,
    Asm,
    List,
    ListAsm,
}

struct Arguments {
    kind: Kind,
    programs: Vec<String>,
    options: Options,
    addresses: bool,
    save: Option<String>,
}

fn main() -> ExitCode {
    let outcome = arguments().and_then(|arguments| match arguments.kind {
        Kind::Cases => cases(&arguments),
        Kind::Run => run(&arguments),
        _ => assembly(&arguments),
    });
    match outcome {
        Ok(0) => ExitCode::SUCCESS,
        Ok(_) => ExitCode::FAILURE,
        Err(text) => {
            eprintln!("compare: {text}");
            ExitCode::from(2)
        }
    }
}

fn arguments() -> Result<Arguments, String> {
    let mut programs = Vec::new();
    let mut options = Options::new(0, 0);
    let (mut kind, mut addresses, mut save) = (Kind::Cases, false, None);
    let mut given = std::env::args().skip(1);
    while let Some(argument) = given.next() {
        match argument.as_str() {
            "--seq" => options.sequences = true,
            "--first" => options.stop = true,
            "--run" => kind = Kind::Run,
            "--asm" => kind = Kind::Asm,
            "--list" => kind = Kind::List,
            "--list-asm" => kind = Kind::ListAsm,
            "--addresses" => addresses = true,
            "--save" => save = Some(given.next().ok_or(USAGE)?),
            "--calls" => options.calls = calls(&given.next().ok_or(USAGE)?)?,
            flag if flag.starts_with("--") => return Err(USAGE.into()),
            _ => programs.push(argument),
        }
    }
    let mut number = || programs.pop().and_then(|number| number.parse().ok());
    options.count = number().ok_or(USAGE)?;
    options.seed = number().ok_or(USAGE)?;
    let wanted = match kind {
        Kind::Asm | Kind::List => 1,
        _ => 2,
    };
    if programs.len() != wanted || (addresses && kind != Kind::List) {
        return Err(USAGE.into());
    }
    Ok(Arguments {
        kind,
        programs,
        options,
        addresses,
        save,
    })
}

fn calls(list: &str) -> Result<Vec<Call>, String> {
    let named = |name: &str| Call::by_name(name).ok_or(format!("no call {name}"));
    list.split(',').map(named).collect()
}

/// The number of differences.
fn cases(arguments: &Arguments) -> Result<u64, String> {
    let (a, b) = (&arguments.programs[0], &arguments.programs[1]);
    let (mut left, mut right) = (Side::find(a)?, Side::find(b)?);
    let report = compare(&mut left, &mut right, &arguments.options)?;
    for text in &report.shown {
        println!("{text}");
    }
    if let (Some(case), Some(file)) = (&report.first, &arguments.save) {
        let mut bytes = Vec::new();
        put_case(&mut bytes, case);
        std::fs::write(file, bytes).map_err(|error| format!("{file}: {error}"))?;
    }
    println!("{a} against {b}: {}", summary(&report));
    Ok(report.different)
}

fn summary(report: &Report) -> String {
    let seconds = report.took.as_secs_f64();
    format!(
        "{} cases, {} differ, {seconds:.2} s, {:.0} cases/s",
        report.compared,
        report.different,
        report.compared as f64 / seconds.max(1e-9)
    )
}

fn run(arguments: &Arguments) -> Result<u64, String> {
    let (a, b) = (&arguments.programs[0], &arguments.programs[1]);
    let (left, right) = (Runner::find(a)?, Runner::find(b)?);
    let Options { seed, count, .. } = arguments.options;
    let (different, shown) = runs::compare(&left, &right, seed, count)?;
    for text in &shown {
        println!("{text}");
    }
    println!("{a} against {b}: {count} runs, {different} differ");
    Ok(different)
}

fn assembly(arguments: &Arguments) -> Result<u64, String> {
    let began = Instant::now();
    let tools: Result<Vec<Tool>, String> = arguments
        .programs
        .iter()
        .map(|name| Tool::find(name))
        .collect();
    let tools = tools?;
    let Options { seed, count, .. } = arguments.options;
    let findings = match arguments.kind {
        Kind::Asm => hold_assembler(&tools[0], seed, count)?,
        Kind::List => hold_lister(&tools[0], seed, count, arguments.addresses)?,
        _ => hold_both(&tools[0], &tools[1], seed, count)?,
    };
    let Findings {
        compared,
        runs,
        different,
        shown,
    } = findings;
    for text in shown {
        println!("{text}");
    }
    let what = match arguments.kind {
        Kind::Asm => "lines",
        Kind::List => "byte strings",
        _ => "programs listed and assembled",
    };
    let (programs, seconds) = (arguments.programs.join(", "), began.elapsed().as_secs_f64());
    println!(
        "{programs}: {compared} {what} in {runs} runs, {different} runs differ, {seconds:.2} s"
    );
    Ok(different)
}
