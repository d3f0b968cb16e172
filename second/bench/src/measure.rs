//! Runs a program on a scenario and measures it from outside: instructions, bytes copied, time.

use std::ffi::OsStr;
use std::fs::File;
use std::io::{Read, Seek, Write};
use std::path::{Path, PathBuf};
use std::process::{Command, Stdio};
use std::time::{Duration, Instant};

use comparer::process::Program;
use comparer::protocol::{put_case, put_response};

use crate::scenario::Scenario;

/// What a run came to.
struct Outcome {
    complaint: String,
    took: Duration,
}

/// A place for a file of this process.
fn room(name: &str) -> PathBuf {
    std::env::temp_dir().join(format!("bench-{}.{name}", std::process::id()))
}

/// An input as an open file. From a pipe a program would read it in parts, and not in the same
/// parts each time, so that the counts would differ.
fn input(bytes: &[u8]) -> std::io::Result<File> {
    let place = room("case");
    let mut file = File::options()
        .read(true)
        .write(true)
        .create(true)
        .truncate(true)
        .open(&place)?;
    std::fs::remove_file(&place)?;
    file.write_all(bytes)?;
    file.rewind()?;
    Ok(file)
}

/// Runs a command on a scenario. It has to answer what the second emulator does, every call
/// accepted.
fn run(command: Command, scenario: &Scenario, rounds: u32) -> Result<Outcome, String> {
    let (mut bytes, mut wanted) = (Vec::new(), Vec::new());
    put_case(&mut bytes, &scenario.case(rounds));
    put_response(&mut wanted, &scenario.response(rounds)?);
    run_on(command, scenario.name, &bytes, &wanted)
}

/// Runs a command on an input. It has to write what is wanted.
fn run_on(
    mut command: Command,
    line: &str,
    bytes: &[u8],
    wanted: &[u8],
) -> Result<Outcome, String> {
    let name = format!("{:?}", command.get_program());
    let tell = |text: &str| format!("{name}, {line}: {text}");
    let fail = |error: std::io::Error| tell(&error.to_string());
    command.stdin(input(bytes).map_err(fail)?);
    command.stdout(Stdio::piped()).stderr(Stdio::piped());
    let begun = Instant::now();
    let mut child = command.spawn().map_err(fail)?;
    let mut answer = Vec::new();
    let mut from = child.stdout.take().ok_or(tell("no standard output"))?;
    from.read_to_end(&mut answer).map_err(fail)?;
    let took = processor_time(child.id()).unwrap_or(begun.elapsed());
    let output = child.wait_with_output().map_err(fail)?;
    let complaint = String::from_utf8_lossy(&output.stderr).into_owned();
    if !output.status.success() || answer != wanted {
        let said = format!("another response than the second's: {}", complaint.trim());
        return Err(tell(&said));
    }
    Ok(Outcome { complaint, took })
}

/// The best of several times that a program takes for an input, less its best time for none.
/// Seconds.
pub fn seconds_of_input(
    program: &Program,
    line: &str,
    bytes: &[u8],
    wanted: &[u8],
    runs: u32,
) -> Result<f64, String> {
    let (mut none, mut all) = (Duration::MAX, Duration::MAX);
    for _ in 0..runs {
        none = none.min(run_on(program.command()?, line, &[], &[])?.took);
        all = all.min(run_on(program.command()?, line, bytes, wanted)?.took);
    }
    Ok(all.saturating_sub(none).as_secs_f64())
}

/// How long a process has been on a processor; it has closed its output and is not waited for yet.
/// On a busy machine that tells more than the clock does.
fn processor_time(process: u32) -> Option<Duration> {
    let text = std::fs::read_to_string(format!("/proc/{process}/schedstat")).ok()?;
    let nanoseconds = text.split(' ').next()?.parse().ok()?;
    Some(Duration::from_nanos(nanoseconds))
}

/// A command that has the given words before it.
fn under(words: &[&str], base: &Command) -> Command {
    let mut command = Command::new(words[0]);
    command.args(&words[1..]);
    command.arg(base.get_program()).args(base.get_args());
    command
}

/// The number behind a word of a text, with or without commas.
fn number_after(text: &str, word: &str) -> Option<u64> {
    let rest = &text[text.find(word)? + word.len()..];
    let digits = rest.trim_start().split(' ').next()?;
    digits.trim().replace(',', "").parse().ok()
}

/// What one of valgrind's tools counts in a run; the number stands behind a word of its report.
fn valgrind(
    words: &[&str],
    label: &str,
    base: &Command,
    scenario: &Scenario,
    rounds: u32,
) -> Result<u64, String> {
    let outcome = run(under(words, base), scenario, rounds)?;
    let mut lines = outcome.complaint.lines();
    let count = lines.find_map(|line| number_after(line, label));
    count.ok_or(format!("{words:?} told no count"))
}

/// x86-64 instructions of a run, counted one by one: by valgrind on x86-64, by the emulator
/// elsewhere, where it is there. A native program of another machine has none.
fn instructions(
    program: &Program,
    scenario: &Scenario,
    rounds: u32,
) -> Result<Option<u64>, String> {
    let base = program.command()?;
    if Path::new(base.get_program()).file_name() == Some(OsStr::new("qemu-x86_64")) {
        return emulated(&base, scenario, rounds).map(Some);
    }
    if std::env::consts::ARCH != "x86_64" {
        return Ok(None);
    }
    let words = [
        "valgrind",
        "--tool=callgrind",
        "--callgrind-out-file=/dev/null",
    ];
    valgrind(&words, "Collected :", &base, scenario, rounds).map(Some)
}

/// Bytes that a run copies by calls of the C library (memcpy and its kin); on x86-64 only.
fn copied(program: &Program, scenario: &Scenario, rounds: u32) -> Result<Option<u64>, String> {
    if std::env::consts::ARCH != "x86_64" {
        return Ok(None);
    }
    let words = [
        "valgrind",
        "--tool=dhat",
        "--mode=copy",
        "--dhat-out-file=/dev/null",
    ];
    let base = program.command()?;
    valgrind(&words, "Total:", &base, scenario, rounds).map(Some)
}

/// The emulator writes a line for each instruction.
fn emulated(base: &Command, scenario: &Scenario, rounds: u32) -> Result<u64, String> {
    let log = room("log");
    let mut command = Command::new(base.get_program());
    command.args(["-one-insn-per-tb", "-d", "exec,nochain", "-D"]);
    command.arg(&log).args(base.get_args());
    let done = run(command, scenario, rounds);
    let text = std::fs::read(&log).map_err(|error| error.to_string());
    let _ = std::fs::remove_file(&log);
    done?;
    let lines = text?;
    let traces = lines
        .split(|byte| *byte == b'\n')
        .filter(|line| line.starts_with(b"Trace"));
    Ok(traces.count() as u64)
}

/// What a round adds, as the difference of two runs.
fn of_round(count: impl Fn(u32) -> Result<Option<u64>, String>) -> Result<Option<f64>, String> {
    const FEW: u32 = 1;
    const MORE: u32 = 5;
    let (few, more) = (count(FEW)?, count(MORE)?);
    let difference = |(few, more): (u64, u64)| (more - few) as f64 / f64::from(MORE - FEW);
    Ok(few.zip(more).map(difference))
}

pub fn instructions_of_round(
    program: &Program,
    scenario: &Scenario,
) -> Result<Option<f64>, String> {
    of_round(|rounds| instructions(program, scenario, rounds))
}

pub fn copied_in_round(program: &Program, scenario: &Scenario) -> Result<Option<f64>, String> {
    of_round(|rounds| copied(program, scenario, rounds))
}

/// The best of several times, of each program in turn, so that both meet the same machine; less the
/// best time of a run without rounds. Seconds of a round.
pub fn seconds_of_round(
    programs: [&Program; 2],
    scenario: &Scenario,
    rounds: u32,
    runs: u32,
) -> Result<[f64; 2], String> {
    let mut best = [[Duration::MAX; 2]; 2];
    for _ in 0..runs {
        for (program, best) in programs.iter().zip(&mut best) {
            for (rounds, best) in [0, rounds].into_iter().zip(best) {
                let took = run(program.command()?, scenario, rounds)?.took;
                *best = took.min(*best);
            }
        }
    }
    Ok(best.map(|[none, all]| all.saturating_sub(none).as_secs_f64() / f64::from(rounds)))
}
