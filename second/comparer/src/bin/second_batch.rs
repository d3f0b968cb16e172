//! The comparison program: cases on standard input, responses on standard output.
#![forbid(unsafe_code)]

use std::io::{self, BufReader, BufWriter, Write};
use std::process::ExitCode;

use comparer::protocol::{read_case, write_response};
use comparer::respond::respond;
use emulator::Emulator;

fn main() -> ExitCode {
    let mut input = BufReader::new(io::stdin().lock());
    let mut output = BufWriter::new(io::stdout().lock());
    let mut emulator = Emulator::new();
    loop {
        let case = match read_case(&mut input) {
            Ok(Some(case)) => case,
            Ok(None) => return finish(output.flush()),
            Err(text) => {
                let _ = output.flush();
                eprintln!("second_batch: {text}");
                return ExitCode::FAILURE;
            }
        };
        if let Err(error) = write_response(&mut output, &respond(&mut emulator, case)) {
            return finish(Err(error));
        }
    }
}

fn finish(outcome: io::Result<()>) -> ExitCode {
    match outcome {
        Ok(()) => ExitCode::SUCCESS,
        Err(error) => {
            eprintln!("second_batch: {error}");
            ExitCode::FAILURE
        }
    }
}
