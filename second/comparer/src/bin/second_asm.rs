//! The assembler of document 02, No. 2: lines on standard input, code on standard output.
#![forbid(unsafe_code)]

use std::io::{self, Read, Write};
use std::process::ExitCode;

use comparer::assembly::{Reference, MOST};

fn main() -> io::Result<ExitCode> {
    let mut text = Vec::new();
    io::stdin().lock().read_to_end(&mut text)?;
    if text.len() > MOST {
        eprintln!("the text is longer than {MOST} bytes");
        return Ok(ExitCode::FAILURE);
    }
    match Reference::RIGHT.read_text(&text) {
        Ok(code) => {
            io::stdout().lock().write_all(&code)?;
            Ok(ExitCode::SUCCESS)
        }
        Err(number) => {
            eprintln!("line {number} is no instruction");
            Ok(ExitCode::FAILURE)
        }
    }
}
