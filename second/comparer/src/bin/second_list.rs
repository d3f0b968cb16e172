//! The listing of document 02, No. 2: code on standard input, a line a chain on standard output. With
//! --addresses the address and the bytes stand before each line.
#![forbid(unsafe_code)]

use std::io::{self, Read, Write};
use std::process::ExitCode;

use comparer::assembly::{Reference, MOST};

fn main() -> io::Result<ExitCode> {
    let arguments: Vec<String> = std::env::args().skip(1).collect();
    let arguments: Vec<&str> = arguments.iter().map(String::as_str).collect();
    let addresses = match arguments[..] {
        [] => false,
        ["--addresses"] => true,
        _ => {
            eprintln!("second_list [--addresses]");
            return Ok(ExitCode::from(2));
        }
    };
    let mut code = Vec::new();
    io::stdin().lock().read_to_end(&mut code)?;
    if code.len() > MOST {
        eprintln!("the code is longer than {MOST} bytes");
        return Ok(ExitCode::FAILURE);
    }
    let reference = Reference::RIGHT;
    let text = if addresses {
        reference.list_addresses(&code)
    } else {
        reference.list(&code)
    };
    io::stdout().lock().write_all(text.as_bytes())?;
    Ok(ExitCode::SUCCESS)
}
