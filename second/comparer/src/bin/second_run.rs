//! Document 01's program on standard input.
#![forbid(unsafe_code)]

use std::io::{self, Read};

use comparer::program::{run, MOST_CODE};

fn main() -> io::Result<()> {
    let mut code = Vec::new();
    let most = MOST_CODE as u64;
    io::stdin().lock().take(most).read_to_end(&mut code)?;
    let written = run(&code);
    print!("{}", written.line);
    eprint!("{}", written.complaint);
    Ok(())
}
