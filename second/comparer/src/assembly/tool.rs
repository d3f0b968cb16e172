//! An assembler or a lister that is held against the reference.

use super::{Reference, Slip};
use crate::process::{Outcome, Program};

/// The reference itself or a wrong variant, inside this program; or a program, which reads standard
/// input and writes standard output.
pub enum Tool {
    Inside(Reference),
    Program(Program),
}

/// What an assembler wrote, and the line that it called bad.
#[derive(Clone, Debug, PartialEq, Eq)]
pub struct Assembled {
    pub bytes: Vec<u8>,
    pub bad: Option<usize>,
}

impl Tool {
    /// `second`, `wrong:NAME`, or a program.
    pub fn find(text: &str) -> Result<Tool, String> {
        if text == "second" {
            return Ok(Tool::Inside(Reference::RIGHT));
        }
        if let Some(name) = text.strip_prefix("wrong:") {
            let slip = Slip::by_name(name).ok_or(format!("no wrong variant {name}"))?;
            return Ok(Tool::Inside(Reference::with(slip)));
        }
        Program::find(text).map(Tool::Program)
    }

    pub fn assemble(&self, text: &[u8]) -> Result<Assembled, String> {
        let program = match self {
            Tool::Inside(reference) => return Ok(assembled(*reference, text)),
            Tool::Program(program) => program,
        };
        let outcome = ended(program.run(text.to_vec())?)?;
        if outcome.complaint.is_empty() && !outcome.status.success() {
            return Err(format!("the assembler ended with {}", outcome.status));
        }
        if !outcome.complaint.is_empty() && outcome.status.success() && program.has_status() {
            return Err("the assembler complains and ends with 0".into());
        }
        let bad = first_number(&outcome.complaint);
        if bad.is_none() && !outcome.complaint.is_empty() {
            let complaint = outcome.complaint.trim();
            return Err(format!("the assembler names no line: {complaint}"));
        }
        let bytes = outcome.output;
        Ok(Assembled { bytes, bad })
    }

    pub fn list(&self, code: &[u8], addresses: bool) -> Result<String, String> {
        let program = match self {
            Tool::Inside(reference) if addresses => return Ok(reference.list_addresses(code)),
            Tool::Inside(reference) => return Ok(reference.list(code)),
            Tool::Program(program) => program,
        };
        let arguments: &[&str] = if addresses { &["--addresses"] } else { &[] };
        let outcome = ended(program.run_with(arguments, code.to_vec())?)?;
        if !outcome.status.success() || !outcome.complaint.is_empty() {
            let complaint = outcome.complaint.trim();
            return Err(format!(
                "a listing ended with {}: {complaint}",
                outcome.status
            ));
        }
        Ok(String::from_utf8_lossy(&outcome.output).into())
    }
}

/// As a program writes it: nothing but the line's number where a line is bad.
pub fn assembled(reference: Reference, text: &[u8]) -> Assembled {
    match reference.read_text(text) {
        Ok(bytes) => Assembled { bytes, bad: None },
        Err(bad) => Assembled {
            bytes: if reference.slips(Slip::WritesBeforeBadLine) {
                vec![0x40]
            } else {
                Vec::new()
            },
            bad: Some(bad),
        },
    }
}

/// A program that was ended by a signal has answered nothing.
fn ended(outcome: Outcome) -> Result<Outcome, String> {
    match outcome.status.code() {
        Some(_) => Ok(outcome),
        None => Err(format!("a program ended with {}", outcome.status)),
    }
}

/// The first word of a complaint that is a number: the line's.
fn first_number(complaint: &str) -> Option<usize> {
    let mut words = complaint.split(|letter: char| !letter.is_ascii_alphanumeric());
    words.find_map(|word| word.parse().ok())
}
