//! One of the two emulators that are held against each other.

use emulator::{Emulator, Mistake, Wrong};

use crate::case::{Case, Response};
use crate::process::Program;
use crate::protocol::{get_response, put_case, response_bytes};
use crate::respond::respond;
use crate::table::{asked, describe};

pub enum Side {
    /// The second emulator inside this program.
    Second(Emulator),
    /// A wrong variant of it.
    Wrong(Emulator<Wrong>),
    /// A program that speaks the batch protocol.
    Program(String, Program),
}

impl Side {
    /// `second`, `wrong:NAME`, or a program.
    pub fn find(text: &str) -> Result<Side, String> {
        if text == "second" {
            return Ok(Side::Second(Emulator::new()));
        }
        if let Some(name) = text.strip_prefix("wrong:") {
            let mistake = Mistake::by_name(name).ok_or(format!("no wrong variant {name}"))?;
            return Ok(Side::wrong(mistake));
        }
        Ok(Side::Program(text.into(), Program::find(text)?))
    }

    pub fn wrong(mistake: Mistake) -> Side {
        Side::Wrong(Emulator::with(Wrong(Some(mistake))))
    }

    /// The responses to all cases; an error if there are fewer.
    pub fn responses(&mut self, cases: &[Case]) -> Result<Vec<Response>, String> {
        match self {
            Side::Second(emulator) => Ok(inside(emulator, cases)),
            Side::Wrong(emulator) => Ok(inside(emulator, cases)),
            Side::Program(name, program) => outside(name, program, cases),
        }
    }
}

fn inside<K: emulator::Care>(emulator: &mut Emulator<K>, cases: &[Case]) -> Vec<Response> {
    cases
        .iter()
        .map(|case| respond(emulator, case.clone()))
        .collect()
}

fn outside(name: &str, program: &Program, cases: &[Case]) -> Result<Vec<Response>, String> {
    let mut input = Vec::new();
    for case in cases {
        put_case(&mut input, case);
    }
    let outcome = program.run(input)?;
    let mut rest = &outcome.output[..];
    let mut responses = Vec::with_capacity(cases.len());
    for case in cases {
        let Some((bytes, more)) = rest.split_at_checked(response_bytes(case)) else {
            return Err(format!(
                "{name} ended with {} after {} of {} responses, at: {}\n{}",
                outcome.status,
                responses.len(),
                cases.len(),
                describe(asked(case)),
                outcome.complaint.trim()
            ));
        };
        responses.push(get_response(bytes, case));
        rest = more;
    }
    if !rest.is_empty() {
        return Err(format!("{name} wrote {} bytes too many", rest.len()));
    }
    if !outcome.status.success() {
        return Err(format!(
            "{name} ended with {}: {}",
            outcome.status,
            outcome.complaint.trim()
        ));
    }
    Ok(responses)
}
