//! Document 01's program: runs code for up to 100 steps and tells in one line where it ended.

use emulator::registers::{A, B, C};
use emulator::{Emulator, Machine, Refusal};

use crate::names::label;
use crate::protocol::answer_word;

pub const MEMORY: usize = 1_024;
pub const JOURNAL: usize = 8_192;
/// One byte more than fits, so that longer input is refused as CodeSize.
pub const MOST_CODE: usize = 4_021;
const STEPS: u32 = 100;

/// What the program writes: its line, and standard error's where an access went outside memory.
#[derive(Debug, Default, PartialEq, Eq)]
pub struct Written {
    pub line: String,
    pub complaint: String,
}

pub fn run(code: &[u8]) -> Written {
    let mut memory = [0; MEMORY];
    let mut journal = [0; JOURNAL];
    let code = &code[..code.len().min(MOST_CODE)];
    let mut emulator = Emulator::new();
    match emulator.fresh(&mut memory, &journal, code) {
        Ok(mut machine) => {
            let (accepted, refusal) = steps(&mut emulator, &mut machine, &mut memory, &mut journal);
            write(&machine, accepted, refusal)
        }
        Err(refusal) => write(&Machine::ZERO, 0, Some(refusal)),
    }
}

fn steps(
    emulator: &mut Emulator,
    machine: &mut Machine,
    memory: &mut [u32],
    journal: &mut [u32],
) -> (u32, Option<Refusal>) {
    for accepted in 0..STEPS {
        if let Err(refusal) = emulator.step(machine, memory, journal) {
            return (accepted, Some(refusal));
        }
    }
    (STEPS, None)
}

fn write(machine: &Machine, accepted: u32, refusal: Option<Refusal>) -> Written {
    let [a, b, c] = [A, B, C].map(|register| machine.regs[register]);
    let used = machine.used;
    let answer = label(refusal.map_or(0, answer_word));
    Written {
        line: format!("{a:08X} {b:08X} {c:08X} {accepted} {used} {answer}\n"),
        complaint: refusal.and_then(complaint).unwrap_or_default(),
    }
}

fn complaint(refusal: Refusal) -> Option<String> {
    let access = match refusal {
        Refusal::OutsideFetch(_) => "fetch",
        Refusal::OutsideLoad(_) => "load",
        Refusal::OutsideStore(_) => "store",
        _ => return None,
    };
    let (label, address) = (label(answer_word(refusal)), refusal.address());
    Some(format!(
        "{label}: {access} outside memory at {address:08X}\n"
    ))
}
