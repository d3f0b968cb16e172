//! Where the accesses outside memory lie that cases meet: the generator's bar for the parts of 10.

use std::collections::BTreeMap;

use emulator::registers::{A, B, C, MIN_INT};

use crate::case::{Call, Response};
use crate::instructions::operation_code;
use crate::names;
use crate::table::Asked;

/// The calls and the parts that they meet.
const MEETS: [(Call, &str); 5] = [
    (Call::Step, "10a"),
    (Call::Step, "10b"),
    (Call::Step, "10c"),
    (Call::Take, "10b"),
    (Call::Give, "10c"),
];
const ENDS: [&str; 2] = ["below", "above"];
const BITS: [&str; 2] = ["", ", low bits set"];
const MOVES: [&str; 5] = [
    "move leaves with both at the same byte",
    "move leaves midway with its source alone",
    "move leaves midway with its destination alone",
    "move leaves midway with both, with its source first",
    "move leaves midway with both, with its destination first",
];

/// At most this many bytes outside is just outside.
const NEAR: u32 = 32;

/// How often each place was met.
#[derive(Default)]
pub struct Outside {
    met: BTreeMap<String, u64>,
}

impl Outside {
    pub fn count(&mut self, asked: Asked, response: &Response) {
        if response.answer % 256 != 10 {
            return;
        }
        let place = place(asked, response);
        for name in place.into_iter().chain(leaving(asked, response)) {
            *self.met.entry(name).or_default() += 1;
        }
    }

    /// Every place that is to be met, and how often it was.
    pub fn places(&self) -> Vec<(String, u64)> {
        let mut names = Vec::new();
        for (call, label) in MEETS {
            for end in ENDS {
                names.extend(BITS.map(|bits| just_outside(call, label, end, bits)));
            }
        }
        names.extend(MOVES.map(String::from));
        let met = |name: &String| self.met.get(name).copied().unwrap_or(0);
        let places = names.into_iter().map(|name| (met(&name), name));
        places.map(|(count, name)| (name, count)).collect()
    }
}

fn just_outside(call: Call, label: &str, end: &str, bits: &str) -> String {
    format!("{} {label} just {end} memory{bits}", call.name())
}

/// The place of an access that is just outside memory.
fn place(asked: Asked, response: &Response) -> Option<String> {
    let call = match asked {
        Asked::Call(call) => call,
        _ => Call::Step,
    };
    let address = response.address;
    let end = MIN_INT + 4 * response.memory.len() as u32;
    let end = if MIN_INT.wrapping_sub(address) <= NEAR {
        ENDS[0]
    } else if address.wrapping_sub(end) < NEAR {
        ENDS[1]
    } else {
        return None;
    };
    let bits = BITS[usize::from(address & 3 != 0)];
    Some(just_outside(
        call,
        &names::label(response.answer),
        end,
        bits,
    ))
}

/// How a move leaves memory, by its registers; a refusal has left them.
fn leaving(asked: Asked, response: &Response) -> Option<String> {
    if asked != Asked::Operation(operation_code("move")) {
        return None;
    }
    let [count, dest, source] = [A, B, C].map(|register| response.machine.regs[register]);
    let bytes = 4 * response.memory.len() as u32;
    let inside = |address: u32| bytes.saturating_sub(address.wrapping_sub(MIN_INT));
    let (loads, stores) = (inside(source), inside(dest));
    let midway = loads > 0 && stores > 0;
    let place = match (loads < count, stores < count) {
        (true, true) if loads == stores => 0,
        (true, false) if midway => 1,
        (false, true) if midway => 2,
        (true, true) if midway && loads < stores => 3,
        (true, true) if midway => 4,
        _ => return None,
    };
    Some(MOVES[place].into())
}
