//! One call on any state, and what it leaves.

use emulator::{Machine, Registers};

/// The eight calls with the numbers of the batch protocol, and repeat, which makes many of them.
#[derive(Clone, Copy, Debug, PartialEq, Eq)]
pub enum Call {
    Fresh = 0,
    Step = 1,
    Tick = 2,
    Take = 3,
    Give = 4,
    Event = 5,
    Undo = 6,
    Clear = 7,
    Repeat = 8,
}

impl Call {
    /// The public calls.
    pub const ALL: [Call; 8] = [
        Call::Fresh,
        Call::Step,
        Call::Tick,
        Call::Take,
        Call::Give,
        Call::Event,
        Call::Undo,
        Call::Clear,
    ];

    pub fn name(self) -> &'static str {
        match self {
            Call::Fresh => "fresh",
            Call::Step => "step",
            Call::Tick => "tick",
            Call::Take => "take",
            Call::Give => "give",
            Call::Event => "event",
            Call::Undo => "undo",
            Call::Clear => "clear",
            Call::Repeat => "repeat",
        }
    }

    pub fn by_name(name: &str) -> Option<Call> {
        Call::ALL.into_iter().find(|call| call.name() == name)
    }

    pub fn by_number(number: u32) -> Option<Call> {
        let mut calls = Call::ALL.into_iter().chain([Call::Repeat]);
        calls.nth(number as usize)
    }
}

#[derive(Clone, Debug, PartialEq, Eq)]
pub struct Case {
    pub call: Call,
    pub channel: u32,
    pub byte: u32,
    pub machine: Machine,
    pub memory: Vec<u32>,
    pub journal: Vec<u32>,
    pub code: Vec<u8>,
}

impl Case {
    pub fn regs(&self) -> &Registers {
        &self.machine.regs
    }
}

#[derive(Clone, Debug, PartialEq, Eq)]
pub struct Response {
    /// The answer's number plus 256 x its part; 0 accepted.
    pub answer: u32,
    pub byte: u32,
    /// The address of an access outside memory, else 0.
    pub address: u32,
    pub machine: Machine,
    pub memory: Vec<u32>,
    pub journal: Vec<u32>,
}
