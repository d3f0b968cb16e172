//! What a case asks for, told from the state alone, and a table of how often it was accepted or refused.

use emulator::registers::*;

use crate::case::{Call, Case, Response};
use crate::instructions::{function_code, operation_place, FUNCTIONS, OPERATIONS};
use crate::names::{answer_place, ANSWERS};
use crate::outside::Outside;
use crate::situations::{situation, Situations};

/// What a case asks an emulator to do.
#[derive(Clone, Copy, Debug, PartialEq, Eq)]
pub enum Asked {
    Call(Call),
    RunRequest(usize),
    ReadyRequest(usize),
    Timer(usize),
    /// A function other than opr, with its operand.
    Function(u32, u32),
    /// The code of an operation, listed or not.
    Operation(u32),
    /// The byte at Iptr is outside memory.
    NoByte,
}

pub fn asked(case: &Case) -> Asked {
    if case.call != Call::Step {
        return Asked::Call(case.call);
    }
    let regs = case.regs();
    if regs[OREG] == 0 {
        if let Some(request) = channel_asked(regs) {
            return request;
        }
        if let Some(queue) = timer_asked(regs) {
            return Asked::Timer(queue);
        }
    }
    let index = (regs[IPTR].wrapping_sub(MIN_INT) / 4) as usize;
    let Some(word) = case.memory.get(index) else {
        return Asked::NoByte;
    };
    let byte = (word >> (8 * (regs[IPTR] % 4))) % 256;
    let (function, operand) = (byte / 16, regs[OREG] | (byte % 16));
    if function == function_code("opr") {
        Asked::Operation(operand)
    } else {
        Asked::Function(function, operand)
    }
}

fn channel_asked(regs: &Registers) -> Option<Asked> {
    let flags = |channel: &usize| regs[flags_of(*channel)];
    let asks = |channel: &usize| flags(channel) & (RUN_REQUEST | READY_REQUEST) != 0;
    let channel = (0..LINK_CHANS).find(asks)?;
    if flags(&channel) & RUN_REQUEST != 0 {
        Some(Asked::RunRequest(channel))
    } else {
        Some(Asked::ReadyRequest(channel))
    }
}

fn timer_asked(regs: &Registers) -> Option<usize> {
    (0..2).find(|&queue| {
        let next_after_clock = regs[TNEXT[queue]].wrapping_sub(regs[CLOCK[queue]]);
        let due = next_after_clock == 0 || next_after_clock >= 1 << 31;
        let at_level = queue == 0 || regs[WDESC] % 2 == 1;
        regs[FLAGS] & TENABLED[queue] != 0 && due && at_level
    })
}

/// In words: what was executed.
pub fn describe(asked: Asked) -> String {
    match asked {
        Asked::Call(call) => call.name().into(),
        Asked::RunRequest(channel) => format!("step: run request of channel {channel}"),
        Asked::ReadyRequest(channel) => format!("step: ready request of channel {channel}"),
        Asked::Timer(queue) => format!("step: timer {queue}"),
        Asked::Function(function, operand) => {
            format!("step: {} #{operand:X}", FUNCTIONS[function as usize].name)
        }
        Asked::Operation(code) => match operation_place(code) {
            Some(place) => format!("step: {}", OPERATIONS[place].name),
            None => format!("step: unlisted operation #{code:X}"),
        },
        Asked::NoByte => "step: fetch outside memory".into(),
    }
}

/// Answers are counted in the order of their list; the last place is for any other.
const PLACES: usize = ANSWERS.len() + 1;

/// How often each row met each answer.
pub struct Table {
    rows: Vec<(String, [u64; PLACES])>,
    outside: Outside,
    situations: Situations,
}

/// What is told from a case before its call.
pub struct Before {
    asked: Asked,
    situation: Option<String>,
}

impl Before {
    pub fn of(case: &Case) -> Before {
        Before {
            asked: asked(case),
            situation: situation(case),
        }
    }
}

const REQUESTS: usize = 8;
const TIMERS: usize = REQUESTS + 2;
const NO_BYTE: usize = TIMERS + 2;
const UNLISTED: usize = NO_BYTE + 1;
const FUNCTION: usize = UNLISTED + 1;
const OPERATION: usize = FUNCTION + 16;

impl Table {
    pub fn new() -> Table {
        let mut names: Vec<String> = Call::ALL.map(|call| call.name().into()).into();
        for other in ["run request", "ready request", "timer 0", "timer 1"] {
            names.push(other.into());
        }
        names.push("no byte".into());
        names.push("unlisted".into());
        let instructions = FUNCTIONS.iter().chain(OPERATIONS.iter());
        names.extend(instructions.map(|instruction| instruction.name.into()));
        let rows = names.into_iter().map(|name| (name, [0; PLACES])).collect();
        Table {
            rows,
            outside: Outside::default(),
            situations: Situations::default(),
        }
    }

    pub fn count(&mut self, before: Before, response: &Response) {
        let Before { asked, situation } = before;
        self.outside.count(asked, response);
        if let (0, Some(situation)) = (response.answer, situation) {
            self.situations.count(situation);
        }
        let answer = answer_place(response.answer).unwrap_or(PLACES - 1);
        if !matches!(asked, Asked::Call(_)) {
            self.rows[Call::Step as usize].1[answer] += 1;
        }
        if matches!(asked, Asked::Operation(_)) {
            self.rows[FUNCTION + function_code("opr") as usize].1[answer] += 1;
        }
        self.rows[row_of(asked)].1[answer] += 1;
    }

    pub fn print(&self) -> String {
        let mut text = format!("{:<14}{:>9}", "", "accepted");
        for answer in &ANSWERS[1..] {
            text += &format!("{:>7}", answer.1);
        }
        for (name, counts) in &self.rows {
            text += &format!("\n{name:<14}{:>9}", counts[0]);
            for count in &counts[1..PLACES - 1] {
                text += &format!(
                    "{:>7}",
                    if *count == 0 {
                        ".".into()
                    } else {
                        count.to_string()
                    }
                );
            }
        }
        for (name, count) in self.named() {
            text += &format!("\n{name:<58}{count:>7}");
        }
        text
    }

    /// Places outside memory and situations, and how often each was met.
    fn named(&self) -> Vec<(String, u64)> {
        [self.outside.places(), self.situations.all()].concat()
    }

    /// What falls short: fewer than `least` accepted, a refusal that a call can meet and did not, or a
    /// place outside memory or a situation met fewer than `least` times.
    pub fn shortfalls(&self, least: u64) -> Vec<String> {
        let mut short = Vec::new();
        for (row, (name, counts)) in self.rows.iter().enumerate() {
            let can_be_accepted = row != NO_BYTE && row != UNLISTED;
            if can_be_accepted && counts[0] < least {
                short.push(format!("{name}: accepted {} times only", counts[0]));
            }
        }
        for call in Call::ALL {
            for label in meets(call).split(' ') {
                let (name, counts) = &self.rows[call as usize];
                let place = ANSWERS.iter().position(|answer| answer.1 == label);
                if place.is_none_or(|place| counts[place] == 0) {
                    short.push(format!("{name}: never answered {label}"));
                }
            }
        }
        for (name, count) in self.named() {
            if count < least {
                short.push(format!("{name}: {count} times only"));
            }
        }
        short
    }
}

impl Default for Table {
    fn default() -> Self {
        Table::new()
    }
}

fn row_of(asked: Asked) -> usize {
    match asked {
        Asked::Call(call) => call as usize,
        Asked::RunRequest(_) => REQUESTS,
        Asked::ReadyRequest(_) => REQUESTS + 1,
        Asked::Timer(queue) => TIMERS + queue,
        Asked::NoByte => NO_BYTE,
        Asked::Function(function, _) => FUNCTION + function as usize,
        Asked::Operation(code) => operation_place(code).map_or(UNLISTED, |place| OPERATION + place),
    }
}

/// The refusals that a call can meet, by document 01's table.
fn meets(call: Call) -> &'static str {
    match call {
        Call::Fresh => "1 2",
        Call::Step => "1 4 6 7 9 10a 10b 10c 11 12",
        Call::Tick => "1 4 12",
        Call::Take => "1 3 4 8 10b 12",
        Call::Give => "1 3 4 8 10c 12",
        Call::Event => "1 4 8 12",
        Call::Undo => "1 4 5",
        Call::Clear => "1",
        Call::Repeat => "",
    }
}
