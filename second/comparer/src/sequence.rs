//! Sequences of calls from fresh: random programs, links, clocks and undos.
//!
//! They are made whole with the second emulator, each case starting from what the one before left,
//! and every sequence is held against its own history.

use std::collections::VecDeque;
use std::ops::Range;

use emulator::registers::*;
use emulator::{Emulator, Machine, RECORD};

use crate::case::{Call, Case, Response};
use crate::history::History;
use crate::random::Random;
use crate::random_code::program;
use crate::respond::respond;

pub struct Sequences {
    random: Random,
    emulator: Emulator,
    ready: VecDeque<Case>,
}

impl Sequences {
    pub fn new(seed: u64) -> Sequences {
        Sequences {
            random: Random::new(seed ^ 0x5E9),
            emulator: Emulator::new(),
            ready: VecDeque::new(),
        }
    }

    /// The next cases, of as many sequences as needed. An error tells that a history did not hold.
    pub fn cases(&mut self, count: usize) -> Result<Vec<Case>, String> {
        while self.ready.len() < count {
            let cases = self.sequence()?;
            self.ready.extend(cases);
        }
        Ok(self.ready.drain(..count).collect())
    }

    fn sequence(&mut self) -> Result<Vec<Case>, String> {
        let (random, emulator) = (&mut self.random, &mut self.emulator);
        let mut next = first(random);
        let mut history = History::new(&next);
        let mut cases = Vec::new();
        let mut mood = Mood::new(random, next.journal.len());
        for _ in 0..mood.length {
            let response = respond(emulator, next.clone());
            history.follow(&next, &response);
            cases.push(next.clone());
            let ends = mood.ends(random, &next, &response);
            let call = mood.call(random, &response);
            next = following(random, call, &next, response);
            if ends {
                break;
            }
        }
        history.check(emulator, &next)?;
        Ok(cases)
    }
}

/// The fresh call that begins a sequence.
fn first(random: &mut Random) -> Case {
    let size = random.between(100, 180);
    let length = random.between(40, 180) as usize;
    let journal = match random.below(10) {
        0 => random.below(60),
        1 | 2 => random.between(60, 400),
        _ => random.between(400, 2_400),
    };
    Case {
        call: Call::Fresh,
        channel: 0,
        byte: 0,
        machine: Machine::ZERO,
        memory: (0..size).map(|_| random.word()).collect(),
        journal: (0..journal).map(|_| random.word()).collect(),
        code: program(random, size, length),
    }
}

/// What kind of calls a sequence is at.
struct Mood {
    length: u32,
    refused: u32,
    /// Ticks that follow without another call.
    ticks: u32,
    /// Undos that follow without another call.
    undos: u32,
}

impl Mood {
    /// A few sequences are long enough for a time slice; where no record fits, a few calls will do.
    fn new(random: &mut Random, journal: usize) -> Mood {
        let slice = random.percent(1);
        let length = if journal < RECORD {
            12
        } else if slice {
            3_000
        } else {
            random.between(60, 400)
        };
        Mood {
            length,
            refused: 0,
            ticks: if slice { 1_030 } else { 0 },
            undos: 0,
        }
    }

    /// A machine that is stuck or waits for nothing is left alone soon.
    fn ends(&mut self, random: &mut Random, case: &Case, response: &Response) -> bool {
        self.refused = if response.answer == 0 {
            0
        } else {
            self.refused + 1
        };
        let stuck = case.call == Call::Step && [6, 9, 10, 11].contains(&(response.answer % 256));
        let dead = is_idle(response) && helpful(&response.machine.regs).is_empty();
        self.refused > 8 || (stuck && random.percent(40)) || (dead && random.percent(20))
    }

    fn call(&mut self, random: &mut Random, left: &Response) -> Call {
        let room = left.journal.len() as u64 - left.machine.used.min(left.journal.len() as u64);
        if room < 60 && random.percent(60) {
            return Call::Clear;
        }
        if self.undos > 0 {
            self.undos -= 1;
            return Call::Undo;
        }
        if self.ticks > 0 && left.machine.regs[FLAGS] & CLOCKS_RUN != 0 {
            self.ticks -= 1;
            return Call::Tick;
        }
        if random.percent(2) {
            self.undos = random.between(1, 9);
        }
        let steps = if is_idle(left) || self.refused > 0 {
            40
        } else {
            90
        };
        if random.percent(steps) {
            return Call::Step;
        }
        self.outside_call(random, &left.machine.regs)
    }

    /// A call that helps a waiting process, mostly.
    fn outside_call(&mut self, random: &mut Random, regs: &Registers) -> Call {
        let helpful = helpful(regs);
        if helpful.is_empty() || random.percent(10) {
            let any = [Call::Tick, Call::Take, Call::Give, Call::Event, Call::Undo];
            return random.pick(&any);
        }
        let call = random.pick(&helpful);
        if call == Call::Tick {
            self.ticks = random.pick(&[0, 1, 4, 16, 64]);
        }
        call
    }
}

fn is_idle(left: &Response) -> bool {
    left.machine.regs[FLAGS] & IDLE != 0
}

/// The calls that something waits for.
fn helpful(regs: &Registers) -> Vec<Call> {
    let waits = |links: Range<usize>| {
        let mut links = links;
        links.any(|link| regs[flags_of(link)] & (ACTIVE | ENABLED) != 0)
    };
    let timed = regs[FLAGS] & (TENABLED[0] | TENABLED[1]) != 0;
    let all = [
        (Call::Take, waits(0..4)),
        (Call::Give, waits(4..8)),
        (Call::Event, waits(8..9)),
        (Call::Tick, timed && regs[FLAGS] & CLOCKS_RUN != 0),
    ];
    let some = all.into_iter().filter(|entry| entry.1);
    some.map(|entry| entry.0).collect()
}

/// The call on what the last one left.
fn following(random: &mut Random, call: Call, last: &Case, left: Response) -> Case {
    Case {
        call,
        channel: channel(random, call, &left.machine.regs),
        byte: random.below(256),
        machine: left.machine,
        memory: left.memory,
        journal: left.journal,
        code: last.code.clone(),
    }
}

/// Mostly a link that is moving or enabled.
fn channel(random: &mut Random, call: Call, regs: &Registers) -> u32 {
    let links = match call {
        Call::Take => 0..4,
        Call::Give => 4..8,
        _ => return 0,
    };
    let waits = |link: &usize| regs[flags_of(*link)] & (ACTIVE | ENABLED) != 0;
    let waiting: Vec<usize> = links.clone().filter(waits).collect();
    if waiting.is_empty() || random.percent(10) {
        return random.between(links.start as u32, links.end as u32);
    }
    random.pick(&waiting) as u32
}
