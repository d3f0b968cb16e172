//! What is measured: cases of repeat, the ninth call of the batch protocol.

use comparer::case::{Call, Case, Response};
use comparer::repeat::Counts;
use comparer::respond::respond;
use emulator::{Emulator, Machine, MAX_JOURNAL};

use crate::code::Code;

const WORDS: usize = 1_024;
const BLOCK: i32 = 1_024;

/// Calls of a round, the clear not counted.
pub fn in_round(counts: Counts) -> u64 {
    u64::from(counts.steps) + u64::from(counts.ticks) + u64::from(counts.undos)
}

/// A case of repeat, from words that are all zero.
pub fn case(counts: Counts, code: &[u8]) -> Case {
    Case {
        call: Call::Repeat,
        channel: 0,
        byte: 0,
        machine: Machine::ZERO,
        memory: vec![0; WORDS],
        journal: vec![0; MAX_JOURNAL],
        code: counts.join(code),
    }
}

/// A line of the table.
pub struct Scenario {
    pub name: &'static str,
    pub what: &'static str,
    counts: Counts,
    code: Vec<u8>,
}

impl Scenario {
    fn new(name: &'static str, what: &'static str, before: u32, steps: u32, code: Code) -> Self {
        let counts = Counts {
            before,
            steps,
            ..Counts::default()
        };
        Scenario {
            name,
            what,
            counts,
            code: code.done(),
        }
    }

    pub fn counts(&self, rounds: u32) -> Counts {
        Counts {
            rounds,
            ..self.counts
        }
    }

    pub fn case(&self, rounds: u32) -> Case {
        case(self.counts(rounds), &self.code)
    }

    /// What a program has to answer. Every call has to be accepted, since a refused call is another
    /// thing to measure.
    pub fn response(&self, rounds: u32) -> Result<Response, String> {
        let response = respond(&mut Emulator::new(), self.case(rounds));
        match response.answer {
            0 => Ok(response),
            answer => Err(format!("{}: a call is answered {answer}", self.name)),
        }
    }

    /// The same steps, and each taken back at the round's end.
    pub fn with_undo(&self) -> Scenario {
        let undos = self.counts.steps;
        Scenario {
            counts: Counts {
                undos,
                ..self.counts
            },
            code: self.code.clone(),
            ..*self
        }
    }
}

/// The lines that step or tick, in the table's order.
pub fn all() -> Vec<Scenario> {
    vec![
        arithmetic(),
        call(),
        channel(),
        block("move", "loop of 7 with a 1 KB move", BLOCK),
        block("nothing", "the same with a move of 0 bytes", 0),
        ticks(),
    ]
}

/// 13 instructions, as the goals name them.
fn arithmetic() -> Scenario {
    let mut code = Code::new();
    code.function("ldl", 0)
        .function("adc", 1)
        .function("stl", 0)
        .function("ldl", 0)
        .function("ldc", 1)
        .operation("add")
        .function("stl", 1)
        .operation("mint")
        .function("stl", 2)
        .function("ldl", 1)
        .back_to(0);
    Scenario::new("arithmetic", "arithmetic loop of 13", 0, 1_300, code)
}

/// The workspace goes up first, since a call stores below it.
fn call() -> Scenario {
    let mut code = Code::new();
    code.function("ajw", 8);
    let start = code.here();
    code.function("call", 2).back_to(start).operation("ret");
    Scenario::new("call", "call and return, loop of 5", 1, 1_000, code)
}

/// A writer and a reader; the reader's workspace stands 20 words below, the channel at the
/// writer's word 1.
fn channel() -> Scenario {
    let mut reader = Code::new();
    reader
        .function("ldlp", 1)
        .function("ldlp", 21)
        .function("ldc", 4)
        .operation("in")
        .back_to(0);
    let mut writer = Code::new();
    writer
        .function("ldl", 2)
        .function("adc", 1)
        .function("stl", 2)
        .function("ldlp", 1)
        .function("ldl", 2)
        .operation("outword")
        .back_to(0);
    let mut code = Code::new();
    code.function("ajw", 40)
        .operation("mint")
        .function("stl", 1)
        .function("ldc", writer.here() as i32)
        .function("ldlp", -20)
        .operation("startp");
    let before = code.here() as u32;
    code.append(writer).append(reader);
    let what = "two processes, words on a soft channel";
    Scenario::new("channel", what, before, 990, code)
}

fn block(name: &'static str, what: &'static str, bytes: i32) -> Scenario {
    let mut code = Code::new();
    code.function("ldlp", 16)
        .function("stl", 2)
        .function("ldlp", 16 + BLOCK / 4)
        .function("stl", 3)
        .function("ldc", bytes)
        .function("stl", 4);
    let start = code.here();
    code.function("ldl", 2)
        .function("ldl", 3)
        .function("ldl", 4)
        .operation("move")
        .back_to(start);
    Scenario::new(name, what, start as u32, 7 * 70, code)
}

/// The clocks run.
fn ticks() -> Scenario {
    let mut code = Code::new();
    code.function("ldc", 0).operation("sttimer");
    let before = code.here() as u32;
    let mut scenario = Scenario::new("tick", "ticks", before, 0, code);
    scenario.counts.ticks = 1_000;
    scenario
}

/// Cases that end with a refusal: of fresh, of a step, a tick and an undo; last a fetch, a load and
/// a store outside memory.
pub fn refused() -> Vec<Case> {
    let Scenario { counts, code, .. } = arithmetic();
    let counts = Counts {
        rounds: 3,
        ..counts
    };
    let all = u32::MAX;
    let full = Counts {
        before: all,
        ..counts
    };
    let undone = Counts {
        undos: all,
        ..counts
    };
    let ticked = Counts {
        ticks: all,
        ..counts
    };
    let mut small = case(counts, &code);
    small.memory.truncate(63);
    let mut cases = vec![case(counts, &[]), small];
    cases.extend([full, undone, ticked].map(|counts| case(counts, &code)));
    cases.extend(outside().map(|code| case(counts, &code.done())));
    cases
}

fn outside() -> [Code; 3] {
    let [mut fetch, mut load, mut store] = [(); 3].map(|()| Code::new());
    fetch.function("j", -256);
    load.operation("mint").function("adc", -1).operation("lb");
    store
        .operation("mint")
        .function("ldnlp", WORDS as i32)
        .function("adc", 2)
        .function("stnl", 0);
    [fetch, load, store]
}
