//! Every line of the benchmark does what its name says; nothing here is timed.

use bench::scenario::{all, refused, Scenario};
use comparer::case::{Call, Case, Response};
use comparer::repeat::{Counts, NUMBERS};
use comparer::respond::respond;
use emulator::registers::{A, B, C};
use emulator::Emulator;

fn scenario(name: &str) -> Scenario {
    let found = all().into_iter().find(|scenario| scenario.name == name);
    found.expect("a line of that name")
}

fn response(case: Case) -> Response {
    respond(&mut Emulator::new(), case)
}

#[test]
fn every_call_is_accepted() {
    for scenario in all() {
        for scenario in [scenario.with_undo(), scenario] {
            assert!(scenario.response(3).is_ok(), "{}", scenario.name);
        }
    }
}

/// But for the journal's words, which stay.
#[test]
fn undo_takes_every_step_back() {
    for scenario in all().iter().filter(|scenario| scenario.name != "tick") {
        let mut there = scenario.response(0).expect("accepted");
        let back = scenario.with_undo().response(2).expect("accepted");
        (there.machine.depth, there.machine.used) = (0, 0);
        assert_eq!(there.machine, back.machine, "{}", scenario.name);
        assert_eq!(there.memory, back.memory, "{}", scenario.name);
    }
}

#[test]
fn the_arithmetic_loop_has_thirteen_bytes() {
    let code = [
        0x70, 0x81, 0xD0, 0x70, 0x41, 0xF5, 0xD1, 0x24, 0xF2, 0xD2, 0x71, 0x60, 0x03,
    ];
    assert_eq!(scenario("arithmetic").case(1).code[NUMBERS..], code);
    // 300 turns: A is one above the count, and below it stands A of the turn before.
    let response = scenario("arithmetic").response(3).expect("accepted");
    let stack = [A, B, C].map(|register| response.machine.regs[register]);
    assert_eq!(stack, [301, 300, 300]);
    assert_eq!(response.machine.depth, 1_300);
}

#[test]
fn the_numbers_are_read_as_written() {
    let counts = scenario("channel").counts(7);
    let code = scenario("channel").case(7).code;
    assert_eq!(Counts::split(&code), Some((counts, &code[NUMBERS..])));
    assert_eq!(Counts::split(&code[..NUMBERS - 1]), None);
}

/// Makes one call on what a response has left.
fn next(call: Call, code: &[u8], before: Response) -> Response {
    response(Case {
        call,
        channel: 0,
        byte: 0,
        machine: before.machine,
        memory: before.memory,
        journal: before.journal,
        code: code.into(),
    })
}

/// The calls of a case of repeat as cases of their own, up to the first refusal.
fn one_by_one(case: &Case) -> Response {
    let (counts, code) = Counts::split(&case.code).expect("five numbers");
    let mut calls = vec![(Call::Fresh, 1), (Call::Step, counts.before)];
    for _ in 0..counts.rounds {
        calls.extend([(Call::Clear, 1), (Call::Step, counts.steps)]);
        calls.extend([(Call::Tick, counts.ticks), (Call::Undo, counts.undos)]);
    }
    let mut left = Response {
        answer: 0,
        byte: 0,
        address: 0,
        machine: case.machine.clone(),
        memory: case.memory.clone(),
        journal: case.journal.clone(),
    };
    for (call, count) in calls {
        for _ in 0..count {
            left = next(call, code, left);
            if left.answer != 0 {
                return left;
            }
        }
    }
    left
}

#[test]
fn repeat_is_its_calls_one_by_one() {
    let lines = all().into_iter().flat_map(|line| [line.with_undo(), line]);
    for case in lines.map(|line| line.case(2)).chain(refused()) {
        let expected = one_by_one(&case);
        assert!(response(case) == expected, "{:?}", expected.machine);
    }
}

#[test]
fn what_is_refused_ends_it() {
    let answers = refused().into_iter().map(|case| {
        let response = response(case);
        (response.answer, response.address)
    });
    let outside = |part: u32, address: u32| (10 + 256 * part, address);
    let expected = [
        (2, 0),
        (1, 0),
        (12, 0),
        (5, 0),
        (12, 0),
        outside(1, 0x7FFF_FF4A),
        outside(2, 0x7FFF_FFFF),
        outside(3, 0x8000_1002),
    ];
    assert_eq!(answers.collect::<Vec<_>>(), expected);
}
