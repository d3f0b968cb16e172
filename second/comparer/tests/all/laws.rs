//! Laws that document 01 gives for every call, held against random states.

use comparer::case::{Call, Case, Response};
use comparer::generate::Generator;
use comparer::random::Random;
use comparer::respond::respond;
use comparer::table::{asked, Asked};
use emulator::registers::{pointer_of, IPTR, MIN_INT};
use emulator::{Emulator, Machine, MAX_MEMORY, RECORD, REGISTERS};

fn count() -> u32 {
    if cfg!(debug_assertions) {
        30_000
    } else {
        200_000
    }
}

#[test]
fn refusals_change_nothing_and_records_tell_everything() {
    let mut generator = Generator::new(11, &Call::ALL);
    let mut emulator = Emulator::new();
    for _ in 0..count() {
        let case = generator.case();
        let response = respond(&mut emulator, case.clone());
        match (response.answer, case.call) {
            (0, Call::Fresh | Call::Clear | Call::Undo) => {
                assert_eq!(case.journal, response.journal)
            }
            (0, _) => check_record(&mut emulator, &case, response),
            _ => check_refusal(&case, &response),
        }
    }
}

fn check_refusal(case: &Case, response: &Response) {
    let machine = if case.call == Call::Fresh {
        &Machine::ZERO
    } else {
        &case.machine
    };
    assert_eq!(&response.machine, machine);
    assert_eq!((&response.memory, response.byte), (&case.memory, 0));
    assert_eq!(response.journal, case.journal);
}

/// The record lists exactly the words that may have changed, in rising order, with their old values;
/// no other journal word is written, and undo leads back.
fn check_record(emulator: &mut Emulator, case: &Case, response: Response) {
    let (used, end) = (case.machine.used as usize, response.machine.used as usize);
    let pairs = (end - used - RECORD) / 2;
    let record = &response.journal[used..end];
    assert_eq!(end - used, RECORD + 2 * pairs);
    assert_eq!(response.machine.depth, case.machine.depth + 1);
    assert_eq!(record[2 * pairs..][..REGISTERS], case.machine.regs);
    assert_eq!(record[record.len() - 1], pairs as u32);
    assert_eq!(response.journal[..used], case.journal[..used]);
    assert_eq!(response.journal[end..], case.journal[end..]);
    let mut memory = response.memory.clone();
    let mut last = None;
    for pair in record[..2 * pairs].chunks(2) {
        assert!(last < Some(pair[0]));
        last = Some(pair[0]);
        memory[pair[0] as usize] = pair[1];
    }
    assert_eq!(memory, case.memory);
    let undone = respond(
        emulator,
        Case {
            call: Call::Undo,
            machine: response.machine,
            memory: response.memory,
            journal: response.journal.clone(),
            ..case.clone()
        },
    );
    assert_eq!((undone.answer, undone.machine), (0, case.machine.clone()));
    assert_eq!((undone.memory, undone.journal), (memory, response.journal));
}

/// An answer that is not 10 has neither part nor address. An access outside memory is told as the
/// access it is; and as the first of them: in a longer memory the answer is the same for as long as
/// that address is outside, and another one as soon as it is inside.
#[test]
fn the_first_access_outside_is_told() {
    let mut generator = Generator::new(12, &[Call::Step, Call::Take, Call::Give]);
    let mut random = Random::new(12);
    let mut emulator = Emulator::new();
    for _ in 0..count() {
        let case = generator.case();
        let response = respond(&mut emulator, case.clone());
        let address = response.address;
        if response.answer % 256 != 10 {
            assert_eq!((response.answer / 256, address), (0, 0));
            continue;
        }
        check_part(&case, &response);
        let index = (address.wrapping_sub(MIN_INT) / 4) as usize;
        let more = case.memory.len() + random.below(40) as usize;
        for words in [more, index, index + 1] {
            if words < case.memory.len() || words > MAX_MEMORY {
                continue;
            }
            let mut longer = case.clone();
            longer.memory.resize_with(words, || random.word());
            let again = respond(&mut emulator, longer);
            let same = (again.answer, again.address) == (response.answer, address);
            assert_eq!(same, index >= words, "{case:?}");
        }
    }
}

fn check_part(case: &Case, response: &Response) {
    let (regs, address) = (case.regs(), response.address);
    let outside = address.wrapping_sub(MIN_INT) / 4 >= case.memory.len() as u32;
    let fetch = matches!(asked(case), Asked::NoByte);
    let link = pointer_of(case.channel as usize);
    let agrees = match (response.answer / 256, case.call) {
        (1, Call::Step) => fetch && address == regs[IPTR],
        (2 | 3, Call::Step) => !fetch,
        (2, Call::Take) => address == regs[link],
        (3, Call::Give) => address == regs[link],
        _ => false,
    };
    assert!(outside && agrees, "{case:?} {address:X}");
}

/// Any words at all: no panic, no overflow, no hang.
#[test]
fn any_state_is_legal() {
    let mut random = Random::new(5);
    let mut emulator = Emulator::new();
    for _ in 0..count() {
        let words = random.between(60, 70) as usize;
        let journal = random.below(200) as usize;
        let any = random.word();
        let case = Case {
            call: random.pick(&Call::ALL),
            channel: random.pick(&[0, 1, 4, 5, any]),
            byte: random.word(),
            machine: Machine {
                regs: std::array::from_fn(|_| any_word(&mut random)),
                depth: random.below(4).into(),
                used: if random.percent(80) {
                    random.below(200).into()
                } else {
                    random.long()
                },
            },
            memory: (0..words).map(|_| any_word(&mut random)).collect(),
            journal: (0..journal).map(|_| any_word(&mut random)).collect(),
            code: vec![random.word() as u8; random.below(200) as usize],
        };
        respond(&mut emulator, case);
    }
}

/// Half of them in or near memory, the rest anything.
fn any_word(random: &mut Random) -> u32 {
    match random.below(4) {
        0 | 1 => 0x8000_0000 + random.below(4 * 72),
        2 => random.below(80).wrapping_sub(8),
        _ => random.word(),
    }
}
