//! Makes the call of a case with an emulator.

use emulator::{Care, Emulator, Machine, Refusal};

use crate::case::{Call, Case, Response};
use crate::protocol::answer_word;
use crate::repeat::repeat;

pub fn respond<K: Care>(emulator: &mut Emulator<K>, case: Case) -> Response {
    let Case {
        mut machine,
        mut memory,
        mut journal,
        ..
    } = case;
    let (m, mem, jou) = (&mut machine, &mut memory[..], &mut journal[..]);
    let mut byte = 0;
    let refusal = match case.call {
        Call::Fresh => {
            let fresh = emulator.fresh(mem, jou, &case.code);
            let refusal = fresh.as_ref().err().copied();
            machine = fresh.unwrap_or(Machine::ZERO);
            refusal
        }
        Call::Step => emulator.step(m, mem, jou).err(),
        Call::Tick => emulator.tick(m, mem, jou).err(),
        Call::Take => {
            let taken = emulator.take(m, mem, jou, case.channel);
            byte = u32::from(taken.unwrap_or(0));
            taken.err()
        }
        Call::Give => {
            let given = emulator.give(m, mem, jou, case.channel, case.byte as u8);
            given.err()
        }
        Call::Event => emulator.event(m, mem, jou).err(),
        Call::Undo => emulator.undo(m, mem, jou).err(),
        Call::Clear => emulator.clear(m, mem, jou).err(),
        Call::Repeat => repeat(emulator, m, mem, jou, &case.code).err(),
    };
    Response {
        answer: refusal.map_or(0, answer_word),
        byte,
        address: refusal.map_or(0, Refusal::address),
        machine,
        memory,
        journal,
    }
}
