//! A sequence against its own history: a replay of the standing calls from fresh ends in the same
//! state, and k undos lead back to the state k standing calls ago.

use emulator::{Emulator, Machine};

use crate::case::{Call, Case, Response};
use crate::respond::respond;

/// The calls that stand: accepted and not undone.
pub struct History {
    fresh: Case,
    standing: Vec<Standing>,
}

struct Standing {
    call: Call,
    channel: u32,
    byte: u32,
    /// The state before the call.
    machine: Machine,
    memory: Vec<u32>,
}

impl History {
    pub fn new(fresh: &Case) -> History {
        History {
            fresh: fresh.clone(),
            standing: Vec::new(),
        }
    }

    pub fn follow(&mut self, case: &Case, response: &Response) {
        if response.answer != 0 || case.call == Call::Fresh {
            return;
        }
        if case.call == Call::Undo {
            self.standing.pop();
            return;
        }
        self.standing.push(Standing {
            call: case.call,
            channel: case.channel,
            byte: case.byte,
            machine: case.machine.clone(),
            memory: case.memory.clone(),
        });
    }

    pub fn check(&self, emulator: &mut Emulator, end: &Case) -> Result<(), String> {
        self.check_replay(emulator, end)?;
        self.check_undos(emulator, end)
    }

    /// Registers, depth, used, memory and the records themselves are those of the standing calls.
    fn check_replay(&self, emulator: &mut Emulator, end: &Case) -> Result<(), String> {
        let mut left = respond(emulator, self.fresh.clone());
        for standing in &self.standing {
            let case = Case {
                call: standing.call,
                channel: standing.channel,
                byte: standing.byte,
                machine: left.machine,
                memory: left.memory,
                journal: left.journal,
                code: Vec::new(),
            };
            left = respond(emulator, case);
            if left.answer != 0 {
                return Err("history: a standing call was refused in the replay".into());
            }
        }
        let used = left.machine.used as usize;
        if left.machine != end.machine || left.memory != end.memory {
            return Err("history: the replay ends in another state".into());
        }
        if left.journal[..used] != end.journal[..used] {
            return Err("history: the replay leaves other records".into());
        }
        Ok(())
    }

    /// As many undos as there are records, each back to the state before its call.
    fn check_undos(&self, emulator: &mut Emulator, end: &Case) -> Result<(), String> {
        let mut machine = end.machine.clone();
        let mut memory = end.memory.clone();
        for standing in self.standing.iter().rev() {
            if machine.depth == 0 {
                break;
            }
            let undone = emulator.undo(&mut machine, &mut memory, &end.journal);
            if undone.is_err() || machine != standing.machine || memory != standing.memory {
                return Err("history: an undo does not lead back".into());
            }
        }
        if machine.depth == 0 && machine.used == 0 {
            return Ok(());
        }
        Err("history: records are left after all undos".into())
    }
}
