//! The eight calls. Each call's checks run in the order of document 01's table of answers.

use std::cell::Cell;

use crate::answers::Refusal;
use crate::journal;
use crate::links;
use crate::machine::Machine;
use crate::memory::{Kept, Work};
use crate::mistakes::{Care, Mistake, Right};
use crate::registers::*;
use crate::words::with_byte;

pub const MIN_MEMORY: usize = 64;
pub const MAX_MEMORY: usize = 16_384;
pub const MAX_JOURNAL: usize = 65_536;

/// Makes calls. It owns only the room for a call's old values, which is used again by the next one.
#[derive(Debug, Default)]
pub struct Emulator<K = Right> {
    care: K,
    kept: Vec<Kept>,
}

impl Emulator<Right> {
    pub fn new() -> Self {
        Emulator::default()
    }
}

impl<K: Care> Emulator<K> {
    /// An emulator that makes the given mistake, for the comparer's own test.
    pub fn with(care: K) -> Self {
        let kept = Vec::new();
        Emulator { care, kept }
    }

    /// Document 01, "Fresh takes memory, journal and a code slice".
    pub fn fresh(
        &mut self,
        memory: &mut [u32],
        journal: &[u32],
        code: &[u8],
    ) -> Result<Machine, Refusal> {
        check_size(memory, journal)?;
        let start = ((MEM_START - MIN_INT) / 4) as usize;
        let end = start + code.len().div_ceil(4);
        let spare = usize::from(!self.care.wrong(Mistake::FreshWithoutSpareWord));
        if code.is_empty() || end + spare > memory.len() {
            return Err(Refusal::CodeSize);
        }
        memory.fill(0);
        let specials = if self.care.wrong(Mistake::FreshForgetsSaveArea) {
            11
        } else {
            12
        };
        memory[..specials].fill(NOT_PROCESS);
        for (i, &byte) in code.iter().enumerate() {
            let place = &mut memory[start + i / 4];
            *place = with_byte(*place, (i % 4) as u32, u32::from(byte));
        }
        let mut machine = Machine::ZERO;
        machine.regs[IPTR] = MEM_START;
        machine.regs[WDESC] = word(end as u32) | 1;
        machine.regs[FPTR[0]] = NOT_PROCESS;
        machine.regs[FPTR[1]] = NOT_PROCESS;
        Ok(machine)
    }

    pub fn step(
        &mut self,
        machine: &mut Machine,
        memory: &mut [u32],
        journal: &mut [u32],
    ) -> Result<(), Refusal> {
        self.recorded(machine, memory, journal, Ok(()), |work, ()| work.step())
    }

    pub fn tick(
        &mut self,
        machine: &mut Machine,
        memory: &mut [u32],
        journal: &mut [u32],
    ) -> Result<(), Refusal> {
        self.recorded(machine, memory, journal, Ok(()), |work, ()| {
            work.tick();
            Ok(())
        })
    }

    /// Takes a byte from an output link.
    pub fn take(
        &mut self,
        machine: &mut Machine,
        memory: &mut [u32],
        journal: &mut [u32],
        channel: u32,
    ) -> Result<u8, Refusal> {
        let channel = links::among(channel, 0..4);
        self.recorded(machine, memory, journal, channel, |work, c| work.take(c))
    }

    /// Gives a byte to an input link.
    pub fn give(
        &mut self,
        machine: &mut Machine,
        memory: &mut [u32],
        journal: &mut [u32],
        channel: u32,
        byte: u8,
    ) -> Result<(), Refusal> {
        let channel = links::among(channel, 4..8);
        self.recorded(machine, memory, journal, channel, |work, c| {
            work.give(c, byte)
        })
    }

    pub fn event(
        &mut self,
        machine: &mut Machine,
        memory: &mut [u32],
        journal: &mut [u32],
    ) -> Result<(), Refusal> {
        self.recorded(machine, memory, journal, Ok(()), |work, ()| work.event())
    }

    pub fn undo(
        &mut self,
        machine: &mut Machine,
        memory: &mut [u32],
        journal: &[u32],
    ) -> Result<(), Refusal> {
        check_size(memory, journal)?;
        if self.care.wrong(Mistake::NothingToUndoFirst) && machine.depth == 0 {
            return Err(Refusal::NothingToUndo);
        }
        journal::check(self.care, machine, journal)?;
        journal::undo(self.care, machine, memory, journal)
    }

    pub fn clear(
        &mut self,
        machine: &mut Machine,
        memory: &[u32],
        journal: &[u32],
    ) -> Result<(), Refusal> {
        check_size(memory, journal)?;
        if self.care.wrong(Mistake::ClearChecksJournal) {
            journal::check(self.care, machine, journal)?;
        }
        machine.depth = 0;
        machine.used = 0;
        Ok(())
    }

    /// Makes a call that adds a record: refuses Size, BadChannel and JournalBad in this order, runs
    /// the body, then either adds the record or restores the old values. `channel` is the answer of
    /// the channel check; a call without one gives `Ok(())`.
    fn recorded<C, T>(
        &mut self,
        machine: &mut Machine,
        memory: &mut [u32],
        journal: &mut [u32],
        channel: Result<C, Refusal>,
        body: impl FnOnce(&mut Work<K>, C) -> Result<T, Refusal>,
    ) -> Result<T, Refusal> {
        check_size(memory, journal)?;
        let channel = channel?;
        journal::check(self.care, machine, journal)?;
        let old = machine.regs;
        self.kept.clear();
        let mut work = Work {
            regs: &mut machine.regs,
            memory,
            kept: &mut self.kept,
            moved: 0..0,
            moved_kept: 0..0,
            care: self.care,
            starting: false,
            interrupting: false,
            late: Cell::new(None),
        };
        let mut done = body(&mut work, channel);
        if let Some(last) = work.late.get() {
            done = Err(last);
        }
        let answer = done.and_then(|done| {
            journal::add(self.care, machine, journal, &old, &mut self.kept)?;
            Ok(done)
        });
        if answer.is_err() {
            self.take_back(machine, memory, &old);
        }
        answer
    }

    fn take_back(&self, machine: &mut Machine, memory: &mut [u32], old: &Registers) {
        for &(index, value) in self.kept.iter().rev() {
            memory[index as usize] = value;
        }
        let fetched = machine.regs[IPTR];
        machine.regs = *old;
        if self.care.wrong(Mistake::DepthGrowsOnRefusal) {
            machine.depth += 1;
        }
        if self.care.wrong(Mistake::UsedGrowsOnRefusal) {
            machine.used += journal::RECORD as u64;
        }
        if self.care.wrong(Mistake::RefusalKeepsIptr) {
            machine.regs[IPTR] = fetched;
        }
    }
}

fn check_size(memory: &[u32], journal: &[u32]) -> Result<(), Refusal> {
    let fits = (MIN_MEMORY..=MAX_MEMORY).contains(&memory.len());
    if !fits || journal.len() > MAX_JOURNAL {
        return Err(Refusal::Size);
    }
    Ok(())
}
