//! Document 01, "Links, clocks, slice": what comes from outside.

use std::ops::Range;

use crate::answers::Refusal;
use crate::memory::Work;
use crate::mistakes::{Care, Mistake};
use crate::registers::*;
use crate::scheduling::SLICE_PERIOD;
use crate::words::byte_of;

/// BadChannel for a link outside the call's own.
pub fn among(channel: u32, links: Range<u32>) -> Result<usize, Refusal> {
    if !links.contains(&channel) {
        return Err(Refusal::BadChannel);
    }
    Ok(channel as usize)
}

impl<K: Care> Work<'_, K> {
    /// Active with a count of 0 is not moving (DECISIONS 32).
    fn moving(&self, channel: usize) -> bool {
        let counts = self.regs[count_of(channel)] != 0 || self.wrong(Mistake::ActiveIsMoving);
        self.regs[flags_of(channel)] & ACTIVE != 0 && counts
    }

    pub fn take(&mut self, channel: usize) -> Result<u8, Refusal> {
        if !self.moving(channel) {
            return Err(Refusal::NotReady);
        }
        let byte = self.r_index_byte(self.regs[pointer_of(channel)], 0);
        let byte = byte.map_err(|refusal| self.exchanged(refusal))?;
        self.one_byte_passed(channel);
        Ok(byte as u8)
    }

    pub fn give(&mut self, channel: usize, byte: u8) -> Result<(), Refusal> {
        if self.moving(channel) {
            let stored = self.store_given(channel, u32::from(byte));
            return stored.map_err(|refusal| self.exchanged(refusal));
        }
        let flags = &mut self.regs[flags_of(channel)];
        if *flags & HELD != 0 {
            return Err(Refusal::NotReady);
        }
        *flags = (*flags & !HELD_BYTE) | (u32::from(byte) << 8);
        self.hold(channel);
        Ok(())
    }

    /// A wrong variant takes the access of take for a store, that of give for a load.
    fn exchanged(&self, refusal: Refusal) -> Refusal {
        match refusal {
            _ if !self.wrong(Mistake::TakeAndGiveExchanged) => refusal,
            Refusal::OutsideLoad(address) => Refusal::OutsideStore(address),
            Refusal::OutsideStore(address) => Refusal::OutsideLoad(address),
            _ => refusal,
        }
    }

    pub fn event(&mut self) -> Result<(), Refusal> {
        if self.moving(EVENT) {
            self.event_met();
            return Ok(());
        }
        if self.regs[flags_of(EVENT)] & HELD != 0 {
            return Err(Refusal::NotReady);
        }
        self.hold(EVENT);
        Ok(())
    }

    /// Something is held from now on; an enabled channel asks for its process.
    fn hold(&mut self, channel: usize) {
        let flags = &mut self.regs[flags_of(channel)];
        *flags |= HELD;
        if *flags & ENABLED != 0 {
            *flags = (*flags & !ENABLED) | READY_REQUEST;
        }
    }

    /// An `in` has just started on a channel where something is held (DECISIONS 29).
    pub fn bring_held(&mut self, channel: usize) -> Result<(), Refusal> {
        let flags = self.regs[flags_of(channel)];
        if !self.wrong(Mistake::HeldStays) {
            self.regs[flags_of(channel)] &= !HELD;
        }
        if channel == EVENT {
            self.event_met();
            return Ok(());
        }
        self.store_given(channel, byte_of(flags, 1))
    }

    fn store_given(&mut self, channel: usize, byte: u32) -> Result<(), Refusal> {
        self.w_index_byte(self.regs[pointer_of(channel)], 0, byte)?;
        self.one_byte_passed(channel);
        Ok(())
    }

    fn one_byte_passed(&mut self, channel: usize) {
        let pointer = &mut self.regs[pointer_of(channel)];
        *pointer = pointer.wrapping_add(1);
        let count = &mut self.regs[count_of(channel)];
        *count = count.wrapping_sub(1);
        if *count == 0 {
            self.transfer_ends(channel);
        }
    }

    /// One event meets a transfer of any count and leaves the pointer.
    fn event_met(&mut self) {
        self.regs[count_of(EVENT)] = 0;
        if self.wrong(Mistake::EventMovesPointer) {
            let pointer = &mut self.regs[pointer_of(EVENT)];
            *pointer = pointer.wrapping_add(1);
        }
        self.transfer_ends(EVENT);
    }

    fn transfer_ends(&mut self, channel: usize) {
        let flags = &mut self.regs[flags_of(channel)];
        *flags = (*flags & !ACTIVE) | RUN_REQUEST;
    }

    /// One microsecond. Registers stay while the clocks do not run (DECISIONS 37).
    pub fn tick(&mut self) {
        if self.regs[FLAGS] & CLOCKS_RUN == 0 {
            return;
        }
        self.regs[CLOCK[0]] = self.regs[CLOCK[0]].wrapping_add(1);
        if self.prescaler_full() {
            self.regs[PRESCALER] = 0;
            self.regs[CLOCK[1]] = self.regs[CLOCK[1]].wrapping_add(1);
        } else {
            self.regs[PRESCALER] = self.regs[PRESCALER].wrapping_add(1);
        }
        if self.slice_grows() {
            self.regs[SLICE] = self.regs[SLICE].wrapping_add(1);
        }
    }

    /// Document 02, No. 3: on the ticks of a low process, while the machine is not idle (DECISIONS 64).
    fn slice_grows(&self) -> bool {
        let below = self.regs[SLICE] < SLICE_PERIOD || self.wrong(Mistake::SliceGrowsOn);
        let low = self.priority() == 1 || self.wrong(Mistake::SliceGrowsAtHighPriority);
        let busy = self.regs[FLAGS] & IDLE == 0 || self.wrong(Mistake::SliceGrowsWhileIdle);
        let stopped = self.wrong(Mistake::SliceStopsWhenHalted) && self.regs[FLAGS] & HALTED != 0;
        below && low && busy && !stopped
    }

    fn prescaler_full(&self) -> bool {
        if self.wrong(Mistake::PrescalerOnlyAt63) {
            return self.regs[PRESCALER] == 63;
        }
        self.regs[PRESCALER] >= 63
    }
}
