//! Document 01, "One step".

use crate::answers::Refusal;
use crate::memory::Work;
use crate::mistakes::{Care, Mistake};
use crate::registers::*;
use crate::words::later;

const PFIX: u32 = 2;
const NFIX: u32 = 6;

impl<K: Care> Work<'_, K> {
    pub fn step(&mut self) -> Result<(), Refusal> {
        let before = self.regs[STATUS];
        if self.regs[FLAGS] & HALTED != 0 {
            return Err(Refusal::Halted);
        }
        if self.wrong(Mistake::GotoSnpFirst) && before & GOTO_SNP != 0 {
            return self.start_next_process();
        }
        let prefix = self.act()?;
        let after = self.regs[STATUS];
        if after & GOTO_SNP != 0 && (!prefix || self.wrong(Mistake::PrefixActsOnGotoSnp)) {
            self.starting = true;
            self.start_next_process()?;
        }
        if self.wrong(Mistake::HaltJudgedBeforeStart) {
            self.halt_on_error(before, after);
        } else {
            self.halt_on_error(before, self.regs[STATUS]);
        }
        Ok(())
    }

    /// Does (a), (b) or (c), whichever applies first, and tells whether it was a prefix.
    fn act(&mut self) -> Result<bool, Refusal> {
        let between = self.regs[OREG] == 0;
        if between || self.wrong(Mistake::LinkServedBetweenPrefixes) {
            if let Some((channel, request)) = self.channel_request() {
                self.regs[flags_of(channel)] &= !request;
                self.handle_channel_request(request, channel)?;
                return Ok(false);
            }
        }
        if between || self.wrong(Mistake::TimerServedBetweenPrefixes) {
            if let Some(queue) = self.ready_timer() {
                self.handle_timer_request(queue)?;
                return Ok(false);
            }
        }
        if self.regs[FLAGS] & IDLE != 0 {
            return Err(Refusal::Idle);
        }
        self.instruction()
    }

    /// The lowest channel with a request, its run request before its ready request.
    fn channel_request(&self) -> Option<(usize, u32)> {
        let requests = |c: usize| self.regs[flags_of(c)] & (RUN_REQUEST | READY_REQUEST);
        let channel = if self.wrong(Mistake::HighestChannelFirst) {
            (0..LINK_CHANS).rev().find(|&c| requests(c) != 0)?
        } else {
            (0..LINK_CHANS).find(|&c| requests(c) != 0)?
        };
        let found = requests(channel);
        let run_first = !self.wrong(Mistake::ReadyBeforeRun) || found & READY_REQUEST == 0;
        if found & RUN_REQUEST != 0 && run_first {
            Some((channel, RUN_REQUEST))
        } else {
            Some((channel, READY_REQUEST))
        }
    }

    /// DECISIONS 16: the timer's flag bit, and timer 1 only while a low process is current.
    fn ready_timer(&self) -> Option<usize> {
        let ready = |queue: usize| {
            let enabled = self.regs[FLAGS] & TENABLED[queue] != 0;
            (enabled || self.wrong(Mistake::TimerFlagUnasked))
                && !later(self.care, self.regs[TNEXT[queue]], self.regs[CLOCK[queue]])
        };
        if ready(0) {
            return Some(0);
        }
        let low = self.priority() == 1 || self.wrong(Mistake::LowTimerAtHighPriority);
        (low && ready(1)).then_some(1)
    }

    /// (c): DECISIONS 2 says how the operand is built.
    fn instruction(&mut self) -> Result<bool, Refusal> {
        let byte = self.fetch_byte(self.regs[IPTR])?;
        self.regs[IPTR] = self.regs[IPTR].wrapping_add(1);
        let operand = self.regs[OREG] | (byte & 15);
        match byte >> 4 {
            PFIX => self.regs[OREG] = operand << 4,
            NFIX if self.wrong(Mistake::NfixShiftsFirst) => self.regs[OREG] = !(operand << 4),
            NFIX => self.regs[OREG] = !operand << 4,
            function => {
                self.regs[OREG] = operand;
                self.function(function, operand)?;
                if !(self.wrong(Mistake::RevLeavesOreg) && function == 15 && operand == 0) {
                    self.regs[OREG] = 0;
                }
                return Ok(false);
            }
        }
        Ok(true)
    }

    /// The error flag was clear before the step and is set after it (DECISIONS 18).
    fn halt_on_error(&mut self, before: u32, after: u32) {
        let rises = before & ERROR_FLAG == 0 || self.wrong(Mistake::OldErrorHalts);
        if rises && after & ERROR_FLAG != 0 && after & HALT_ON_ERROR != 0 {
            self.regs[FLAGS] |= HALTED;
        }
    }
}
