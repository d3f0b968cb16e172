//! Document 000, 1.11: alternative input over skip and channel guards.

use crate::answers::Refusal;
use crate::memory::Work;
use crate::mistakes::{Care, Mistake};
use crate::registers::*;
use crate::words::at_byte;

impl<K: Care> Work<'_, K> {
    /// Local 0 takes A before A becomes true (DECISIONS 11).
    pub fn is_this_selected_process(&mut self) -> Result<(), Refusal> {
        let selected = self.r_index_word(self.wptr(), 0)?;
        if selected == NONE_SELECTED {
            self.w_index_word(self.wptr(), 0, self.regs[A])?;
            self.regs[A] = 1;
        } else {
            self.regs[A] = 0;
        }
        Ok(())
    }

    pub fn alt_start(&mut self) -> Result<(), Refusal> {
        self.w_index_word(self.wptr(), STATE_S, ENABLING)
    }

    /// A is left as State.s (DECISIONS 10).
    pub fn alt_wait(&mut self) -> Result<(), Refusal> {
        self.w_index_word(self.wptr(), 0, NONE_SELECTED)?;
        let state = self.r_index_word(self.wptr(), STATE_S)?;
        if !self.wrong(Mistake::AltwtKeepsA) {
            self.regs[A] = state;
        }
        if state == READY {
            return Ok(());
        }
        self.wait()
    }

    pub fn alt_end(&mut self) -> Result<(), Refusal> {
        let offset = self.r_index_word(self.wptr(), 0)?;
        self.regs[IPTR] = at_byte(self.regs[IPTR], offset);
        Ok(())
    }

    pub fn enable_skip(&mut self) -> Result<(), Refusal> {
        if self.regs[A] != 0 {
            self.w_index_word(self.wptr(), STATE_S, READY)?;
        }
        Ok(())
    }

    pub fn disable_skip(&mut self) -> Result<(), Refusal> {
        if self.regs[B] != 0 {
            self.is_this_selected_process()?;
        } else {
            self.regs[A] = 0;
        }
        self.regs[B] = self.regs[C];
        Ok(())
    }

    pub fn enable_channel(&mut self) -> Result<(), Refusal> {
        if self.regs[A] != 0 {
            match chan_offset(self.regs[B]) {
                Some(channel) => self.enable_hard_channel(channel)?,
                None => self.enable_soft_channel()?,
            }
        }
        self.regs[B] = self.regs[C];
        Ok(())
    }

    fn enable_soft_channel(&mut self) -> Result<(), Refusal> {
        let channel = self.regs[B];
        let content = self.r_index_word(channel, 0)?;
        if content == NOT_PROCESS {
            self.w_index_word(channel, 0, self.regs[WDESC])
        } else if content == self.regs[WDESC] {
            Ok(())
        } else {
            self.w_index_word(self.wptr(), STATE_S, READY)
        }
    }

    /// DECISIONS 30: only what document 01 says changes; a ready request stays.
    fn enable_hard_channel(&mut self, channel: usize) -> Result<(), Refusal> {
        if self.wrong(Mistake::EnbcSwallowsReady) {
            self.regs[flags_of(channel)] &= !READY_REQUEST;
        }
        if self.regs[flags_of(channel)] & HELD != 0 {
            return self.w_index_word(self.wptr(), STATE_S, READY);
        }
        self.regs[flags_of(channel)] |= ENABLED;
        self.w_index_word(self.regs[B], 0, self.regs[WDESC])
    }

    pub fn disable_channel(&mut self) -> Result<(), Refusal> {
        if self.regs[B] == 0 {
            self.regs[A] = 0;
            return Ok(());
        }
        match chan_offset(self.regs[C]) {
            Some(channel) => self.disable_hard_channel(channel),
            None => self.disable_soft_channel(),
        }
    }

    /// The channel word is left in B (DECISIONS 11).
    fn disable_soft_channel(&mut self) -> Result<(), Refusal> {
        let content = self.r_index_word(self.regs[C], 0)?;
        self.regs[B] = content;
        if content == NOT_PROCESS {
            self.regs[A] = 0;
            Ok(())
        } else if content == self.regs[WDESC] {
            self.w_index_word(self.regs[C], 0, NOT_PROCESS)?;
            self.regs[A] = 0;
            Ok(())
        } else {
            self.is_this_selected_process()
        }
    }

    fn disable_hard_channel(&mut self, channel: usize) -> Result<(), Refusal> {
        self.w_index_word(self.regs[C], 0, NOT_PROCESS)?;
        let ready = self.regs[flags_of(channel)] & HELD != 0;
        self.regs[flags_of(channel)] &= if self.wrong(Mistake::DiscLeavesRequest) {
            !ENABLED
        } else {
            !(ENABLED | READY_REQUEST)
        };
        if ready {
            return self.is_this_selected_process();
        }
        self.regs[A] = 0;
        Ok(())
    }
}

/// `ChanOffset`: the number of a hard channel, or none for a soft one (DECISIONS 33).
pub fn chan_offset(address: u32) -> Option<usize> {
    let number = (address.wrapping_sub(MIN_INT) >> 2) as usize;
    (number < LINK_CHANS).then_some(number)
}
