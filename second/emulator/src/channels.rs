//! Document 000, 1.8 and 1.10: input, output, and requests of hard channels.

use crate::alternatives::chan_offset;
use crate::answers::Refusal;
use crate::memory::Work;
use crate::mistakes::{Care, Mistake};
use crate::registers::*;

impl<K: Care> Work<'_, K> {
    pub fn handle_channel_request(&mut self, request: u32, hc: usize) -> Result<(), Refusal> {
        let content = self.r_index_word(PORT_BASE, hc as u32)?;
        if request == RUN_REQUEST {
            self.run_request(content, hc)
        } else {
            self.ready_request(content)
        }
    }

    /// NotProcess.p stands in the channel word after a reset (DECISIONS 34).
    fn run_request(&mut self, content: u32, hc: usize) -> Result<(), Refusal> {
        if content == NOT_PROCESS && !self.wrong(Mistake::RunsEmptyChannel) {
            return Ok(());
        }
        self.w_index_word(PORT_BASE, hc as u32, NOT_PROCESS)?;
        self.run(content)
    }

    fn ready_request(&mut self, content: u32) -> Result<(), Refusal> {
        let process = content & !1;
        match self.r_index_word(process, POINTER_S)? {
            ENABLING => self.w_index_word(process, POINTER_S, READY),
            READY => Ok(()),
            WAITING => {
                self.w_index_word(process, POINTER_S, READY)?;
                self.run(content)
            }
            _ if self.wrong(Mistake::StopAsSkip) => Ok(()),
            _ => Err(Refusal::Stop),
        }
    }

    fn save_regs_pending_soft_io(&mut self) -> Result<(), Refusal> {
        self.w_index_word(self.regs[B], 0, self.regs[WDESC])?;
        self.w_index_word(self.wptr(), IPTR_S, self.regs[IPTR])?;
        self.w_index_word(self.wptr(), POINTER_S, self.regs[C])?;
        self.set_goto_snp();
        Ok(())
    }

    /// A count of 0 touches nothing and the process goes on (DECISIONS 28).
    fn hard_channel_input_output_action(&mut self, channel: usize) -> Result<bool, Refusal> {
        if self.regs[A] == 0 && !self.wrong(Mistake::EmptyTransferStarts) {
            return Ok(false);
        }
        self.w_index_word(self.regs[B], 0, self.regs[WDESC])?;
        self.w_index_word(self.wptr(), IPTR_S, self.regs[IPTR])?;
        self.regs[pointer_of(channel)] = self.regs[C];
        self.regs[count_of(channel)] = self.regs[A];
        self.regs[flags_of(channel)] |= ACTIVE;
        self.set_goto_snp();
        Ok(true)
    }

    /// A is the count, B the channel, C the pointer.
    pub fn input(&mut self) -> Result<(), Refusal> {
        if let Some(channel) = chan_offset(self.regs[B]) {
            let started = self.hard_channel_input_output_action(channel)?;
            let brings = channel >= 4 && self.regs[flags_of(channel)] & HELD != 0;
            if started && brings {
                self.bring_held(channel)?;
            }
            return Ok(());
        }
        let descriptor = self.r_index_word(self.regs[B], 0)?;
        if descriptor == NOT_PROCESS {
            return self.save_regs_pending_soft_io();
        }
        self.w_index_word(self.regs[B], 0, NOT_PROCESS)?;
        let source = self.r_index_word(descriptor & !1, POINTER_S)?;
        self.regs[B] = self.regs[C];
        self.regs[C] = source;
        self.message(descriptor)
    }

    /// `BlockMoveFinalStep` runs E: here the partner, as soon as the bytes are moved.
    fn message(&mut self, partner: u32) -> Result<(), Refusal> {
        if self.wrong(Mistake::EmptyMessageRunsNobody) && self.regs[A] == 0 {
            return Ok(());
        }
        self.block_move()?;
        self.run(partner)
    }

    pub fn output(&mut self) -> Result<(), Refusal> {
        if let Some(channel) = chan_offset(self.regs[B]) {
            let started = self.hard_channel_input_output_action(channel)?;
            if started && self.wrong(Mistake::OutBringsHeld) && channel >= 4 {
                self.bring_held(channel)?;
            }
            return Ok(());
        }
        let descriptor = self.r_index_word(self.regs[B], 0)?;
        if descriptor == NOT_PROCESS {
            return self.save_regs_pending_soft_io();
        }
        let process = descriptor & !1;
        match self.r_index_word(process, POINTER_S)? {
            ENABLING => {
                self.w_index_word(process, POINTER_S, READY)?;
                self.save_regs_pending_soft_io()
            }
            WAITING => {
                self.w_index_word(process, POINTER_S, READY)?;
                self.save_regs_pending_soft_io()?;
                self.run(descriptor)
            }
            READY => self.save_regs_pending_soft_io(),
            dest => {
                self.w_index_word(self.regs[B], 0, NOT_PROCESS)?;
                self.regs[B] = dest;
                self.message(descriptor)
            }
        }
    }

    /// Output word and output byte: the whole of A goes to local 0 (DECISIONS 42).
    pub fn output_of(&mut self, count: u32) -> Result<(), Refusal> {
        if self.wrong(Mistake::OutbyteStoresByte) && count == 1 {
            self.w_index_byte(self.wptr(), 0, self.regs[A])?;
        } else {
            self.w_index_word(self.wptr(), 0, self.regs[A])?;
        }
        self.regs[A] = count;
        self.regs[C] = self.wptr();
        self.output()
    }

    pub fn reset_channel(&mut self) -> Result<(), Refusal> {
        let address = self.regs[A];
        let content = self.r_index_word(address, 0)?;
        self.w_index_word(address, 0, NOT_PROCESS)?;
        if let Some(channel) = chan_offset(address) {
            let mut cleared = ACTIVE | ENABLED | HELD | RUN_REQUEST | READY_REQUEST;
            if self.wrong(Mistake::ResetchKeepsHeld) {
                cleared &= !HELD;
            }
            self.regs[flags_of(channel)] &= !cleared;
        }
        self.regs[A] = content;
        Ok(())
    }
}
