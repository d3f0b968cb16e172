//! Document 000, 1.8 to 1.10: processes, queues and interrupts.

use crate::answers::Refusal;
use crate::memory::Work;
use crate::mistakes::{Care, Mistake};
use crate::registers::*;
use crate::words::at_byte;

/// A low process is sliced from this value of the slice register on.
pub const SLICE_PERIOD: u32 = 1024;

impl<K: Care> Work<'_, K> {
    /// The back pointer is set in both cases (DECISIONS 23).
    fn enqueue(&mut self, process: u32, level: usize) -> Result<(), Refusal> {
        if self.regs[FPTR[level]] == NOT_PROCESS {
            self.regs[FPTR[level]] = process;
            if self.wrong(Mistake::FirstLeavesBack) {
                return Ok(());
            }
        } else {
            self.w_index_word(self.regs[BPTR[level]], LINK_S, process)?;
        }
        self.regs[BPTR[level]] = process;
        Ok(())
    }

    fn dequeue(&mut self, level: usize) -> Result<(), Refusal> {
        let front = self.regs[FPTR[level]];
        self.regs[WDESC] = if self.wrong(Mistake::OddFrontMasked) {
            (front & !1) | level as u32
        } else {
            front | level as u32
        };
        if front == self.regs[BPTR[level]] {
            self.regs[FPTR[level]] = NOT_PROCESS;
        } else {
            self.regs[FPTR[level]] = self.r_index_word(front, LINK_S)?;
        }
        if level == 1 || self.wrong(Mistake::SliceZeroedByHighQueue) {
            self.regs[SLICE] = 0;
        }
        Ok(())
    }

    fn activate_process(&mut self) -> Result<(), Refusal> {
        self.regs[OREG] = 0;
        self.regs[IPTR] = self.r_index_word(self.wptr(), IPTR_S)?;
        if !self.wrong(Mistake::IdleNotCleared) {
            self.regs[FLAGS] &= !IDLE;
        }
        if self.wrong(Mistake::SliceZeroedByEveryStart) {
            self.regs[SLICE] = 0;
        }
        Ok(())
    }

    fn dequeue_and_activate(&mut self, level: usize) -> Result<(), Refusal> {
        self.dequeue(level)?;
        self.activate_process()
    }

    fn queue_has_process(&self, level: usize) -> bool {
        self.regs[FPTR[level]] != NOT_PROCESS || self.wrong(Mistake::FrontUnasked)
    }

    pub fn start_next_process(&mut self) -> Result<(), Refusal> {
        self.regs[STATUS] &= !GOTO_SNP;
        if self.priority() == 0 {
            if self.queue_has_process(0) {
                return self.dequeue_and_activate(0);
            }
            return self.no_further_high_priority_processes();
        }
        if self.queue_has_process(1) {
            return self.dequeue_and_activate(1);
        }
        self.regs[WDESC] = NO_LOW_PROCESS;
        self.regs[FLAGS] |= IDLE;
        Ok(())
    }

    fn no_further_high_priority_processes(&mut self) -> Result<(), Refusal> {
        self.restore_registers()?;
        if self.wptr() != NOT_PROCESS {
            if !self.wrong(Mistake::IdleKeptByRestore) {
                self.regs[FLAGS] &= !IDLE;
            }
            return Ok(());
        }
        if self.queue_has_process(1) {
            return self.dequeue_and_activate(1);
        }
        self.regs[FLAGS] |= IDLE;
        Ok(())
    }

    /// E is not among the registers: where document 000 saves it, 0 is stored (DECISIONS 21).
    fn save_registers(&mut self, save_ereg: bool) -> Result<(), Refusal> {
        self.w_index_word(SAVE_BASE, WDESC_INT_SAVE, self.regs[WDESC])?;
        if self.regs[WDESC] != NO_LOW_PROCESS {
            let mut status = self.regs[STATUS];
            if self.wrong(Mistake::GotoSnpNotSaved) {
                status &= !GOTO_SNP;
            }
            self.w_index_word(SAVE_BASE, IPTR_INT_SAVE, self.regs[IPTR])?;
            self.w_index_word(SAVE_BASE, AREG_INT_SAVE, self.regs[A])?;
            self.w_index_word(SAVE_BASE, BREG_INT_SAVE, self.regs[B])?;
            self.w_index_word(SAVE_BASE, CREG_INT_SAVE, self.regs[C])?;
            self.w_index_word(SAVE_BASE, STATUS_INT_SAVE, status)?;
        }
        if save_ereg && !self.wrong(Mistake::ZeroForENotStored) {
            self.w_index_word(SAVE_BASE, EREG_INT_SAVE, 0)?;
        }
        Ok(())
    }

    /// DECISIONS 22: the whole descriptor is compared.
    fn restore_registers(&mut self) -> Result<(), Refusal> {
        self.regs[WDESC] = self.r_index_word(SAVE_BASE, WDESC_INT_SAVE)?;
        let none = if self.wrong(Mistake::RestoreComparesWptr) {
            self.wptr() == NOT_PROCESS
        } else {
            self.regs[WDESC] == NO_LOW_PROCESS
        };
        if !none {
            self.regs[IPTR] = self.r_index_word(SAVE_BASE, IPTR_INT_SAVE)?;
            self.regs[A] = self.r_index_word(SAVE_BASE, AREG_INT_SAVE)?;
            self.regs[B] = self.r_index_word(SAVE_BASE, BREG_INT_SAVE)?;
            self.regs[C] = self.r_index_word(SAVE_BASE, CREG_INT_SAVE)?;
            self.regs[STATUS] = self.r_index_word(SAVE_BASE, STATUS_INT_SAVE)?;
        }
        Ok(())
    }

    pub fn wait(&mut self) -> Result<(), Refusal> {
        self.w_index_word(self.wptr(), STATE_S, WAITING)?;
        self.w_index_word(self.wptr(), IPTR_S, self.regs[IPTR])?;
        self.set_goto_snp();
        Ok(())
    }

    pub fn run(&mut self, descriptor: u32) -> Result<(), Refusal> {
        let level = (descriptor & 1) as usize;
        let process = descriptor & !1;
        if self.priority() == 0 {
            return self.enqueue(process, level);
        }
        if level == 0 {
            return self.interrupt(descriptor);
        }
        if self.wptr() == NOT_PROCESS {
            self.regs[WDESC] = descriptor;
            return self.activate_process();
        }
        self.enqueue(process, 1)
    }

    /// A high process comes while a low one is current. Status bits 2 to 6 stay (DECISIONS 20).
    fn interrupt(&mut self, descriptor: u32) -> Result<(), Refusal> {
        self.save_registers(self.regs[STATUS] & MOVE_BIT != 0)?;
        self.interrupting = true;
        self.regs[WDESC] = descriptor;
        self.regs[STATUS] &= if self.wrong(Mistake::InterruptClearsSavedBits) {
            ERROR_FLAG | HALT_ON_ERROR
        } else {
            ERROR_FLAG | HALT_ON_ERROR | SAVED_ONLY
        };
        self.activate_process()
    }

    /// Document 000, 1.9: `TimeSlice`, with document 01's numbers.
    pub fn time_slice(&mut self) -> Result<(), Refusal> {
        let clocks_run = self.regs[FLAGS] & CLOCKS_RUN != 0 || self.wrong(Mistake::SliceUnasked);
        let due = self.regs[SLICE] >= SLICE_PERIOD;
        if self.priority() == 0 || !clocks_run || !due {
            return Ok(());
        }
        self.w_index_word(self.wptr(), IPTR_S, self.regs[IPTR])?;
        self.run(self.regs[WDESC])?;
        self.set_goto_snp();
        Ok(())
    }

    pub fn start_process(&mut self) -> Result<(), Refusal> {
        let start = at_byte(self.regs[IPTR], self.regs[B]);
        self.w_index_word(self.regs[A], IPTR_S, start)?;
        self.run(self.regs[A] | self.priority() as u32)
    }

    pub fn end_process(&mut self) -> Result<(), Refusal> {
        let count = self.r_index_word(self.regs[A], 1)?;
        if count == 1 {
            self.regs[IPTR] = self.r_index_word(self.regs[A], 0)?;
            self.update_workspace(self.regs[A]);
            return Ok(());
        }
        self.w_index_word(self.regs[A], 1, count.wrapping_sub(1))?;
        self.set_goto_snp();
        Ok(())
    }

    pub fn stop_process(&mut self) -> Result<(), Refusal> {
        self.w_index_word(self.wptr(), IPTR_S, self.regs[IPTR])?;
        self.set_goto_snp();
        Ok(())
    }
}
