//! Document 000, 1.2 and 1.3: Status flags, the current process's workspace, the evaluation stack.

use crate::memory::Work;
use crate::mistakes::{Care, Mistake};
use crate::registers::*;

impl<K: Care> Work<'_, K> {
    pub fn set_error_flag(&mut self) {
        self.regs[STATUS] |= ERROR_FLAG;
    }

    pub fn set_goto_snp(&mut self) {
        self.regs[STATUS] |= GOTO_SNP;
    }

    /// `Priority`: 0 high, 1 low.
    #[inline(always)]
    pub fn priority(&self) -> usize {
        (self.regs[WDESC] & 1) as usize
    }

    /// `Wptr`: bit 1 stays (DECISIONS 12).
    #[inline(always)]
    pub fn wptr(&self) -> u32 {
        self.regs[WDESC] & !1
    }

    /// `UpDateWdescReg (temp BITOR Priority)`.
    pub fn update_workspace(&mut self, pointer: u32) {
        let priority = self.regs[WDESC] & 1;
        let kept = if self.wrong(Mistake::WorkspaceMasked) {
            pointer & !3
        } else {
            pointer
        };
        self.regs[WDESC] = kept | priority;
    }

    /// Pushes on the evaluation stack.
    #[inline(always)]
    pub fn push(&mut self, x: u32) {
        self.regs[C] = self.regs[B];
        self.regs[B] = self.regs[A];
        self.regs[A] = x;
    }

    /// A takes a result of two operands, the rest moves up.
    #[inline(always)]
    pub fn result(&mut self, x: u32) {
        self.regs[A] = x;
        self.regs[B] = self.regs[C];
    }

    /// Pops A.
    #[inline(always)]
    pub fn pop(&mut self) {
        self.regs[A] = self.regs[B];
        self.regs[B] = self.regs[C];
    }
}
