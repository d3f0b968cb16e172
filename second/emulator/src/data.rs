//! Document 000, 1.11: register manipulation, loops and bytes in memory.

use crate::answers::Refusal;
use crate::memory::Work;
use crate::mistakes::{Care, Mistake};
use crate::registers::*;
use crate::words::{at_byte, at_word, signed};

impl<K: Care> Work<'_, K> {
    pub fn ret(&mut self) -> Result<(), Refusal> {
        self.regs[IPTR] = self.r_index_word(self.wptr(), 0)?;
        self.update_workspace(at_word(self.wptr(), 4));
        Ok(())
    }

    pub fn load_pointer_to_instruction(&mut self) {
        self.regs[A] = at_byte(self.regs[IPTR], self.regs[A]);
    }

    pub fn general_adjust_workspace(&mut self) {
        let old = self.wptr();
        self.update_workspace(self.regs[A]);
        self.regs[A] = old;
    }

    pub fn general_call(&mut self) {
        self.regs.swap(IPTR, A);
    }

    /// Sums wrap before the test, and the time slice check stands after both branches (document 01).
    pub fn loop_end(&mut self) -> Result<(), Refusal> {
        let block = self.regs[B];
        let count = self.r_index_word(block, 1)?.wrapping_sub(1);
        self.regs[C] = count;
        self.w_index_word(block, 1, count)?;
        if self.loops_again(count) {
            let index = self.r_index_word(block, 0)?.wrapping_add(1);
            self.regs[C] = index;
            self.w_index_word(block, 0, index)?;
            self.regs[IPTR] = self.regs[IPTR].wrapping_sub(self.regs[A]);
        } else if self.wrong(Mistake::SliceOnlyWhenLooping) {
            return Ok(());
        }
        self.time_slice()
    }

    fn loops_again(&self, count: u32) -> bool {
        if self.wrong(Mistake::LendTestsBeforeWrap) {
            return signed(count) > 0 && count != MIN_INT - 1;
        }
        signed(count) > 0
    }

    /// B and C keep (DECISIONS 8).
    pub fn store_byte(&mut self) -> Result<(), Refusal> {
        self.w_index_byte(self.regs[A], 0, self.regs[B])?;
        self.regs[A] = self.regs[C];
        Ok(())
    }
}
