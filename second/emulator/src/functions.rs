//! Document 000, 1.11: the direct functions.

use crate::answers::Refusal;
use crate::memory::Work;
use crate::mistakes::{Care, Mistake};
use crate::registers::*;
use crate::words::{at_byte, at_word, machine, signed};

impl<K: Care> Work<'_, K> {
    /// Any function but the two prefixes.
    pub fn function(&mut self, function: u32, operand: u32) -> Result<(), Refusal> {
        match function {
            0x0 => self.jump(operand)?,
            0x1 => self.push(at_word(self.wptr(), operand)),
            0x3 => self.regs[A] = self.r_index_word(self.regs[A], operand)?,
            0x4 => self.push(operand),
            0x5 => self.regs[A] = at_word(self.regs[A], operand),
            0x7 => {
                let local = self.r_index_word(self.wptr(), operand)?;
                self.push(local);
            }
            0x8 => self.add_constant(operand),
            0x9 => self.call(operand)?,
            0xA => self.conditional_jump(operand),
            0xB => self.update_workspace(at_word(self.wptr(), operand)),
            0xC => self.regs[A] = machine(self.regs[A] == operand),
            0xD => {
                self.w_index_word(self.wptr(), operand, self.regs[A])?;
                self.pop();
            }
            0xE => {
                self.w_index_word(self.regs[A], operand, self.regs[B])?;
                self.regs[A] = self.regs[C];
                if self.wrong(Mistake::StnlPopsTwo) {
                    self.regs[B] = self.regs[C];
                }
            }
            _ => self.operate(operand)?,
        }
        Ok(())
    }

    fn jump(&mut self, operand: u32) -> Result<(), Refusal> {
        if self.wrong(Mistake::SliceBeforeJump) {
            self.time_slice()?;
            self.regs[IPTR] = at_byte(self.regs[IPTR], operand);
            return Ok(());
        }
        self.regs[IPTR] = at_byte(self.regs[IPTR], operand);
        self.time_slice()
    }

    fn add_constant(&mut self, operand: u32) {
        let sum = i64::from(signed(self.regs[A])) + i64::from(signed(operand));
        self.regs[A] = self.overflow_check(sum);
    }

    fn conditional_jump(&mut self, operand: u32) {
        if self.regs[A] == 0 {
            self.regs[IPTR] = at_byte(self.regs[IPTR], operand);
            if self.wrong(Mistake::CjPopsWhenTaken) {
                self.pop();
            }
        } else {
            self.pop();
        }
    }

    fn call(&mut self, operand: u32) -> Result<(), Refusal> {
        let wptr = self.wptr();
        let iptr = self.regs[IPTR];
        if self.wrong(Mistake::CallFrameFromBelow) {
            self.w_index_word(wptr, below(4), iptr)?;
        }
        self.w_index_word(wptr, below(1), self.regs[C])?;
        self.w_index_word(wptr, below(2), self.regs[B])?;
        self.w_index_word(wptr, below(3), self.regs[A])?;
        self.w_index_word(wptr, below(4), iptr)?;
        self.regs[A] = iptr;
        self.update_workspace(at_word(wptr, below(4)));
        self.regs[IPTR] = at_byte(iptr, operand);
        Ok(())
    }
}
