//! Document 000, 1.11: the operations, with document 01's built list (81 codes, DECISIONS 1).

use crate::answers::Refusal;
use crate::memory::Work;
use crate::mistakes::{Care, Mistake};
use crate::registers::*;
use crate::words::{machine, signed};

impl<K: Care> Work<'_, K> {
    /// `Secondary`: the code is the whole operand.
    pub fn operate(&mut self, code: u32) -> Result<(), Refusal> {
        match code {
            0x00..=0x0F => self.short(code),
            0x10..=0x2F => self.middle(code),
            _ => self.upper(code),
        }
    }

    fn short(&mut self, code: u32) -> Result<(), Refusal> {
        match code {
            0x00 => self.reverse(),
            0x01 => self.regs[A] = self.r_index_byte(self.regs[A], 0)?,
            0x02 => self.byte_subscript(),
            0x03 => self.end_process()?,
            0x04 => self.difference(),
            0x05 => self.add(),
            0x06 => self.general_call(),
            0x07 => self.input()?,
            0x08 => self.product(),
            0x09 => self.greater_than(),
            0x0A => self.word_subscript(),
            0x0B => self.output()?,
            0x0C => self.subtract(),
            0x0D => self.start_process()?,
            0x0E => self.output_of(1)?,
            _ => self.output_of(4)?,
        }
        Ok(())
    }

    fn middle(&mut self, code: u32) -> Result<(), Refusal> {
        match code {
            0x10 => self.set_error_flag(),
            0x12 => self.reset_channel()?,
            0x13 => self.check_subscript_from_0(),
            0x15 => self.stop_process()?,
            0x16 => self.long_add(),
            0x17 => self.store_queue_register(BPTR[1]),
            0x18 => self.store_queue_register(FPTR[0]),
            0x19 => self.normalise(),
            0x1A => self.long_divide(),
            0x1B => self.load_pointer_to_instruction(),
            0x1C => self.store_queue_register(FPTR[1]),
            0x1D => self.extend_to_double(),
            0x1E => self.push(self.priority() as u32),
            0x1F => self.remainder(),
            0x20 => self.ret()?,
            0x21 => self.loop_end()?,
            0x22 => self.push(self.regs[CLOCK[self.priority()]]),
            0x29 => self.test_error(),
            0x2A => self.push(machine(false)),
            0x2B => self.timer_input()?,
            0x2C => self.divide(),
            0x2E => self.disable_timer()?,
            0x2F => self.disable_channel()?,
            _ => return Err(Refusal::Unlisted),
        }
        Ok(())
    }

    fn upper(&mut self, code: u32) -> Result<(), Refusal> {
        match code {
            0x30 => self.disable_skip()?,
            0x31 => self.long_multiply(),
            0x32 => self.regs[A] = !self.regs[A],
            0x33 => self.result(self.regs[B] ^ self.regs[A]),
            0x34 => self.regs[A] = self.regs[A].wrapping_mul(4),
            0x35 => self.long_shift_right()?,
            0x36 => self.long_shift_left()?,
            0x37 => self.long_sum(),
            0x38 => self.long_subtract(),
            0x39 => self.run(self.regs[A])?,
            0x3A => self.extend_to_word(),
            0x3B => self.store_byte()?,
            0x3C => self.general_adjust_workspace(),
            0x3D => self.save_queue_registers(1)?,
            0x3E => self.save_queue_registers(0)?,
            0x3F => self.word_count(),
            0x40 => self.shift_right()?,
            0x41 => self.shift_left()?,
            0x42 => self.push(MIN_INT),
            0x43 => self.alt_start()?,
            0x44 => self.alt_wait()?,
            0x45 => self.alt_end()?,
            0x46 => self.result(self.regs[A] & self.regs[B]),
            0x47 => self.enable_timer()?,
            0x48 => self.enable_channel()?,
            0x49 => self.enable_skip()?,
            0x4A => self.block_move()?,
            0x4B => self.result(self.regs[B] | self.regs[A]),
            0x4C => self.check_single(),
            0x4D => self.check_count_from_1(),
            0x4E => self.timer_alt_start()?,
            0x4F => self.long_diff(),
            0x50 => self.store_queue_register(BPTR[0]),
            0x51 => self.timer_alt_wait()?,
            0x52 => self.result(self.regs[B].wrapping_add(self.regs[A])),
            0x53 => self.multiply(),
            0x54 => self.store_timer(),
            0x55 => self.stop_on_error()?,
            0x56 => self.check_word(),
            0x57 => self.regs[STATUS] &= !HALT_ON_ERROR,
            0x58 => self.regs[STATUS] |= HALT_ON_ERROR,
            0x59 => self.push(machine(self.regs[STATUS] & HALT_ON_ERROR != 0)),
            _ => return Err(Refusal::Unlisted),
        }
        Ok(())
    }

    fn reverse(&mut self) {
        self.regs[OREG] = self.regs[A];
        self.regs[A] = self.regs[B];
        self.regs[B] = self.regs[OREG];
    }

    fn greater_than(&mut self) {
        let greater = self.greater(self.regs[B], self.regs[A]);
        self.result(machine(greater));
    }

    fn greater(&self, left: u32, right: u32) -> bool {
        if self.wrong(Mistake::UnsignedGt) {
            return left > right;
        }
        signed(left) > signed(right)
    }

    fn test_error(&mut self) {
        self.push(machine(self.regs[STATUS] & ERROR_FLAG == 0));
        self.regs[STATUS] &= !ERROR_FLAG;
    }

    fn stop_on_error(&mut self) -> Result<(), Refusal> {
        if self.regs[STATUS] & ERROR_FLAG != 0 {
            self.stop_process()?;
        }
        Ok(())
    }

    fn store_queue_register(&mut self, register: usize) {
        self.regs[register] = self.regs[A];
        self.pop();
    }

    fn save_queue_registers(&mut self, level: usize) -> Result<(), Refusal> {
        self.w_index_word(self.regs[A], 0, self.regs[FPTR[level]])?;
        self.w_index_word(self.regs[A], 1, self.regs[BPTR[level]])?;
        self.pop();
        Ok(())
    }
}
