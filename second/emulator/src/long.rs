//! Document 000, 1.11: long arithmetic.

use crate::answers::Refusal;
use crate::memory::Work;
use crate::mistakes::{Care, Mistake};
use crate::registers::*;
use crate::words::signed;

const RANGE: u64 = 1 << 32;
const DOUBLE: u32 = 64;

impl<K: Care> Work<'_, K> {
    pub fn extend_to_double(&mut self) {
        self.regs[C] = self.regs[B];
        self.regs[B] = if signed(self.regs[A]) < 0 {
            u32::MAX
        } else {
            0
        };
    }

    pub fn check_single(&mut self) {
        let upper = if signed(self.regs[A]) < 0 {
            u32::MAX
        } else {
            0
        };
        if self.regs[B] != upper {
            self.set_error_flag();
        }
        self.regs[B] = self.regs[C];
    }

    fn carry(&self) -> u32 {
        if self.wrong(Mistake::WholeCarryWord) {
            return u32::from(self.regs[C] != 0);
        }
        self.regs[C] & 1
    }

    pub fn long_add(&mut self) {
        let (b, a) = (signed(self.regs[B]), signed(self.regs[A]));
        let sum = i64::from(b) + i64::from(a) + i64::from(self.carry());
        self.regs[A] = self.overflow_check(sum);
    }

    pub fn long_subtract(&mut self) {
        let (b, a) = (signed(self.regs[B]), signed(self.regs[A]));
        let difference = i64::from(b) - i64::from(a) - i64::from(self.carry());
        self.regs[A] = self.overflow_check(difference);
    }

    /// DECISIONS 4: a carry only for a sum above 2^32.
    pub fn long_sum(&mut self) {
        let sum = u64::from(self.regs[B]) + u64::from(self.regs[A]) + u64::from(self.carry());
        let carried = sum > RANGE || (self.wrong(Mistake::CarryAtRange) && sum == RANGE);
        self.regs[B] = u32::from(carried);
        self.regs[A] = sum as u32;
    }

    pub fn long_diff(&mut self) {
        let (b, a) = (i64::from(self.regs[B]), i64::from(self.regs[A]));
        let difference = b - a - i64::from(self.carry());
        self.regs[B] = u32::from(difference < 0);
        self.regs[A] = difference as u32;
    }

    pub fn long_multiply(&mut self) {
        let (b, a) = (u64::from(self.regs[B]), u64::from(self.regs[A]));
        let product = b * a + u64::from(self.regs[C]);
        self.regs[B] = (product >> 32) as u32;
        self.regs[A] = product as u32;
    }

    pub fn long_divide(&mut self) {
        let fits = self.regs[C] < self.regs[A];
        if !fits {
            self.set_error_flag();
            return;
        }
        let pair = self.pair();
        let divisor = u64::from(self.regs[A]);
        self.regs[B] = (pair % divisor) as u32;
        self.regs[A] = (pair / divisor) as u32;
    }

    /// C above B.
    fn pair(&self) -> u64 {
        (u64::from(self.regs[C]) << 32) + u64::from(self.regs[B])
    }

    pub fn normalise(&mut self) {
        let mut pair = (u64::from(self.regs[B]) << 32) + u64::from(self.regs[A]);
        if pair == 0 {
            self.regs[C] = DOUBLE;
            return;
        }
        self.regs[C] = 0;
        while pair >> 63 == 0 {
            pair <<= 1;
            self.regs[C] += 1;
        }
        self.regs[B] = (pair >> 32) as u32;
        self.regs[A] = pair as u32;
    }

    /// DECISIONS 6: an unsigned count above 64 is Stop.
    fn long_count(&self) -> Result<u32, Refusal> {
        let limit = if self.wrong(Mistake::LongShiftLimit32) {
            32
        } else {
            DOUBLE
        };
        if self.regs[A] > limit {
            return Err(Refusal::Stop);
        }
        Ok(self.regs[A])
    }

    /// DECISIONS 5: A is the low word.
    pub fn long_shift_left(&mut self) -> Result<(), Refusal> {
        let shifted = self.pair().checked_shl(self.long_count()?).unwrap_or(0);
        self.regs[A] = shifted as u32;
        self.regs[B] = (shifted >> 32) as u32;
        Ok(())
    }

    /// DECISIONS 5: A is the high word.
    pub fn long_shift_right(&mut self) -> Result<(), Refusal> {
        let shifted = self.pair().checked_shr(self.long_count()?).unwrap_or(0);
        self.regs[A] = (shifted >> 32) as u32;
        self.regs[B] = shifted as u32;
        if self.wrong(Mistake::LshrHalvesExchanged) {
            self.regs.swap(A, B);
        }
        Ok(())
    }
}
