//! Document 000, 1.11: checking, addressing, logic, basic, modulo and part-word arithmetic.

use crate::answers::Refusal;
use crate::memory::Work;
use crate::mistakes::{Care, Mistake};
use crate::registers::*;
use crate::words::{at_byte, at_word, signed};

const BITS_IN_WORD: u32 = 32;
/// DECISIONS 3: the byte selector has two bits.
const BSEL_LENGTH: u32 = 2;
const BSEL_MASK: u32 = 3;

impl<K: Care> Work<'_, K> {
    /// `OverflowCheck`: sets the error flag if the value is no word, and keeps its low 32 bits.
    pub fn overflow_check(&mut self, value: i64) -> u32 {
        if i32::try_from(value).is_err() {
            self.set_error_flag();
        }
        value as u32
    }

    fn operands(&self) -> (i64, i64) {
        (
            i64::from(signed(self.regs[B])),
            i64::from(signed(self.regs[A])),
        )
    }

    pub fn add(&mut self) {
        let (b, a) = self.operands();
        let sum = self.overflow_check(b + a);
        self.result(sum);
    }

    pub fn subtract(&mut self) {
        let (b, a) = self.operands();
        let difference = self.overflow_check(b - a);
        self.result(difference);
    }

    pub fn multiply(&mut self) {
        let (b, a) = self.operands();
        let product = self.overflow_check(b * a);
        self.result(product);
    }

    /// The quotient or remainder has no value: A keeps (DECISIONS 8).
    fn cannot_divide(&self) -> bool {
        let too_large = self.regs[B] == MIN_INT && self.regs[A] == u32::MAX;
        (too_large && !self.wrong(Mistake::LargestQuotientUnchecked)) || self.regs[A] == 0
    }

    pub fn divide(&mut self) {
        if self.cannot_divide() {
            self.set_error_flag();
            self.result(self.regs[A]);
            return;
        }
        let (b, a) = self.operands();
        if self.wrong(Mistake::DivRoundsDown) {
            self.result(b.div_euclid(a) as u32);
            return;
        }
        self.result((b / a) as u32);
    }

    pub fn remainder(&mut self) {
        if self.cannot_divide() {
            self.set_error_flag();
            self.result(self.regs[A]);
            return;
        }
        let (b, a) = self.operands();
        if self.wrong(Mistake::RemNeverNegative) {
            self.result(b.rem_euclid(a) as u32);
            return;
        }
        self.result((b % a) as u32);
    }

    pub fn difference(&mut self) {
        self.result(self.regs[B].wrapping_sub(self.regs[A]));
    }

    pub fn product(&mut self) {
        self.result(self.regs[B].wrapping_mul(self.regs[A]));
    }

    pub fn check_subscript_from_0(&mut self) {
        let outside = if self.wrong(Mistake::SignedSubscript) {
            signed(self.regs[B]) >= signed(self.regs[A])
        } else {
            self.regs[B] >= self.regs[A]
        };
        if outside {
            self.set_error_flag();
        }
        self.pop();
    }

    pub fn check_count_from_1(&mut self) {
        let limit = self.regs[A];
        let above = self.regs[B] > limit
            || (self.wrong(Mistake::CountCheckedAsSubscript) && self.regs[B] == limit);
        if self.regs[B] == 0 || above {
            self.set_error_flag();
        }
        self.pop();
    }

    pub fn byte_subscript(&mut self) {
        self.result(at_byte(self.regs[A], self.regs[B]));
    }

    pub fn word_subscript(&mut self) {
        self.result(at_word(self.regs[A], self.regs[B]));
    }

    pub fn word_count(&mut self) {
        let mask = if self.wrong(Mistake::WideByteSelector) {
            7
        } else {
            BSEL_MASK
        };
        self.regs[C] = self.regs[B];
        self.regs[B] = self.regs[A] & mask;
        self.regs[A] = (signed(self.regs[A]) >> BSEL_LENGTH) as u32;
    }

    /// DECISIONS 6: an unsigned count above 32 is Stop.
    fn shift_count(&self) -> Result<u32, Refusal> {
        let count = self.regs[A];
        if count > BITS_IN_WORD {
            return Err(Refusal::Stop);
        }
        if self.wrong(Mistake::ShiftBy32Keeps) {
            return Ok(count % BITS_IN_WORD);
        }
        Ok(count)
    }

    pub fn shift_left(&mut self) -> Result<(), Refusal> {
        let count = self.shift_count()?;
        self.result(self.regs[B].checked_shl(count).unwrap_or(0));
        Ok(())
    }

    pub fn shift_right(&mut self) -> Result<(), Refusal> {
        if self.wrong(Mistake::ShrSignedCount) && signed(self.regs[A]) < 0 {
            self.result(0);
            return Ok(());
        }
        let count = self.shift_count()?;
        self.result(self.regs[B].checked_shr(count).unwrap_or(0));
        Ok(())
    }

    /// A unsigned against B signed (DECISIONS 9).
    pub fn extend_to_word(&mut self) {
        let a = self.part_word_sign();
        let b = i64::from(signed(self.regs[B]));
        let positive = b < a || (self.wrong(Mistake::SignBitIsPositive) && b == a);
        let extended = if positive { b } else { b - 2 * a };
        self.result(extended as u32);
    }

    pub fn check_word(&mut self) {
        let a = self.part_word_sign();
        let b = i64::from(signed(self.regs[B]));
        let least = if self.wrong(Mistake::LeastPartWordRefused) {
            1 - a
        } else {
            -a
        };
        if b >= a || b < least {
            self.set_error_flag();
        }
        self.pop();
    }

    fn part_word_sign(&self) -> i64 {
        if self.wrong(Mistake::SignedPartWord) {
            return i64::from(signed(self.regs[A]));
        }
        i64::from(self.regs[A])
    }
}
