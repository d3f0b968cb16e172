//! Document 000, 1.1: words as numbers, and the order of times.

use crate::mistakes::{Care, Mistake};

/// `RestoreToRange` of T1 - T2, then the test that the difference is above 0.
pub fn later<K: Care>(care: K, t1: u32, t2: u32) -> bool {
    if care.wrong(Mistake::PlainTimes) {
        return signed(t1) > signed(t2);
    }
    if care.wrong(Mistake::HalfRangeLater) {
        return t1 != t2 && t1.wrapping_sub(t2) <= 1 << 31;
    }
    signed(t1.wrapping_sub(t2)) > 0
}

/// `Sign`: the word as a two's complement number.
pub fn signed(word: u32) -> i32 {
    word as i32
}

/// `AtWord (Base, N, A)`: the low bits of the base stay (DECISIONS 12).
pub fn at_word(base: u32, n: u32) -> u32 {
    base.wrapping_add(n.wrapping_mul(4))
}

/// `AtByte (Base, N, A)`.
pub fn at_byte(base: u32, n: u32) -> u32 {
    base.wrapping_add(n)
}

/// MachineTRUE or MachineFALSE.
pub fn machine(truth: bool) -> u32 {
    truth as u32
}

/// Byte `selector` of a word, byte 0 the least significant.
pub fn byte_of(word: u32, selector: u32) -> u32 {
    (word >> (8 * selector)) & 0xFF
}

/// The word with byte `selector` replaced.
pub fn with_byte(word: u32, selector: u32, byte: u32) -> u32 {
    let shift = 8 * selector;
    (word & !(0xFF << shift)) | ((byte & 0xFF) << shift)
}
