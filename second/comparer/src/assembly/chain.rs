//! Prefix chains: how a function and its operand are written, and how code is cut into chains.

use super::{Reference, Slip};

pub const PFIX: u32 = 2;
pub const NFIX: u32 = 6;

impl Reference {
    /// The prefixes and the final byte of a function. None for a function above 15, and for pfix and
    /// nfix, which are no functions to end a chain.
    pub fn assemble(self, function: u32, operand: i32) -> Option<Vec<u8>> {
        if function > 15 || function == PFIX || function == NFIX {
            return None;
        }
        let mut bytes = Vec::new();
        self.put(&mut bytes, function, operand);
        Some(bytes)
    }

    /// The Compiler Writer's rule: a value of 0 to 15 needs no prefix; a larger one first prefixes its
    /// upper part, a negative one the complement of its upper part with nfix last.
    pub fn put(self, bytes: &mut Vec<u8>, function: u32, operand: i32) {
        if self.slips(Slip::AlwaysEightBytes) {
            bytes.extend((1..8).rev().map(|place| byte(PFIX, operand >> (4 * place))));
        } else if operand < 0 {
            self.put_negative(bytes, operand);
        } else if operand > 15 && !(self.slips(Slip::NoPrefixFor16) && operand == 16) {
            self.put(bytes, PFIX, operand >> 4);
        }
        bytes.push(byte(function, operand));
    }

    fn put_negative(self, bytes: &mut Vec<u8>, operand: i32) {
        let upper = (operand as u32 >> 4) as i32;
        if self.slips(Slip::PfixForNegative) {
            self.put(bytes, PFIX, upper);
        } else if self.slips(Slip::NfixWithoutComplement) {
            self.put(bytes, NFIX, upper);
        } else {
            self.put(bytes, NFIX, !operand >> 4);
        }
    }

    /// What a prefix leaves in the operand register, wider than a word; a word is its low 32 bits.
    fn prefixed(self, prefix: u32, operand: i64) -> i64 {
        match prefix {
            PFIX => operand << 4,
            _ if self.slips(Slip::NfixShiftsFirst) => !(operand << 4),
            _ => !operand << 4,
        }
    }

    /// The operand that a chain's final function meets, from an operand register of 0.
    pub fn operand(self, chain: &[u8]) -> i64 {
        let Some((last, prefixes)) = chain.split_last() else {
            return 0;
        };
        let mut operand = 0;
        for prefix in prefixes {
            operand = self.prefixed(u32::from(prefix >> 4), operand | i64::from(prefix & 15));
            if !self.slips(Slip::WideOperand) {
                operand = i64::from(operand as i32);
            }
        }
        operand | i64::from(last & 15)
    }
}

fn byte(function: u32, operand: i32) -> u8 {
    (function << 4) as u8 | (operand & 15) as u8
}

/// A chain of code.
#[derive(Clone, Copy, Debug, PartialEq, Eq)]
pub struct Chain<'a> {
    pub bytes: &'a [u8],
    /// The function of the final byte; none where code ends before one.
    pub function: Option<u32>,
}

/// Cuts code after each byte that is no prefix.
pub fn chains(code: &[u8]) -> impl Iterator<Item = Chain<'_>> {
    let function = |byte: &u8| u32::from(byte >> 4);
    let is_last = move |byte: &u8| ![PFIX, NFIX].contains(&function(byte));
    code.split_inclusive(is_last).map(move |bytes| Chain {
        bytes,
        function: bytes.last().filter(|byte| is_last(byte)).map(function),
    })
}
