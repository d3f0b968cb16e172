//! What a machine owns.

use crate::registers::{Registers, REGISTERS};

/// Everything of a machine that is not lent: document 01's 45 register words, and the journal's size.
#[derive(Clone, Debug, PartialEq, Eq)]
pub struct Machine {
    pub regs: Registers,
    pub depth: u64,
    pub used: u64,
}

impl Machine {
    /// What a refused `fresh` answers: registers, depth and used all 0.
    pub const ZERO: Machine = Machine {
        regs: [0; REGISTERS],
        depth: 0,
        used: 0,
    };
}
