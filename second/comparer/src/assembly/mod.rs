//! The assembler and the listing of document 02, No. 2: a reference, and the programs held against it.

mod chain;
mod hold;
mod inputs;
mod listing;
mod slips;
mod text;
mod tool;

pub use chain::{chains, Chain, NFIX, PFIX};
pub use hold::{hold_assembler, hold_both, hold_lister, Findings};
pub use inputs::program;
pub use slips::Slip;
pub use tool::{Assembled, Tool};

/// The most that the assembler and the lister read: 1 MiB.
pub const MOST: usize = 1 << 20;

/// Assembles and lists by the documents, or with one slip for the comparer's own test.
#[derive(Clone, Copy, Debug)]
pub struct Reference {
    slip: Option<Slip>,
}

impl Reference {
    pub const RIGHT: Reference = Reference { slip: None };

    pub fn with(slip: Slip) -> Reference {
        Reference { slip: Some(slip) }
    }

    fn slips(self, slip: Slip) -> bool {
        self.slip == Some(slip)
    }
}
