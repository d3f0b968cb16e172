//! The second emulator of the T414: the eight calls of document 01, with document 02's No. 1 and No. 3.
//!
//! It is written from document 000 (the T414B description in occam), documents 01 and 02 (the
//! rulings and requests) and docs/DECISIONS.md alone, so that it can disagree with the proved one. Procedures stand under
//! document 000's own names. Every value of every register, memory word, journal word and argument
//! is legal: no call panics, overflows or runs for ever.
#![forbid(unsafe_code)]

mod alternatives;
mod answers;
mod arithmetic;
mod blockmove;
mod calls;
mod channels;
mod data;
mod functions;
mod journal;
mod links;
mod long;
mod machine;
mod memory;
mod mistakes;
mod operations;
mod processor;
pub mod registers;
mod scheduling;
mod step;
mod timers;
mod walk;
mod words;

pub use answers::{number, Refusal};
pub use calls::{Emulator, MAX_JOURNAL, MAX_MEMORY, MIN_MEMORY};
pub use journal::RECORD;
pub use machine::Machine;
pub use mistakes::{Care, Mistake, Right, Wrong};
pub use registers::{Registers, REGISTERS};
