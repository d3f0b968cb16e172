//! Holds two emulators of the T414 against each other: cases, sequences and whole runs; and an
//! assembler and a lister against a reference.
#![forbid(unsafe_code)]

pub mod assembly;
pub mod case;
pub mod compare;
pub mod explain;
pub mod generate;
pub mod history;
pub mod instructions;
pub mod names;
pub mod outside;
pub mod process;
pub mod program;
pub mod protocol;
pub mod random;
pub mod random_code;
pub mod repeat;
pub mod respond;
pub mod runs;
pub mod sequence;
pub mod side;
pub mod situations;
pub mod table;
