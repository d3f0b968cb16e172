//! The benchmark: what a call of the proved stepper and of the second emulator costs, in machine
//! instructions and in time. docs/PERFORMANCE.md has the figures.
#![forbid(unsafe_code)]

pub mod code;
pub mod measure;
pub mod scenario;
pub mod table;
pub mod text;
