//! The comparer, its generator and the programs.

mod assembly;
mod instructions;
mod laws;
mod programs;
mod teeth;
