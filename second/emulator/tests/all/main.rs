//! The second emulator against documents 000 and 01 and DECISIONS.

mod calls;
mod edges;
mod links;
mod one_step;
mod operations;
mod outside;
mod rig;
mod scenarios;
