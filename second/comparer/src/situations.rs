//! Situations of single calls that accepted cases are to meet: part of the generator's bar.

use std::collections::BTreeMap;

use emulator::registers::*;

use crate::case::{Call, Case};

/// The slice at its limit, and one below.
const SLICES: [u32; 2] = [1_023, 1_024];

/// How often each situation was met by an accepted call.
#[derive(Default)]
pub struct Situations {
    met: BTreeMap<String, u64>,
}

impl Situations {
    pub fn count(&mut self, situation: String) {
        *self.met.entry(situation).or_default() += 1;
    }

    /// Every situation that is to be met, and how often it was.
    pub fn all(&self) -> Vec<(String, u64)> {
        let met = |name: &String| self.met.get(name).copied().unwrap_or(0);
        let places = ticks().into_iter().map(|name| (met(&name), name));
        places.map(|(count, name)| (name, count)).collect()
    }
}

/// What a case's state means for its call, if it is one of the situations.
pub fn situation(case: &Case) -> Option<String> {
    match case.call {
        Call::Tick => tick(case.regs()),
        _ => None,
    }
}

/// What decides whether the slice grows (document 02, No. 3).
fn tick(regs: &Registers) -> Option<String> {
    let slice = regs[SLICE];
    let bit = |flag: u32| regs[FLAGS] & flag != 0;
    let bits = [
        regs[WDESC] & 1 != 0,
        bit(IDLE),
        bit(HALTED),
        bit(CLOCKS_RUN),
    ];
    SLICES.contains(&slice).then(|| tick_name(slice, bits))
}

fn tick_name(slice: u32, bits: [bool; 4]) -> String {
    let [low, idle, halted, clocks] = bits;
    let word = |truth: bool, word: &'static str| if truth { word } else { "" };
    format!(
        "tick at slice {slice}, {}{}{}{}",
        if low { "low" } else { "high" },
        word(idle, ", idle"),
        word(halted, ", halted"),
        word(clocks, ", clocks run")
    )
}

fn ticks() -> Vec<String> {
    let bits = (0..16).map(|number: u32| [1, 2, 4, 8].map(|bit| number & bit != 0));
    let bits: Vec<[bool; 4]> = bits.collect();
    let names = |slice: u32| bits.iter().map(move |&bits| tick_name(slice, bits));
    SLICES.into_iter().flat_map(names).collect()
}
