//! The figures as a table in Markdown.

use comparer::process::Program;

use crate::measure::{copied_in_round, instructions_of_round, seconds_of_round};
use crate::scenario::{in_round, Scenario};

/// What to measure.
pub struct Options {
    pub counts: bool,
    pub times: bool,
    /// Times each program is run, and about how many calls a run makes.
    pub runs: u32,
    pub calls: u64,
}

/// What a round, or a call, of each program costs: the proved stepper, then the second emulator.
#[derive(Clone, Copy, Default)]
pub struct Cost {
    instructions: [Option<f64>; 2],
    copied: [Option<f64>; 2],
    seconds: [Option<f64>; 2],
}

impl Cost {
    fn each(self, other: Cost, change: impl Fn(f64, f64) -> f64) -> Cost {
        let both = |x: [Option<f64>; 2], y: [Option<f64>; 2]| {
            [0, 1].map(|side| x[side].zip(y[side]).map(|(x, y)| change(x, y)))
        };
        Cost {
            instructions: both(self.instructions, other.instructions),
            copied: both(self.copied, other.copied),
            seconds: both(self.seconds, other.seconds),
        }
    }

    pub fn less(self, other: Cost) -> Cost {
        self.each(other, |x, y| x - y)
    }

    pub fn of_one(self, calls: u64) -> Cost {
        self.each(self, |x, _| x / calls as f64)
    }
}

/// Measures a round.
pub fn round(
    programs: [&Program; 2],
    scenario: &Scenario,
    options: &Options,
) -> Result<Cost, String> {
    let mut cost = Cost::default();
    if options.counts {
        for (side, program) in programs.into_iter().enumerate() {
            cost.instructions[side] = instructions_of_round(program, scenario)?;
            cost.copied[side] = copied_in_round(program, scenario)?;
        }
    }
    if options.times {
        let rounds = (options.calls / in_round(scenario.counts(1))).max(1);
        let seconds = seconds_of_round(programs, scenario, rounds as u32, options.runs)?;
        cost.seconds = seconds.map(Some);
    }
    Ok(cost)
}

pub const HEADING: &str = "\
| Line | Instructions a call | second's | Bytes copied a call | second's | Calls a second | second's | Time against second's |
|---|---|---|---|---|---|---|---|";

pub fn row(what: &str, cost: Cost) -> String {
    let number = |x: Option<f64>| x.map_or("-".into(), |x| format!("{x:.1}"));
    let rate = |x: Option<f64>| match x {
        Some(x) if x > 0.0 => format!("{:.2} million", 1e-6 / x),
        _ => "-".into(),
    };
    let against = match cost.seconds {
        [Some(first), Some(second)] if second > 0.0 => format!("{:.2}", first / second),
        _ => "-".into(),
    };
    let cells = [
        cost.instructions.map(number),
        cost.copied.map(number),
        cost.seconds.map(rate),
    ];
    format!("| {what} | {} | {against} |", cells.concat().join(" | "))
}
