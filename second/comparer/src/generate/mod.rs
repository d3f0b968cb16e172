//! Random cases that are likely to be accepted and whose parts are likely to touch each other.

mod journals;
mod scene;
mod steps;
mod timers;

use emulator::{Machine, MAX_MEMORY, MIN_MEMORY};

use crate::case::{Call, Case};
use crate::random::Random;
use scene::Scene;

/// Draws cases of the given calls, the same ones for the same seed and calls.
pub struct Generator {
    random: Random,
    calls: Vec<Call>,
}

/// How often each call is drawn, in a hundred.
fn weight(call: Call) -> u32 {
    match call {
        Call::Step => 71,
        Call::Undo | Call::Give => 6,
        Call::Take => 5,
        Call::Fresh | Call::Event => 4,
        Call::Tick => 3,
        Call::Clear => 1,
        Call::Repeat => 0,
    }
}

impl Generator {
    pub fn new(seed: u64, calls: &[Call]) -> Generator {
        let random = Random::new(seed);
        let weighed = calls
            .iter()
            .flat_map(|&call| vec![call; weight(call) as usize]);
        let calls = weighed.collect();
        Generator { random, calls }
    }

    pub fn case(&mut self) -> Case {
        let random = &mut self.random;
        let call = random.pick(&self.calls);
        let size = memory_size(random);
        let mut scene = Scene::new(random, size);
        timers::queues(random, &mut scene);
        match call {
            Call::Step => steps::prepare(random, &mut scene),
            Call::Tick => scene.before_tick(random),
            _ => {}
        }
        let channel = channel(random, call);
        if [Call::Take, Call::Give].contains(&call) && random.percent(6) {
            scene.outside_transfer(random, channel);
        }
        scene.damage(random);
        let mut case = Case {
            call,
            channel,
            byte: if random.percent(80) {
                random.below(256)
            } else {
                random.word()
            },
            machine: Machine {
                regs: scene.regs,
                depth: 0,
                used: 0,
            },
            memory: scene.memory,
            journal: Vec::new(),
            code: code(random, call, scene.size),
        };
        journals::prepare(random, &mut case);
        case
    }
}

/// Small for the most part; sometimes at the limits that document 01 sets.
fn memory_size(random: &mut Random) -> usize {
    match random.below(1000) {
        0 => MAX_MEMORY,
        1 => MAX_MEMORY + 1,
        2 => random.between(200, 2000) as usize,
        3..=7 => MIN_MEMORY - 1,
        8 => random.below(MIN_MEMORY as u32) as usize,
        9..=300 => MIN_MEMORY,
        _ => random.between(MIN_MEMORY as u32, 104) as usize,
    }
}

fn channel(random: &mut Random, call: Call) -> u32 {
    if random.percent(8) {
        let any = random.word();
        return random.pick(&[0, 3, 4, 7, 8, 9, any]);
    }
    match call {
        Call::Take => random.below(4),
        Call::Give => random.between(4, 7),
        _ => random.below(10),
    }
}

/// Code for fresh, often just as long as fits.
fn code(random: &mut Random, call: Call, size: usize) -> Vec<u8> {
    if call != Call::Fresh {
        return Vec::new();
    }
    let fits = 4 * size.saturating_sub(19) as u32;
    let length = match random.below(10) {
        0 => 0,
        1..=3 => random.below(12),
        4..=6 => (fits + 3).saturating_sub(random.below(8)),
        7 => random.below(65_601.min(2 * fits + 40)),
        _ => random.below(fits + 1),
    };
    (0..length).map(|_| random.word() as u8).collect()
}
