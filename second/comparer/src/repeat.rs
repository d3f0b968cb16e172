//! Repeat, the ninth call of the batch protocol: a fresh machine, and calls by number. It is for measuring.

use emulator::{Care, Emulator, Machine, Refusal};

/// Bytes of the five numbers that the code of a case begins with.
pub const NUMBERS: usize = 20;

/// The five numbers: steps before the first round, rounds, and the steps, ticks and undos of each,
/// in this order. A round begins by clearing the journal.
#[derive(Clone, Copy, Debug, Default, PartialEq, Eq)]
pub struct Counts {
    pub before: u32,
    pub rounds: u32,
    pub steps: u32,
    pub ticks: u32,
    pub undos: u32,
}

impl Counts {
    /// The numbers, and the T414's code behind them.
    pub fn split(code: &[u8]) -> Option<(Counts, &[u8])> {
        let (numbers, code) = code.split_at_checked(NUMBERS)?;
        let mut numbers = numbers.chunks_exact(4).map(|bytes| {
            let bytes = bytes.try_into().expect("four bytes");
            u32::from_le_bytes(bytes)
        });
        let mut next = || numbers.next();
        let counts = Counts {
            before: next()?,
            rounds: next()?,
            steps: next()?,
            ticks: next()?,
            undos: next()?,
        };
        Some((counts, code))
    }

    /// The code of a case: the numbers, then the T414's.
    pub fn join(self, code: &[u8]) -> Vec<u8> {
        let numbers = [self.before, self.rounds, self.steps, self.ticks, self.undos];
        let mut bytes: Vec<u8> = numbers.iter().flat_map(|n| n.to_le_bytes()).collect();
        bytes.extend(code);
        bytes
    }
}

/// The first refusal ends it, and leaves what is there by then.
pub fn repeat<K: Care>(
    emulator: &mut Emulator<K>,
    machine: &mut Machine,
    memory: &mut [u32],
    journal: &mut [u32],
    code: &[u8],
) -> Result<(), Refusal> {
    let (counts, code) = Counts::split(code).expect("a case of repeat has five numbers");
    *machine = Machine::ZERO;
    *machine = emulator.fresh(memory, journal, code)?;
    steps(emulator, machine, memory, journal, counts.before)?;
    for _ in 0..counts.rounds {
        emulator.clear(machine, memory, journal)?;
        steps(emulator, machine, memory, journal, counts.steps)?;
        for _ in 0..counts.ticks {
            emulator.tick(machine, memory, journal)?;
        }
        for _ in 0..counts.undos {
            emulator.undo(machine, memory, journal)?;
        }
    }
    Ok(())
}

fn steps<K: Care>(
    emulator: &mut Emulator<K>,
    machine: &mut Machine,
    memory: &mut [u32],
    journal: &mut [u32],
    count: u32,
) -> Result<(), Refusal> {
    for _ in 0..count {
        emulator.step(machine, memory, journal)?;
    }
    Ok(())
}
