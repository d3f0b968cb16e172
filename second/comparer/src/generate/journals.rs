//! Journals: roomy, just fitting, full, foreign and damaged ones.

use emulator::{MAX_JOURNAL, RECORD, REGISTERS};

use crate::case::{Call, Case};
use crate::random::Random;

/// Longest record that a case of ordinary size asks for, roughly: the registers and a dozen pairs.
const ROOMY: u32 = RECORD as u32 + 60;

pub fn prepare(random: &mut Random, case: &mut Case) {
    let record = if case.call == Call::Undo {
        last_record(random, case)
    } else {
        Vec::new()
    };
    let before = random.below(3) * random.between(40, 60) + random.below(4);
    let used = before as usize + record.len();
    let room = match random.below(20) {
        0..=9 => random.between(ROOMY, ROOMY + 20),
        10..=17 => RECORD as u32 + random.below(26),
        18 => random.below(RECORD as u32),
        _ => random.between(200, 420),
    };
    let mut length = used + room as usize;
    if random.below(1500) == 0 {
        length = limit(random);
    }
    case.journal = (0..length)
        .map(|_| word(random, case.memory.len()))
        .collect();
    let begins = used - record.len();
    case.journal[begins..used].copy_from_slice(&record);
    case.machine.used = used as u64;
    let most = used as u32 / RECORD as u32;
    case.machine.depth = u64::from(match random.below(4) {
        0 => most,
        1 => most.min(1),
        _ => random.below(most + 1),
    });
    if case.call == Call::Undo && random.percent(80) {
        case.machine.depth = u64::from(most.max(1));
    }
    if random.percent(4) {
        damage(random, case);
    }
}

/// The journal's limit itself and the first length above it.
fn limit(random: &mut Random) -> usize {
    MAX_JOURNAL + random.below(2) as usize
}

/// A record of other hands: indices mostly rise, sometimes come twice, fall or lie outside.
fn last_record(random: &mut Random, case: &Case) -> Vec<u32> {
    let pairs = random.below(7);
    let words = case.memory.len() as u32;
    let mut record = Vec::new();
    let mut index = random.below(words.max(1));
    for _ in 0..pairs {
        record.push(index);
        record.push(word(random, case.memory.len()));
        index = match random.below(10) {
            0 => index,
            1 => random.below(words.max(1)),
            2 if random.percent(20) => random.pick(&[words, words + 1, u32::MAX]),
            _ => index
                .saturating_add(random.between(1, 5))
                .min(words.saturating_sub(1)),
        };
    }
    for register in 0..REGISTERS {
        let same = random.percent(40);
        record.push(if same {
            case.regs()[register]
        } else {
            random.word()
        });
    }
    record.push(if random.percent(95) {
        pairs
    } else {
        wrong_count(random, pairs)
    });
    record
}

/// Numbers of pairs that do not fit, also ones whose length would wrap.
fn wrong_count(random: &mut Random, pairs: u32) -> u32 {
    let any = random.word();
    random.pick(&[
        pairs + 1,
        pairs + 40,
        1 << 31,
        u32::MAX,
        (1 << 31) + pairs,
        any,
    ])
}

fn word(random: &mut Random, words: usize) -> u32 {
    if random.percent(50) {
        random.below(words as u32 + 1)
    } else {
        random.word()
    }
}

/// Depth and used that do not belong to the journal, also ones whose product would wrap.
fn damage(random: &mut Random, case: &mut Case) {
    let length = case.journal.len() as u64;
    let any = random.long();
    // RECORD times these is a little above 2^64 and 2^65: a small number if the product wraps.
    let wraps = [64, 65].map(|bits| ((1u128 << bits) / RECORD as u128 + 1) as u64);
    match random.below(5) {
        0 => {
            case.machine.used =
                random.pick(&[length + 1, length + RECORD as u64, any, u64::MAX, 1 << 32]);
            case.machine.depth = random.pick(&[case.machine.depth, 0]);
        }
        1 => case.machine.depth = random.pick(&[any, u64::MAX, 1 << 63, wraps[0], wraps[1]]),
        2 => case.machine.depth = case.machine.used / RECORD as u64 + 1,
        3 => case.machine.depth = random.pick(&wraps),
        _ => {
            case.machine.used = random.pick(&[0, RECORD as u64 - 1, RECORD as u64, length]);
            case.machine.depth = u64::from(random.below(3));
        }
    }
}
