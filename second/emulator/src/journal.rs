//! Document 01, "The journal".

use crate::answers::Refusal;
use crate::machine::Machine;
use crate::memory::Kept;
use crate::mistakes::{Care, Mistake};
use crate::registers::{Registers, REGISTERS};

/// Words of a record without pairs: the registers and the number of pairs.
pub const RECORD: usize = REGISTERS + 1;

/// JournalBad for any call but fresh and clear. `46 x depth` is taken exactly (DECISIONS 35).
pub fn check<K: Care>(care: K, machine: &Machine, journal: &[u32]) -> Result<(), Refusal> {
    let least = if care.wrong(Mistake::DepthTimes46Wraps) {
        u128::from(machine.depth.wrapping_mul(RECORD as u64))
    } else {
        u128::from(machine.depth) * RECORD as u128
    };
    if machine.used > journal.len() as u64 || least > u128::from(machine.used) {
        return Err(Refusal::JournalBad);
    }
    Ok(())
}

/// Adds the record of an accepted call. `check` has passed, so `used` is inside the journal.
pub fn add<K: Care>(
    care: K,
    machine: &mut Machine,
    journal: &mut [u32],
    old: &Registers,
    kept: &mut [Kept],
) -> Result<(), Refusal> {
    let used = machine.used as usize;
    let length = RECORD + 2 * kept.len();
    if journal.len() - used < length {
        return Err(Refusal::JournalFull);
    }
    if !care.wrong(Mistake::PairsInStoreOrder) {
        kept.sort_unstable_by_key(|kept| kept.0);
    }
    let (pairs, rest) = journal[used..used + length].split_at_mut(2 * kept.len());
    for (pair, kept) in pairs.chunks_exact_mut(2).zip(kept.iter()) {
        pair[0] = kept.0;
        pair[1] = kept.1;
    }
    rest[..REGISTERS].copy_from_slice(old);
    rest[REGISTERS] = kept.len() as u32;
    machine.depth += 1;
    machine.used += length as u64;
    Ok(())
}

/// Undoes the last record. `check` has passed.
pub fn undo<K: Care>(
    care: K,
    machine: &mut Machine,
    memory: &mut [u32],
    journal: &[u32],
) -> Result<(), Refusal> {
    if machine.depth == 0 {
        return Err(Refusal::NothingToUndo);
    }
    let used = machine.used as usize;
    let count = u64::from(journal[used - 1]);
    let length = RECORD as u64 + 2 * count;
    if length > machine.used {
        return Err(Refusal::JournalBad);
    }
    let record = &journal[used - length as usize..used];
    let (pairs, rest) = record.split_at(2 * count as usize);
    if pairs
        .chunks_exact(2)
        .any(|pair| pair[0] as usize >= memory.len())
    {
        return Err(Refusal::JournalBad);
    }
    let mut restore = |pair: &[u32]| memory[pair[0] as usize] = pair[1];
    if care.wrong(Mistake::UndoLastToFirst) {
        pairs.chunks_exact(2).rev().for_each(&mut restore);
    } else {
        pairs.chunks_exact(2).for_each(&mut restore);
    }
    machine.regs.copy_from_slice(&rest[..REGISTERS]);
    machine.depth -= 1;
    machine.used -= length;
    Ok(())
}
