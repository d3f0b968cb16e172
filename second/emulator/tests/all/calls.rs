//! DECISIONS 35 to 39: journals, refusals and bits without a name.

use crate::rig::*;
use emulator::registers::*;
use emulator::{number, Emulator, Machine};

#[test]
fn decision_35_the_journal_is_checked_exactly() {
    let mut rig = Rig::quiet();
    // RECORD times this is a little above 2^64: a small number if the product wraps
    rig.m.depth = u64::MAX / RECORD + 1;
    rig.m.used = RECORD;
    assert_eq!(
        (rig.step(), rig.tick(), rig.event(), rig.undo()),
        (4, 4, 4, 4)
    );
    assert_eq!(
        (rig.take(0), rig.take(4), rig.give(4, 1), rig.give(0, 1)),
        (Err(4), Err(3), 4, 3)
    );
    rig.m.depth = 0;
    rig.m.used = 5000;
    assert_eq!(rig.undo(), 4);
    rig.m.used = u64::MAX;
    rig.m.depth = u64::MAX;
    assert_eq!((rig.undo(), rig.clear(), rig.undo()), (4, 0, 5));
    assert_eq!(rig.m.used, 0);
}

#[test]
fn decision_35_a_refused_fresh_answers_zeros() {
    let mut memory = [3; 64];
    let fresh = Emulator::new().fresh(&mut memory, &[0; 65_537], &[1]);
    assert_eq!(number(&fresh), 1);
    assert_eq!(fresh.unwrap_or(Machine::ZERO), Machine::ZERO);
    assert_eq!(memory, [3; 64]);
    assert_eq!(
        number(&Emulator::new().fresh(&mut memory, &[0; 65_536], &[1])),
        0
    );
}

/// A foreign record of the given pairs stands in the journal.
fn foreign(pairs: &[[u32; 2]]) -> Rig {
    let mut rig = Rig::quiet();
    let mut record: Vec<u32> = pairs.concat();
    record.extend((1000..).take(REGISTERS));
    record.push(pairs.len() as u32);
    rig.m.used = record.len() as u64;
    rig.m.depth = 1;
    rig.jou = record;
    rig
}

#[test]
fn decision_36_undo_of_foreign_records() {
    let mut rig = foreign(&[[70, 1], [5, 2], [70, 3], [70, 4]]);
    assert_eq!(rig.undo(), 0);
    assert_eq!((rig.mem[70], rig.mem[5]), (4, 2));
    assert_eq!(
        (rig.get(0), rig.get(44), rig.m.depth, rig.m.used),
        (1000, 1044, 0, 0)
    );
    let mut rig = foreign(&[[70, 1], [128, 2]]);
    assert_eq!((rig.undo(), rig.mem[70]), (4, 0));
    for count in [3, 1 << 31, u32::MAX, (1 << 31) + 2] {
        let mut rig = foreign(&[[70, 1], [71, 2]]);
        *rig.jou.last_mut().unwrap() = count;
        assert_eq!(rig.undo(), 4);
    }
    let mut rig = foreign(&[[70, 1], [71, 2], [72, 2], [73, 1], [74, 1]]);
    rig.jou.splice(0..0, [9; RECORD as usize]);
    rig.m.used += RECORD;
    rig.m.depth = 2;
    // the words before it taken for pairs
    *rig.jou.last_mut().unwrap() = 5 + RECORD as u32 / 2;
    assert_eq!((rig.undo(), rig.m.depth), (0, 1));
    assert_eq!(rig.m.used, RECORD % 2);
    assert_eq!(rig.undo(), 4);
}

#[test]
fn decision_37_calls_that_ask_for_nothing() {
    let mut rig = Rig::quiet();
    rig.set(FLAGS, HALTED | IDLE);
    assert_eq!((rig.tick(), rig.give(7, 9), rig.event()), (0, 0, 0));
    assert_eq!(rig.m.used, 3 * RECORD);
}

#[test]
fn decision_38_the_record() {
    let mut rig = Rig::quiet();
    rig.stack(1, 2, 3)
        .put(W, 1u32.wrapping_neg(), 3)
        .put(W, 2u32.wrapping_neg(), 0x77);
    let before = rig.m.regs;
    rig.run(&[0x90]);
    assert_eq!(rig.jou[..8], [56, 0, 57, 0, 58, 0x77, 59, 3]);
    assert_eq!(rig.jou[8..][..before.len()], before);
    let end = 8 + before.len() + 1;
    assert_eq!(rig.jou[end - 1], 4);
    assert_eq!((rig.m.used, rig.m.depth), (end as u64, 1));
    rig.set(IPTR, CODE).stack(word(70) + 1, 0xAB, 0).op(0x3B);
    assert_eq!(rig.jou[end..][..2], [70, 0]);
    assert_eq!(rig.m.used, end as u64 + RECORD + 2);
}

#[test]
fn decision_38_a_word_stored_twice_is_saved_once() {
    // outword stores local 0, then the channel word, Iptr.s and Pointer.s: let local 0 be the channel
    let mut rig = Rig::quiet();
    rig.put(W, 0, 5).stack(NOT_PROCESS, W, 0).op(0x0F);
    assert_eq!(rig.m.used, RECORD + 2 * 3);
    assert_eq!(rig.jou[..6], [57, 0, 59, 0, 60, 5]);
    assert_eq!((rig.at(W, 0), rig.undo(), rig.at(W, 0)), (W | 1, 0, 5));
}

#[test]
fn a_refusal_leaves_everything() {
    let mut rig = Rig::quiet();
    rig.put(word(120), 0, word(80) | 1)
        .put(word(80), POINTER_S, word(126));
    rig.stack(9, word(120), word(90)).set(B, word(120));
    rig.put_bytes(CODE, &[0xFB]);
    let (machine, memory) = (rig.m.clone(), rig.mem.clone());
    assert_eq!(rig.step(), 10);
    assert_eq!((&rig.m, &rig.mem), (&machine, &memory));
    rig.put(word(80), POINTER_S, word(70));
    let too_short = RECORD as usize + 2 * 4 - 1;
    rig.jou = vec![5; too_short];
    let memory = rig.mem.clone();
    assert_eq!(rig.step(), 12);
    assert_eq!((&rig.m, &rig.mem), (&machine, &memory));
    assert_eq!(rig.jou.len(), too_short);
    assert!(rig.jou.iter().all(|&word| word == 5));
    rig.jou.push(5);
    assert_eq!((rig.step(), rig.m.used), (0, RECORD + 2 * 4));
}

#[test]
fn decision_39_bits_without_a_name_stay() {
    let mut rig = Rig::quiet();
    let unnamed = 0xFFFF_00E0;
    for channel in 0..9 {
        rig.set(flags_of(channel), unnamed);
    }
    rig.set(FLAGS, 0xFFFF_FFE1);
    assert_eq!((rig.tick(), rig.event(), rig.give(4, 0xFF)), (0, 0, 0));
    rig.op(0x54).op(0x15);
    assert_eq!(
        (rig.get(FLAGS), rig.get(flags_of(8))),
        (0xFFFF_FFE9, unnamed | HELD)
    );
    assert_eq!(rig.get(flags_of(4)), unnamed | HELD | 0xFF00);
}

#[test]
fn sizes_of_every_call() {
    for (words, journal, answer) in [
        (63, 0, 1),
        (64, 0, 0),
        (16_384, 65_536, 0),
        (16_385, 0, 1),
        (64, 65_537, 1),
    ] {
        let mut rig = Rig::quiet();
        rig.mem.resize(words, 0);
        rig.jou.resize(journal, 0);
        assert_eq!(rig.clear(), answer);
        let refused = |number: u32| if answer == 1 { 1 } else { number };
        let full = if journal == 0 { 12 } else { 0 };
        assert_eq!((rig.tick(), rig.event()), (refused(full), refused(full)));
        assert_eq!((rig.take(9), rig.give(9, 0)), (Err(refused(3)), refused(3)));
        rig.m.depth = 0;
        rig.m.used = 0;
        assert_eq!(rig.undo(), refused(5));
    }
}
