//! DECISIONS 1 to 15: what operations leave in the registers.

use crate::rig::*;
use emulator::registers::*;

/// A, B, C and the error flag after an operation.
fn after(code: u32, stack: [u32; 3]) -> ([u32; 3], bool) {
    let mut rig = Rig::quiet();
    rig.stack(stack[0], stack[1], stack[2]).op(code);
    (rig.abc(), rig.has(STATUS, ERROR_FLAG))
}

const MIN: u32 = 0x8000_0000;
const MAX: u32 = 0x7FFF_FFFF;
const M1: u32 = u32::MAX;

#[test]
fn decision_1_saveh_is_3e_and_wcnt_3f() {
    let mut rig = Rig::quiet();
    rig.set(FPTR[0], 11)
        .set(BPTR[0], 22)
        .set(A, word(80))
        .op(0x3E);
    assert_eq!([rig.at(word(80), 0), rig.at(word(80), 1)], [11, 22]);
    let mut rig = Rig::quiet();
    rig.set(FPTR[1], 33)
        .set(BPTR[1], 44)
        .set(A, word(80))
        .op(0x3D);
    assert_eq!([rig.at(word(80), 0), rig.at(word(80), 1)], [33, 44]);
    assert_eq!(after(0x3F, [7, 8, 9]).0, [1, 3, 8]);
}

#[test]
fn decision_1_the_built_list() {
    let built = |code: u32| matches!(code, 0x00..=0x10 | 0x12 | 0x13 | 0x15..=0x22 | 0x29..=0x2C | 0x2E..=0x59);
    let mut listed = 0;
    for code in (0..0x300).chain([0x8000_0000, 0xFFFF_FFFF, 0xFFFF_FF00]) {
        let mut rig = Rig::quiet();
        rig.stack(1, word(80), word(90))
            .set(FPTR[1], word(100))
            .set(BPTR[1], word(100));
        let before = rig.m.clone();
        let answer = rig.operate(code);
        assert_eq!(answer != 9, built(code), "operation {code:X}: {answer}");
        listed += u32::from(answer != 9);
        if answer == 9 {
            assert_eq!(
                (rig.get(IPTR), rig.get(A)),
                (before.regs[IPTR], before.regs[A])
            );
        }
    }
    assert_eq!(listed, 81);
}

#[test]
fn decision_2_the_operand_is_ored() {
    let mut rig = Rig::quiet();
    rig.set(OREG, 0x16).run(&[0x49]);
    assert_eq!(rig.get(A), 0x1F);
    let mut rig = Rig::quiet();
    rig.set(OREG, 0xF000_0000).run(&[0x21]);
    assert_eq!(rig.get(OREG), 0x10);
    let mut rig = Rig::quiet();
    rig.set(OREG, 0x20).run(&[0x63]);
    assert_eq!(rig.get(OREG), !0x23u32 << 4);
}

#[test]
fn decision_3_wcnt() {
    assert_eq!(after(0x3F, [7, 0, 0]).0, [1, 3, 0]);
    assert_eq!(after(0x3F, [MIN | 6, 5, 0]).0, [0xE000_0001, 2, 5]);
}

#[test]
fn decision_4_lsum_carries_above_the_range_only() {
    assert_eq!(after(0x37, [1, M1, 2]).0, [0, 0, 2]);
    assert_eq!(after(0x37, [1, M1, 3]).0, [1, 1, 3]);
    assert_eq!(after(0x37, [2, M1, 0]).0, [1, 1, 0]);
    assert_eq!(after(0x37, [1, 2, 0]).0, [3, 0, 0]);
}

#[test]
fn decision_5_halves_of_long_shifts() {
    assert_eq!(
        after(0x35, [4, 0x1234_5678, 0xABCD_EF01]).0,
        [0x0ABC_DEF0, 0x1123_4567, 0xABCD_EF01]
    );
    assert_eq!(
        after(0x36, [4, 0x1234_5678, 0xABCD_EF01]).0,
        [0x2345_6780, 0xBCDE_F011, 0xABCD_EF01]
    );
}

#[test]
fn decision_6_shift_counts() {
    assert_eq!(after(0x41, [32, M1, 7]).0, [0, 7, 7]);
    assert_eq!(after(0x40, [31, M1, 7]).0, [1, 7, 7]);
    assert_eq!(after(0x40, [32, M1, 7]).0, [0, 7, 7]);
    assert_eq!(after(0x36, [64, M1, M1]).0, [0, 0, M1]);
    assert_eq!(after(0x35, [64, M1, M1]).0, [0, 0, M1]);
    for (code, count) in [
        (0x41, 33),
        (0x40, 33),
        (0x40, M1),
        (0x41, M1),
        (0x35, 65),
        (0x36, MIN),
    ] {
        assert_eq!(Rig::quiet().stack(count, 1, 1).operate(code), 11);
    }
}

#[test]
fn decision_7_sums_that_wrap_without_error() {
    assert_eq!(after(0x34, [0x4000_0001, 2, 3]), ([4, 2, 3], false));
    assert_eq!(after(0x02, [M1, 3, 4]), ([2, 4, 4], false));
    assert_eq!(after(0x0A, [4, 0xC000_0000, 9]), ([4, 9, 9], false));
    let mut rig = Rig::quiet();
    rig.set(A, word(80)).put(word(80), 1, MIN).op(0x03);
    assert_eq!(rig.at(word(80), 1), MAX);
}

#[test]
fn decision_8_what_errors_keep() {
    assert_eq!(after(0x2C, [0, 5, 6]), ([0, 6, 6], true));
    assert_eq!(after(0x2C, [M1, MIN, 6]), ([M1, 6, 6], true));
    assert_eq!(after(0x1F, [0, 5, 6]), ([0, 6, 6], true));
    assert_eq!(after(0x1F, [M1, MIN, 6]), ([M1, 6, 6], true));
    assert_eq!(after(0x1A, [5, 4, 5]), ([5, 4, 5], true));
    assert_eq!(after(0x1A, [5, 4, 1]), ([0x3333_3334, 0, 1], false));
    assert_eq!(after(0x16, [MAX, 0, 1]), ([MIN, 0, 1], true));
    assert_eq!(after(0x38, [MAX, M1, 2]), ([MIN, M1, 2], false));
    assert_eq!(after(0x38, [MAX, M1, 3]), ([MAX, M1, 3], true));
    assert_eq!(after(0x4F, [1, 0, 7]), ([M1 - 1, 1, 7], false));
    assert_eq!(after(0x31, [M1, M1, M1]), ([0, M1, M1], false));
    assert_eq!(after(0x19, [0, 0, 5]), ([0, 0, 64], false));
}

#[test]
fn decision_8_stores_and_cj_keep() {
    let mut rig = Rig::quiet();
    rig.stack(word(80), 5, 6);
    assert_eq!(rig.function(14, 1), 0);
    assert_eq!(rig.abc(), [6, 5, 6]);
    assert_eq!(rig.at(word(80), 1), 5);
    let mut rig = Rig::quiet();
    rig.stack(word(80) + 1, 0x1FF, 6).op(0x3B);
    assert_eq!(rig.abc(), [6, 0x1FF, 6]);
    assert_eq!(rig.at(word(80), 0), 0xFF00);
    let mut rig = Rig::quiet();
    rig.stack(0, 5, 6).run(&[0xA2]);
    assert_eq!((rig.abc(), rig.get(IPTR)), ([0, 5, 6], CODE + 3));
    let mut rig = Rig::quiet();
    rig.stack(1, 5, 6).run(&[0xA2]);
    assert_eq!((rig.abc(), rig.get(IPTR)), ([5, 6, 6], CODE + 1));
}

#[test]
fn decision_9_part_words() {
    assert_eq!(after(0x3A, [MIN, 77, 3]).0, [77, 3, 3]);
    assert_eq!(after(0x3A, [0x80, 0x7F, 3]).0, [0x7F, 3, 3]);
    assert_eq!(after(0x3A, [0x80, 0x80, 3]).0, [0xFFFF_FF80, 3, 3]);
    assert_eq!(after(0x56, [MIN, MIN, 3]), ([MIN, 3, 3], false));
    assert_eq!(after(0x56, [0, 0, 3]), ([0, 3, 3], true));
    assert_eq!(
        after(0x56, [0x80, 0xFFFF_FF80, 3]),
        ([0xFFFF_FF80, 3, 3], false)
    );
    assert_eq!(
        after(0x56, [0x80, 0xFFFF_FF7F, 3]),
        ([0xFFFF_FF7F, 3, 3], true)
    );
}

#[test]
fn decision_10_what_waits_leave() {
    assert_eq!(after(0x2A, [1, 2, 3]).0, [0, 1, 2]);
    let mut rig = Rig::quiet();
    rig.put(W, STATE_S, ENABLING).op(0x44);
    assert_eq!(rig.get(A), ENABLING);
    assert_eq!(rig.at(W, 0), NONE_SELECTED);
    assert_eq!(rig.at(W, STATE_S), WAITING);
    let mut rig = Rig::quiet();
    rig.put(W, STATE_S, READY).op(0x44);
    assert_eq!((rig.get(A), rig.get(IPTR)), (READY, CODE + 1));
    let mut rig = Rig::quiet();
    rig.set(CLOCK[1], 9)
        .put(W, STATE_S, ENABLING)
        .put(W, TLINK_S, TIME_SET);
    rig.put(W, TIME_S, 8).op(0x51);
    assert_eq!(rig.abc(), [8, TIME_SET, ENABLING]);
    assert_eq!((rig.at(W, STATE_S), rig.at(W, TIME_S)), (READY, 9));
}

#[test]
fn decision_11_the_selected_process() {
    let mut rig = Rig::quiet();
    rig.put(W, 0, NONE_SELECTED).stack(42, 1, 5).op(0x30);
    assert_eq!((rig.abc(), rig.at(W, 0)), ([1, 5, 5], 42));
    rig.stack(43, 1, 5).op(0x30);
    assert_eq!((rig.abc(), rig.at(W, 0)), ([0, 5, 5], 42));
    let channel = word(80);
    let mut rig = Rig::quiet();
    rig.put(W, 0, NONE_SELECTED)
        .put(channel, 0, word(90))
        .stack(42, 1, channel)
        .op(0x2F);
    assert_eq!((rig.abc(), rig.at(W, 0)), ([1, word(90), channel], 42));
    let mut rig = Rig::quiet();
    rig.put(channel, 0, W | 1).stack(42, 1, channel).op(0x2F);
    assert_eq!(
        (rig.abc(), rig.at(channel, 0)),
        ([0, W | 1, channel], NOT_PROCESS)
    );
}

#[test]
fn decision_12_priority_is_ored_in() {
    let mut rig = Rig::quiet_high();
    rig.set(WDESC, W | 2).run(&[0xB1]);
    assert_eq!(rig.get(WDESC), (W | 2) + 4);
    let mut rig = Rig::quiet_high();
    rig.set(WDESC, W | 2).run(&[0x11]);
    assert_eq!(rig.get(A), (W | 2) + 4);
    rig.run(&[0x30]);
    assert_eq!(rig.get(A), rig.at(W, 1));
    let mut rig = Rig::quiet_high();
    rig.set(A, word(80) | 1)
        .put(word(80), 1, 1)
        .put(word(80), 0, 99)
        .op(0x03);
    assert_eq!((rig.get(WDESC), rig.get(IPTR)), (word(80) | 1, 99));
}

#[test]
fn decision_13_enbc_without_a_guard() {
    let mut rig = Rig::quiet();
    rig.stack(0, MAX, 6).op(0x48);
    assert_eq!(rig.abc(), [0, 6, 6]);
    assert_eq!(rig.m.used, RECORD);
}

#[test]
fn decision_14_a_move_moves_its_registers() {
    let mut rig = Rig::quiet();
    rig.put_bytes(word(80) + 1, &[1, 2, 3, 4, 5, 6]);
    rig.stack(6, word(90) + 3, word(80) + 1).op(0x4A);
    assert_eq!(rig.abc(), [0, word(90) + 9, word(80) + 7]);
    assert_eq!(rig.bytes(word(90) + 3, 6), [1, 2, 3, 4, 5, 6]);
    assert_eq!(rig.m.used, RECORD + 2 * 3);
    let mut rig = Rig::quiet();
    rig.stack(0, 5, 6).op(0x4A);
    assert_eq!((rig.abc(), rig.m.used), ([0, 5, 6], RECORD));
    for count in [4 * 128 + 1, M1, MIN] {
        assert_eq!(
            Rig::quiet().stack(count, word(0), word(0)).operate(0x4A),
            10
        );
    }
}

#[test]
fn decision_14_a_count_of_all_memory() {
    let mut rig = Rig::quiet();
    let before = rig.mem.clone();
    rig.stack(4 * 128, word(0), word(0));
    assert_eq!(rig.operate(0x4A), 0);
    assert_eq!(rig.mem[21..], before[21..]);
    assert_eq!(rig.m.used, RECORD + 2 * 128);
}

#[test]
fn decision_15_insertion_and_deletion_registers() {
    let (p, q) = (word(80), word(100));
    let mut rig = Rig::quiet();
    rig.put(TIMER_BASE, 1, p)
        .put(p, TLINK_S, q)
        .put(p, TIME_S, 20);
    rig.put(q, TLINK_S, NOT_PROCESS)
        .put(q, TIME_S, 31)
        .set(A, 30)
        .op(0x2B);
    assert_eq!(rig.abc(), [31, p, q]);
    assert_eq!((rig.at(p, TLINK_S), rig.at(W, TLINK_S)), (W, q));
    assert_eq!(
        (rig.at(W, TIME_S), rig.at(W, STATE_S), rig.at(W, IPTR_S)),
        (31, WAITING, CODE + 1)
    );
    assert_eq!((rig.get(TNEXT[1]), rig.get(WDESC)), (20, NO_LOW_PROCESS));
    rig.set(WDESC, W | 1)
        .set(IPTR, CODE)
        .set(FLAGS, 0)
        .stack(9, 1, 9)
        .op(0x2E);
    assert_eq!(rig.abc(), [0, p, q]);
    assert_eq!((rig.at(p, TLINK_S), rig.at(W, TLINK_S)), (q, TIME_NOT_SET));
    assert!(rig.has(FLAGS, TENABLED[1]));
    let mut rig = Rig::quiet();
    rig.put(TIMER_BASE, 1, W)
        .put(W, TLINK_S, NOT_PROCESS)
        .stack(9, 1, 9)
        .op(0x2E);
    assert_eq!(
        (rig.abc(), rig.get(FLAGS)),
        ([0, NOT_PROCESS, NOT_PROCESS], 0)
    );
}
