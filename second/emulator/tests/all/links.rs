//! DECISIONS 28 to 34, 42 and 43: hard channels from both sides.

use crate::rig::*;
use emulator::registers::*;

const OUT: u32 = 0x0B;
const IN: u32 = 0x07;
const BUFFER: u32 = word(90);

/// The low process at W starts an `in` or `out` of `count` bytes on a hard channel.
fn started(code: u32, channel: u32, count: u32) -> Rig {
    let mut rig = Rig::quiet();
    rig.put(BUFFER, 0, 0x4433_2211)
        .stack(count, word(channel), BUFFER)
        .op(code);
    rig
}

#[test]
fn out_and_take() {
    let mut rig = started(OUT, 2, 3);
    assert_eq!((rig.at(PORT_BASE, 2), rig.at(W, IPTR_S)), (W | 1, CODE + 1));
    assert_eq!((rig.get(WDESC), rig.get(FLAGS)), (NO_LOW_PROCESS, IDLE));
    assert_eq!(rig.m.regs[pointer_of(2)..][..3], [BUFFER, 3, ACTIVE]);
    assert_eq!(
        [0x11, 0x22, 0x33].map(|byte| rig.take(2) == Ok(byte)),
        [true; 3]
    );
    assert_eq!(
        rig.m.regs[pointer_of(2)..][..3],
        [BUFFER + 3, 0, RUN_REQUEST]
    );
    assert_eq!(rig.take(2), Err(8));
    assert_eq!((rig.take(4), rig.take(99)), (Err(3), Err(3)));
    rig.steps(1);
    assert_eq!((rig.get(WDESC), rig.get(IPTR)), (W | 1, CODE + 1));
    assert_eq!(
        (rig.get(flags_of(2)), rig.at(PORT_BASE, 2)),
        (0, NOT_PROCESS)
    );
}

#[test]
fn in_and_give() {
    let mut rig = started(IN, 5, 2);
    assert_eq!(
        (rig.give(5, 0xAA), rig.give(5, 0xBB), rig.give(5, 0xCC)),
        (0, 0, 0)
    );
    assert_eq!(rig.at(BUFFER, 0), 0x4433_BBAA);
    assert_eq!(rig.get(flags_of(5)), RUN_REQUEST | HELD | 0xCC00);
    assert_eq!(rig.give(5, 0xDD), 8);
    assert_eq!((rig.give(3, 0), rig.give(8, 0)), (3, 3));
}

#[test]
fn decision_28_a_count_of_0_touches_nothing() {
    for channel in 0..9 {
        let mut rig = Rig::quiet();
        rig.set(WDESC, NO_LOW_PROCESS)
            .set(flags_of(channel as usize), HELD);
        rig.stack(0, word(channel) + 2, 6).op(IN);
        assert_eq!((rig.m.used, rig.abc()), (RECORD, [0, word(channel) + 2, 6]));
        assert_eq!(
            (rig.get(flags_of(channel as usize)), rig.get(IPTR)),
            (HELD, CODE + 1)
        );
    }
}

#[test]
fn decision_29_in_with_a_byte_held() {
    // With Oreg not 0 a ready request is not served first; 7 OR 7 is still `in`.
    let mut rig = Rig::quiet();
    let rest = ENABLED | READY_REQUEST | 0xFFFF_00E0;
    rig.put_bytes(CODE, &[0xF7])
        .set(OREG, 7)
        .set(flags_of(6), rest | HELD | 0x5A00);
    rig.stack(2, word(6), BUFFER + 1).steps(1);
    assert_eq!(rig.at(BUFFER, 0), 0x5A00);
    assert_eq!(
        rig.m.regs[pointer_of(6)..][..3],
        [BUFFER + 2, 1, rest | ACTIVE | 0x5A00]
    );
    let mut rig = Rig::quiet();
    rig.set(flags_of(6), HELD | 0x5A00)
        .stack(1, word(6), BUFFER)
        .op(IN);
    assert_eq!(
        rig.m.regs[pointer_of(6)..][..3],
        [BUFFER + 1, 0, RUN_REQUEST | 0x5A00]
    );
    assert_eq!(rig.m.used, RECORD + 6);
    let mut rig = Rig::quiet();
    rig.set(flags_of(6), HELD).stack(1, word(6), word(128));
    assert_eq!(rig.operate(IN), 10);
}

#[test]
fn event_before_and_after_in() {
    let mut rig = Rig::quiet();
    assert_eq!((rig.event(), rig.event()), (0, 8));
    assert_eq!(rig.get(flags_of(8)), HELD);
    rig.stack(77, word(8), BUFFER).op(IN);
    assert_eq!(rig.m.regs[pointer_of(8)..][..3], [BUFFER, 0, RUN_REQUEST]);
    assert_eq!(rig.at(BUFFER, 0), 0);
    let mut rig = started(IN, 8, 77);
    rig.set(flags_of(8), ACTIVE | HELD | 0x1200);
    assert_eq!(rig.event(), 0);
    assert_eq!(
        rig.m.regs[pointer_of(8)..][..3],
        [BUFFER, 0, RUN_REQUEST | HELD | 0x1200]
    );
    rig.steps(1);
    assert_eq!(rig.get(WDESC), W | 1);
}

#[test]
fn decision_30_enabling_a_hard_channel() {
    for channel in [0, 4, 8] {
        let flags = flags_of(channel as usize);
        let mut rig = Rig::quiet();
        rig.set(flags, HELD).stack(1, word(channel), 6).op(0x48);
        assert_eq!((rig.get(flags), rig.at(W, STATE_S)), (HELD, READY));
        assert_eq!((rig.abc(), rig.m.used), ([1, 6, 6], RECORD + 2));
        let mut rig = Rig::quiet();
        rig.set(flags, READY_REQUEST)
            .stack(1, word(channel), 6)
            .op(0x48);
        assert_eq!(rig.get(flags), READY_REQUEST | ENABLED);
        assert_eq!((rig.at(PORT_BASE, channel), rig.at(W, STATE_S)), (W | 1, 0));
    }
}

#[test]
fn decision_30_disabling_a_hard_channel() {
    let mut rig = Rig::quiet();
    let held = ENABLED | READY_REQUEST | HELD | RUN_REQUEST;
    rig.set(flags_of(4), held)
        .put(PORT_BASE, 4, W | 1)
        .put(W, 0, NONE_SELECTED);
    rig.stack(33, 1, word(4)).op(0x2F);
    assert_eq!(
        (rig.get(flags_of(4)), rig.at(PORT_BASE, 4)),
        (HELD | RUN_REQUEST, NOT_PROCESS)
    );
    assert_eq!((rig.abc(), rig.at(W, 0)), ([1, 1, word(4)], 33));
    let mut rig = Rig::quiet();
    rig.set(flags_of(4), ENABLED).stack(33, 1, word(4)).op(0x2F);
    assert_eq!((rig.get(flags_of(4)), rig.abc()), (0, [0, 1, word(4)]));
}

#[test]
fn decision_31_a_busy_channel_is_overwritten() {
    let mut rig = Rig::quiet();
    let busy = ACTIVE | ENABLED | HELD | 0x7700;
    rig.set(pointer_of(1), 5)
        .set(count_of(1), 6)
        .set(flags_of(1), busy);
    rig.stack(3, word(1), BUFFER).op(OUT);
    assert_eq!(rig.m.regs[pointer_of(1)..][..3], [BUFFER, 3, busy]);
}

#[test]
fn decision_32_moving() {
    let mut rig = Rig::quiet();
    rig.set(flags_of(4), ACTIVE | HELD)
        .set(count_of(4), 1)
        .set(pointer_of(4), BUFFER);
    assert_eq!(rig.give(4, 0x99), 0);
    assert_eq!(
        (rig.get(flags_of(4)), rig.at(BUFFER, 0)),
        (RUN_REQUEST | HELD, 0x99)
    );
    let mut rig = Rig::quiet();
    rig.set(flags_of(4), ACTIVE | ENABLED)
        .set(flags_of(0), ACTIVE);
    assert_eq!((rig.give(4, 0x99), rig.take(0)), (0, Err(8)));
    assert_eq!(rig.get(flags_of(4)), ACTIVE | HELD | READY_REQUEST | 0x9900);
    let mut rig = Rig::quiet();
    rig.set(flags_of(0), ACTIVE)
        .set(count_of(0), 2)
        .set(pointer_of(0), word(128) - 1);
    assert_eq!((rig.take(0), rig.take(0)), (Ok(0), Err(10)));
    rig.set(flags_of(4), ACTIVE)
        .set(count_of(4), 2)
        .set(pointer_of(4), MIN_INT - 1);
    assert_eq!(rig.give(4, 1), 10);
}

#[test]
fn decision_33_which_addresses_are_hard() {
    let mut rig = Rig::quiet();
    rig.stack(1, word(8) + 3, BUFFER).op(OUT);
    assert_eq!(rig.get(flags_of(8)), ACTIVE);
    let mut rig = Rig::quiet();
    rig.put(word(9), 0, NOT_PROCESS)
        .stack(1, word(9), BUFFER)
        .op(OUT);
    assert_eq!((rig.at(word(9), 0), rig.at(W, POINTER_S)), (W | 1, BUFFER));
    assert_eq!(Rig::quiet().stack(1, MIN_INT - 1, BUFFER).operate(OUT), 10);
}

#[test]
fn decision_34_a_run_request_after_a_reset() {
    let mut rig = Rig::quiet();
    rig.set(flags_of(7), RUN_REQUEST | ENABLED).steps(1);
    assert_eq!((rig.get(flags_of(7)), rig.m.used), (ENABLED, RECORD));
}

#[test]
fn resetch_clears_the_five_bits() {
    let mut rig = Rig::quiet();
    rig.set(flags_of(5), u32::MAX)
        .put(PORT_BASE, 5, W)
        .set(A, word(5) + 1);
    rig.set(pointer_of(5), 1).set(count_of(5), 2).op(0x12);
    assert_eq!(rig.m.regs[pointer_of(5)..][..3], [1, 2, !0x1F]);
    assert_eq!((rig.get(A), rig.at(PORT_BASE, 5)), (W, NOT_PROCESS));
}

#[test]
fn decision_42_outword_and_outbyte() {
    let mut rig = Rig::quiet();
    rig.stack(0x1234_5678, word(1), 9).op(0x0F);
    assert_eq!((rig.at(W, 0), rig.abc()), (0x1234_5678, [4, word(1), W]));
    assert_eq!(
        [0x78, 0x56, 0x34, 0x12].map(|byte| rig.take(1) == Ok(byte)),
        [true; 4]
    );
    let mut rig = Rig::quiet();
    rig.set(WDESC, W | 3)
        .stack(0x1234_5678, word(1), 9)
        .op(0x0E);
    assert_eq!(
        (rig.at(W, 0), rig.abc()),
        (0x1234_5678, [1, word(1), W | 2])
    );
    assert_eq!(rig.take(1), Ok(0x34));
}

#[test]
fn decision_43_the_channel_number_decides_the_way() {
    let mut rig = Rig::quiet();
    rig.set(flags_of(4), HELD | 0x4200)
        .stack(2, word(4), BUFFER)
        .op(OUT);
    assert_eq!(
        rig.m.regs[pointer_of(4)..][..3],
        [BUFFER, 2, ACTIVE | HELD | 0x4200]
    );
    assert_eq!((rig.give(4, 7), rig.at(BUFFER, 0)), (0, 7));
    let mut rig = Rig::quiet();
    rig.set(flags_of(0), HELD)
        .put(BUFFER, 0, 0x99)
        .stack(2, word(0), BUFFER)
        .op(IN);
    assert_eq!(rig.get(flags_of(0)), ACTIVE | HELD);
    assert_eq!(rig.take(0), Ok(0x99));
    let mut rig = Rig::quiet();
    rig.set(flags_of(8), HELD).stack(2, word(8), BUFFER).op(OUT);
    assert_eq!(rig.get(flags_of(8)), ACTIVE | HELD);
    assert_eq!(rig.event(), 0);
    assert_eq!(rig.get(flags_of(8)), RUN_REQUEST | HELD);
}

#[test]
fn ticks() {
    let mut rig = Rig::quiet();
    assert_eq!((rig.tick(), rig.m.used, rig.get(CLOCK[0])), (0, RECORD, 0));
    rig.set(FLAGS, CLOCKS_RUN)
        .set(CLOCK[0], u32::MAX)
        .set(CLOCK[1], u32::MAX);
    rig.set(PRESCALER, 63).set(SLICE, 1023);
    assert_eq!(rig.tick(), 0);
    assert_eq!(rig.m.regs[CLOCK[0]..=SLICE], [0, 0, 0, 0, 0, 1024]);
    rig.set(PRESCALER, 99).tick();
    assert_eq!(rig.m.regs[CLOCK[0]..=SLICE], [1, 1, 0, 0, 0, 1024]);
    rig.set(PRESCALER, 7).stack(500, 6, 7).op(0x54);
    assert_eq!(
        (rig.m.regs[11], rig.m.regs[12], rig.abc()),
        (500, 500, [6, 7, 7])
    );
    assert_eq!((rig.get(PRESCALER), rig.get(SLICE)), (0, 1024));
}

/// Document 02, No. 3: the slice grows on the ticks of a low process alone; all else of a tick stays.
#[test]
fn decision_64_the_slice_counts_a_low_process_alone() {
    for (low, flags, grows) in [
        (1, CLOCKS_RUN, true),
        (1, CLOCKS_RUN | HALTED, true),
        (1, CLOCKS_RUN | IDLE, false),
        (1, CLOCKS_RUN | IDLE | HALTED, false),
        (0, CLOCKS_RUN, false),
        (0, CLOCKS_RUN | HALTED, false),
        (0, CLOCKS_RUN | IDLE, false),
        (1, 0, false),
        (1, HALTED, false),
    ] {
        for (before, most) in [
            (0, 1),
            (1022, 1023),
            (1023, 1024),
            (1024, 1024),
            (9999, 9999),
        ] {
            let mut rig = Rig::quiet();
            rig.set(WDESC, W | low).set(FLAGS, flags).set(SLICE, before);
            assert_eq!(rig.tick(), 0);
            let after = if grows { most } else { before };
            assert_eq!(rig.get(SLICE), after, "{low} {flags} {before}");
            let clock = flags & CLOCKS_RUN;
            assert_eq!((rig.get(CLOCK[0]), rig.get(PRESCALER)), (clock, clock));
        }
    }
}

/// A workspace pointer that is no process still counts as a current one while idle is clear.
#[test]
fn decision_64_only_the_idle_flag_tells_that_nobody_runs() {
    let mut rig = Rig::quiet();
    rig.set(WDESC, NO_LOW_PROCESS).set(FLAGS, CLOCKS_RUN);
    assert_eq!((rig.tick(), rig.get(SLICE)), (0, 1));
}
