//! DECISIONS 16 to 27: one step.

use crate::rig::*;
use emulator::registers::*;

const P: u32 = word(80);
const Q: u32 = word(100);

/// A waiting process at the front of timer queue 0 or 1, due now.
fn due(queue: usize, low: u32) -> Rig {
    let mut rig = Rig::quiet();
    rig.set(WDESC, W | low);
    rig.put(TIMER_BASE, queue as u32, P)
        .put(P, TLINK_S, NOT_PROCESS)
        .put(P, STATE_S, WAITING);
    rig.put(P, IPTR_S, word(30)).set(FLAGS, TENABLED[queue]);
    rig
}

#[test]
fn decision_16_a_timer_is_ready_by_its_flag() {
    let mut rig = due(0, 1);
    rig.set(FLAGS, 0).run(&[0x41]);
    assert_eq!(rig.get(A), 1);
    let mut rig = due(0, 1);
    rig.set(TNEXT[0], 1).run(&[0x41]);
    assert_eq!(rig.get(A), 1);
    for next in [0, u32::MAX, 0x8000_0000] {
        let mut rig = due(0, 1);
        rig.set(TNEXT[0], next).steps(1);
        assert_eq!(rig.get(WDESC), P);
        assert_eq!(
            (rig.get(FLAGS), rig.at(P, TLINK_S), rig.at(P, STATE_S)),
            (0, TIME_SET, READY)
        );
    }
}

#[test]
fn decision_16_timer_1_asks_for_low_priority() {
    let mut rig = due(1, 0);
    rig.run(&[0x41]);
    assert_eq!(rig.get(A), 1);
    rig.set(FLAGS, TENABLED[1] | IDLE);
    assert_eq!(rig.step(), 7);
    let mut rig = due(1, 1);
    rig.steps(1);
    assert_eq!(
        (rig.get(WDESC), rig.get(FPTR[1]), rig.get(BPTR[1])),
        (W | 1, P, P)
    );
}

/// The run of DECISIONS 16. The process started by the code comes to the state of 17's trace; the
/// first one waits for low time 4.
#[test]
fn decision_16_timer_1_is_served_with_goto_snp_set() {
    let code = [
        0xBF, 0x40, 0x25, 0xF4, 0x45, 0x25, 0x10, 0xFD, 0x43, 0x22, 0xFB, 0x21, 0xF5, 0xB8, 0x24,
        0xF2, 0x21, 0x11, 0xE0, 0x4E, 0x21, 0xFB, 0x1F, 0xE0, 0x21, 0x10, 0x23, 0xF9, 0x10, 0x21,
        0x11, 0x44, 0xFB, 0x81, 0x21, 0xF5, 0x24, 0xF3, 0x11, 0x41, 0x24, 0xF8, 0x24, 0xF4, 0x11,
        0x41, 0x40, 0x22, 0xFF, 0x24, 0xF5, 0x12, 0x11, 0x44, 0xF7, 0x21, 0xF5,
    ];
    let mut rig = Rig::fresh(256, &code);
    rig.jou.resize(65_536, 0);
    rig.steps(52);
    let adc = MEM_START + 33;
    assert_eq!(
        (rig.get(STATUS), rig.get(A), rig.get(IPTR)),
        (GOTO_SNP, 4, adc)
    );
    for _ in 0..256 {
        assert_eq!(rig.tick(), 0);
    }
    assert_eq!((rig.get(CLOCK[1]), rig.get(TNEXT[1])), (4, 4));
    let front = rig.at(TIMER_BASE, 1);
    rig.steps(1);
    assert_eq!(
        (rig.at(TIMER_BASE, 1), rig.at(front, STATE_S)),
        (NOT_PROCESS, READY)
    );
    assert_eq!((rig.get(STATUS), rig.get(A), rig.get(IPTR)), (0, 4, adc));
    rig.steps(1);
    assert_eq!((rig.get(A), rig.get(FPTR[1])), (5, front));
}

#[test]
fn timer_0_comes_before_timer_1_and_channels_before_both() {
    let mut rig = due(0, 1);
    rig.put(TIMER_BASE, 1, Q)
        .put(Q, TLINK_S, NOT_PROCESS)
        .put(Q, STATE_S, READY);
    rig.set(FLAGS, TENABLED[0] | TENABLED[1])
        .set(flags_of(5), RUN_REQUEST | READY_REQUEST);
    rig.put(PORT_BASE, 5, NOT_PROCESS).steps(1);
    assert_eq!(rig.get(flags_of(5)), READY_REQUEST);
    rig.set(flags_of(5), 0).steps(1);
    assert_eq!(rig.get(FLAGS), TENABLED[1]);
    assert_eq!(rig.get(WDESC), P);
    rig.set(WDESC, W | 1).steps(1);
    assert_eq!(rig.get(FLAGS), 0);
}

#[test]
fn nothing_is_served_between_prefixes() {
    let mut rig = due(0, 1);
    rig.set(flags_of(0), RUN_REQUEST)
        .put(PORT_BASE, 0, P)
        .set(OREG, 0x10)
        .run(&[0x41]);
    assert_eq!((rig.get(A), rig.get(flags_of(0))), (0x11, RUN_REQUEST));
    rig.steps(1);
    assert_eq!(
        (rig.get(WDESC), rig.get(flags_of(0)), rig.at(PORT_BASE, 0)),
        (P, 0, NOT_PROCESS)
    );
}

#[test]
fn decision_17_a_set_bit_waits_for_the_end_of_the_step() {
    let mut rig = Rig::quiet();
    rig.set(STATUS, GOTO_SNP)
        .set(FPTR[1], P)
        .set(BPTR[1], P)
        .put(P, IPTR_S, word(30));
    rig.run(&[0x20]);
    assert_eq!((rig.get(WDESC), rig.get(STATUS)), (W | 1, GOTO_SNP));
    rig.run(&[0x45]);
    assert_eq!(
        (rig.get(A), rig.get(WDESC), rig.get(IPTR)),
        (5, P | 1, word(30))
    );
    assert_eq!((rig.get(STATUS), rig.get(FPTR[1])), (0, NOT_PROCESS));
}

#[test]
fn decision_17_the_step_sees_its_own_stores() {
    let mut rig = Rig::quiet();
    rig.set(STATUS, GOTO_SNP)
        .set(FPTR[1], P)
        .set(BPTR[1], P)
        .put(P, IPTR_S, word(30));
    rig.set(A, word(40));
    assert_eq!(rig.function(13, 19), 0);
    assert_eq!((rig.get(WDESC), rig.get(IPTR)), (P | 1, word(40)));
    let mut rig = Rig::quiet_high();
    for (i, value) in [Q | 1, word(30), 1, 2, 3, ERROR_FLAG]
        .into_iter()
        .enumerate()
    {
        rig.put(word(90), i as u32, value);
    }
    rig.set(STATUS, GOTO_SNP)
        .stack(24, SAVE_BASE, word(90))
        .op(0x4A);
    assert_eq!(
        (rig.get(WDESC), rig.get(IPTR), rig.abc()),
        (Q | 1, word(30), [1, 2, 3])
    );
    assert_eq!(rig.get(STATUS), ERROR_FLAG);
}

#[test]
fn decision_18_halting_looks_at_the_whole_step() {
    let mut rig = Rig::quiet();
    rig.set(STATUS, HALT_ON_ERROR).op(0x10);
    assert!(rig.has(FLAGS, HALTED));
    assert_eq!((rig.get(IPTR), rig.step()), (CODE + 1, 6));
    assert_eq!((rig.tick(), rig.give(4, 1), rig.event()), (0, 0, 0));
    let mut rig = Rig::quiet();
    rig.set(STATUS, HALT_ON_ERROR | ERROR_FLAG).op(0x10);
    assert!(!rig.has(FLAGS, HALTED));
    let mut rig = Rig::quiet();
    rig.op(0x10).op(0x58);
    assert!(!rig.has(FLAGS, HALTED));
}

#[test]
fn decision_18_halt_through_a_restored_status() {
    let mut rig = Rig::quiet_high();
    rig.put(SAVE_BASE, 0, Q | 1).put(SAVE_BASE, 1, word(30));
    rig.put(SAVE_BASE, 5, ERROR_FLAG | HALT_ON_ERROR).op(0x15);
    assert_eq!(
        (rig.get(WDESC), rig.get(STATUS)),
        (Q | 1, ERROR_FLAG | HALT_ON_ERROR)
    );
    assert!(rig.has(FLAGS, HALTED));
    let mut rig = Rig::quiet_high();
    rig.set(STATUS, HALT_ON_ERROR | GOTO_SNP);
    rig.put(SAVE_BASE, 0, Q | 1)
        .put(SAVE_BASE, 5, HALT_ON_ERROR)
        .op(0x10);
    assert_eq!((rig.get(STATUS), rig.get(FLAGS)), (HALT_ON_ERROR, 0));
}

#[test]
fn decision_19_only_the_flag_makes_idle() {
    let mut rig = Rig::quiet();
    rig.set(WDESC, NO_LOW_PROCESS).run(&[0x41]);
    assert_eq!(rig.get(A), 1);
    rig.set(FLAGS, IDLE)
        .set(OREG, 16)
        .set(flags_of(0), RUN_REQUEST);
    assert_eq!(rig.step(), 7);
    rig.set(OREG, 0);
    assert_eq!(
        (rig.step(), rig.get(flags_of(0)), rig.get(FLAGS)),
        (0, 0, IDLE)
    );
    let mut rig = Rig::quiet();
    rig.op(0x15);
    assert_eq!((rig.get(WDESC), rig.get(FLAGS)), (NO_LOW_PROCESS, IDLE));
    rig.put(P, IPTR_S, CODE)
        .put(PORT_BASE, 0, P | 1)
        .set(flags_of(0), RUN_REQUEST)
        .steps(1);
    assert_eq!(
        (rig.get(WDESC), rig.get(FLAGS), rig.get(IPTR)),
        (P | 1, 0, CODE)
    );
}

#[test]
fn decision_19_a_restored_process_clears_idle() {
    let mut rig = Rig::quiet_high();
    rig.set(FLAGS, IDLE)
        .set(STATUS, GOTO_SNP)
        .put(SAVE_BASE, 0, Q | 1);
    rig.set(flags_of(0), RUN_REQUEST).steps(1);
    assert_eq!((rig.get(WDESC), rig.get(FLAGS)), (Q | 1, 0));
}

/// A run request for the high process P while the low one at W is current.
fn interrupted(status: u32) -> Rig {
    let mut rig = Rig::quiet();
    rig.put(P, IPTR_S, word(30))
        .put(PORT_BASE, 3, P)
        .set(flags_of(3), RUN_REQUEST);
    rig.set(STATUS, status)
        .stack(1, 2, 3)
        .put(SAVE_BASE, 6, 77)
        .steps(1);
    assert_eq!((rig.get(WDESC), rig.get(IPTR)), (P, word(30)));
    rig
}

#[test]
fn decision_20_and_21_what_an_interrupt_saves() {
    let all = !GOTO_SNP;
    let rig = interrupted(all);
    assert_eq!(rig.get(STATUS), 0x8000_00FC);
    assert_eq!(rig.mem[11..18], [W | 1, CODE, 1, 2, 3, all, 0]);
    assert_eq!(rig.abc(), [1, 2, 3]);
    assert_eq!(interrupted(0).mem[16..18], [0, 77]);
    let mut rig = Rig::quiet();
    rig.set(WDESC, NO_LOW_PROCESS)
        .set(STATUS, MOVE_BIT)
        .put(SAVE_BASE, 6, 77);
    rig.put(P, IPTR_S, word(30))
        .put(PORT_BASE, 3, P)
        .set(flags_of(3), RUN_REQUEST)
        .steps(1);
    assert_eq!(rig.mem[11..18], [NO_LOW_PROCESS, 0, 0, 0, 0, 0, 0]);
}

/// An `in` or `out` of the low process at W whose partner, the high process P, waits on the channel.
#[test]
fn decision_21_a_message_that_begins_with_bit_3_set() {
    for code in [0x07, 0x0B] {
        for (status, word_17) in [(MOVE_BIT, 0), (0, 77)] {
            let mut rig = Rig::quiet();
            rig.put(P, POINTER_S, word(40)).put(Q, 0, P);
            rig.set(STATUS, status)
                .stack(4, Q, word(45))
                .put(SAVE_BASE, 6, 77)
                .op(code);
            assert_eq!((rig.get(WDESC), rig.get(STATUS)), (P, status));
            assert_eq!(
                (rig.mem[11], rig.mem[16..18].to_vec()),
                (W | 1, vec![status, word_17])
            );
        }
    }
}

#[test]
fn interrupt_and_return_of_a_low_process() {
    let mut rig = interrupted(HALT_ON_ERROR);
    rig.stack(7, 8, 9).op(0x15);
    assert_eq!(
        (rig.get(WDESC), rig.get(IPTR), rig.abc()),
        (W | 1, CODE, [1, 2, 3])
    );
    assert_eq!(
        (rig.get(STATUS), rig.at(P, IPTR_S)),
        (HALT_ON_ERROR, word(30) + 1)
    );
}

#[test]
fn decision_22_a_saved_80000000_restores_and_is_no_process() {
    let mut rig = Rig::quiet_high();
    rig.put(SAVE_BASE, 0, NOT_PROCESS)
        .put(SAVE_BASE, 1, 5)
        .put(SAVE_BASE, 2, 6)
        .op(0x15);
    assert_eq!(
        (rig.get(WDESC), rig.get(IPTR), rig.get(A)),
        (NOT_PROCESS, 5, 6)
    );
    assert!(rig.has(FLAGS, IDLE));
    let mut rig = Rig::quiet_high();
    rig.put(SAVE_BASE, 0, NO_LOW_PROCESS)
        .put(SAVE_BASE, 2, 6)
        .set(A, 1)
        .op(0x15);
    assert_eq!(
        (rig.get(WDESC), rig.get(A), rig.get(FLAGS)),
        (NO_LOW_PROCESS, 1, IDLE)
    );
}

#[test]
fn decision_23_queues() {
    let mut rig = Rig::quiet();
    rig.set(A, P | 1).op(0x39).set(A, Q | 1).op(0x39);
    assert_eq!(
        (rig.get(FPTR[1]), rig.get(BPTR[1]), rig.at(P, LINK_S)),
        (P, Q, Q)
    );
    let mut rig = Rig::quiet_high();
    rig.set(FPTR[0], P | 1)
        .set(BPTR[0], P)
        .put(P, LINK_S, Q)
        .op(0x15);
    assert_eq!((rig.get(WDESC), rig.get(FPTR[0])), (P | 1, Q));
}

/// A low process that jumps while another waits.
fn sliced(slice: u32, flags: u32, low: u32) -> Rig {
    let mut rig = Rig::quiet();
    rig.set(WDESC, W | low).set(SLICE, slice).set(FLAGS, flags);
    rig.set(FPTR[1], P)
        .set(BPTR[1], P)
        .put(P, IPTR_S, word(30))
        .run(&[0x03]);
    rig
}

#[test]
fn decision_24_time_slice() {
    let rig = sliced(1024, CLOCKS_RUN, 1);
    assert_eq!((rig.get(WDESC), rig.get(SLICE)), (P | 1, 0));
    assert_eq!((rig.at(W, IPTR_S), rig.at(P, LINK_S)), (CODE + 4, W));
    assert_eq!((rig.get(FPTR[1]), rig.get(BPTR[1])), (W, W));
    for other in [sliced(1023, 1, 1), sliced(1024, 0, 1), sliced(1024, 1, 0)] {
        assert_eq!((other.get(IPTR), other.get(FPTR[1])), (CODE + 4, P));
    }
    assert_eq!(sliced(u32::MAX, CLOCKS_RUN, 1).get(WDESC), P | 1);
}

#[test]
fn decision_24_slice_at_lend_stands_after_both_branches() {
    for count in [1, 5] {
        let mut rig = Rig::quiet();
        rig.set(SLICE, 1024)
            .set(FLAGS, CLOCKS_RUN)
            .stack(1, word(110), 0);
        rig.put(word(110), 1, count)
            .set(FPTR[1], P)
            .set(BPTR[1], P)
            .op(0x21);
        assert_eq!(rig.get(WDESC), P | 1);
        assert_eq!(rig.at(W, IPTR_S), if count == 1 { CODE + 1 } else { CODE });
    }
}

#[test]
fn decision_24_only_the_low_queue_zeroes_the_slice() {
    let mut rig = Rig::quiet_high();
    rig.set(SLICE, 500).set(FPTR[0], P).set(BPTR[0], P).op(0x15);
    assert_eq!(rig.get(SLICE), 500);
    let mut rig = Rig::quiet();
    rig.set(SLICE, 500).set(FPTR[1], P).set(BPTR[1], P).op(0x15);
    assert_eq!(rig.get(SLICE), 0);
}

#[test]
fn decision_25_the_order_of_refusals() {
    let mut rig = Rig::quiet();
    rig.jou.truncate(RECORD as usize - 1);
    assert_eq!(rig.operate(0x11), 9);
    assert_eq!(rig.stack(33, 0, 0).operate(0x41), 11);
    assert_eq!(rig.stack(0, 0, 0).operate(0x01), 10);
    assert_eq!(rig.operate(0x42), 12);
    rig.set(IPTR, 5);
    assert_eq!(rig.step(), 10);
    rig.set(FLAGS, IDLE);
    assert_eq!(rig.step(), 7);
    rig.set(FLAGS, IDLE | HALTED);
    assert_eq!(rig.step(), 6);
    rig.m.used = RECORD;
    assert_eq!(rig.step(), 4);
    rig.size(63);
    assert_eq!(rig.step(), 1);
}

#[test]
fn decision_26_every_if_without_a_true_branch() {
    let mut rig = due(0, 1);
    rig.put(P, STATE_S, ENABLING);
    assert_eq!(rig.step(), 11);
    let mut rig = Rig::quiet();
    rig.put(PORT_BASE, 4, P)
        .set(flags_of(4), READY_REQUEST)
        .put(P, STATE_S, 0);
    assert_eq!(rig.step(), 11);
    rig.put(PORT_BASE, 4, NOT_PROCESS);
    assert_eq!(rig.step(), 10);
    let mut rig = Rig::quiet();
    rig.put(W, TLINK_S, 0).set(A, 1);
    assert_eq!((rig.operate(0x47), rig.operate(0x51)), (11, 11));
    let mut rig = due(1, 1);
    rig.put(TIMER_BASE, 1, NOT_PROCESS);
    assert_eq!(rig.step(), 10);
    let mut rig = Rig::quiet();
    rig.put(TIMER_BASE, 1, P)
        .put(P, TLINK_S, NOT_PROCESS)
        .set(B, 1)
        .put(W, TLINK_S, Q);
    assert_eq!(rig.operate(0x2E), 10);
}

#[test]
fn decision_27_rings() {
    let mut rig = Rig::quiet();
    rig.put(TIMER_BASE, 1, P)
        .put(P, TLINK_S, Q)
        .put(Q, TLINK_S, P)
        .set(A, 50);
    assert_eq!(rig.operate(0x2B), 11);
    rig.put(Q, TLINK_S, Q | 2);
    assert_eq!(rig.operate(0x2B), 11);
    rig.put(Q, TIME_S, 51);
    assert_eq!(rig.operate(0x2B), 0);
    let mut rig = Rig::quiet();
    rig.put(TIMER_BASE, 1, P)
        .put(P, TLINK_S, P)
        .set(B, 1)
        .put(W, TLINK_S, Q);
    assert_eq!(rig.operate(0x2E), 11);
    assert_eq!(rig.m.used, 0);
}

#[test]
fn decision_27_a_long_queue_is_no_ring() {
    let mut rig = Rig::quiet();
    rig.size(16_384).put(TIMER_BASE, 1, word(200));
    let last = 8_000;
    for i in 0..last {
        let next = if i + 1 == last {
            NOT_PROCESS
        } else {
            word(202 + 2 * i)
        };
        rig.put(word(200 + 2 * i), TLINK_S, next)
            .put(word(200 + 2 * i), TIME_S, i);
    }
    rig.set(A, 9_000).op(0x2B);
    assert_eq!(rig.at(word(200 + 2 * (last - 1)), TLINK_S), W);
    rig.put(word(200 + 2 * (last - 1)), TLINK_S, word(4_200));
    rig.set(WDESC, W | 1)
        .set(IPTR, CODE)
        .set(FLAGS, 0)
        .set(A, 9_000);
    assert_eq!(rig.operate(0x2B), 11);
}
