//! Document 01, "Numbers at the edges": every line.

use crate::rig::*;
use emulator::registers::*;
use emulator::{number, Emulator};

fn loads(bytes: &[u8]) -> u32 {
    Rig::quiet().run(bytes).get(A)
}

#[test]
fn constants() {
    assert_eq!(loads(&[0x27, 0x25, 0x44]), 0x754);
    assert_eq!(loads(&[0x60, 0x4F]), u32::MAX);
    assert_eq!(loads(&[0x61, 0x41]), 31u32.wrapping_neg());
    assert_eq!(
        loads(&[0x27, 0x2F, 0x2F, 0x2F, 0x2F, 0x2F, 0x6F, 0x40]),
        0x8000_0000
    );
}

#[test]
fn adc_at_both_ends() {
    let mut rig = Rig::quiet();
    rig.set(A, 0x7FFF_FFFF).run(&[0x81]);
    assert_eq!(rig.get(A), 0x8000_0000);
    assert!(rig.has(STATUS, ERROR_FLAG));
    let mut rig = Rig::quiet();
    rig.set(A, 0x8000_0000).run(&[0x60, 0x8F]);
    assert_eq!(rig.get(A), 0x7FFF_FFFF);
    assert!(rig.has(STATUS, ERROR_FLAG));
}

#[test]
fn checks_of_equal_numbers() {
    assert!(Rig::quiet().stack(5, 5, 0).op(0x13).has(STATUS, ERROR_FLAG));
    assert!(!Rig::quiet().stack(5, 5, 0).op(0x4D).has(STATUS, ERROR_FLAG));
}

#[test]
fn lend_counts() {
    let block = word(70);
    let mut rig = Rig::quiet();
    rig.stack(3, block, 0).put(block, 1, 1).op(0x21);
    assert_eq!(rig.get(IPTR), CODE + 1);
    assert_eq!(rig.at(block, 1), 0);
    let mut rig = Rig::quiet();
    rig.stack(3, block, 0).put(block, 1, 0x8000_0000).op(0x21);
    assert_eq!(rig.at(block, 1), 0x7FFF_FFFF);
    assert_eq!(rig.get(IPTR), CODE + 1 - 3);
    assert_eq!(rig.at(block, 0), 1);
}

#[test]
fn gajw_can_lower_the_priority() {
    let mut rig = Rig::quiet_high();
    rig.set(A, 0x8000_0081).op(0x3C);
    assert_eq!(rig.get(WDESC), 0x8000_0081);
    assert_eq!(rig.get(A), W);
}

/// `tin` goes on exactly when the clock is later than the time.
fn clock_is_later(clock: u32, time: u32) -> bool {
    let mut rig = Rig::quiet();
    rig.set(CLOCK[1], clock).set(A, time).op(0x2B);
    !rig.has(FLAGS, TENABLED[1])
}

#[test]
fn later() {
    assert!(clock_is_later(0x8000_0000, 0x7FFF_FFFF));
    assert!(!clock_is_later(0, 0x8000_0000));
    assert!(!clock_is_later(0x8000_0000, 0));
    assert!(!clock_is_later(5, 5));
}

#[test]
fn norm_of_one() {
    let mut rig = Rig::quiet();
    rig.stack(1, 0, 9).op(0x19);
    assert_eq!(rig.abc(), [0, 0x8000_0000, 63]);
}

#[test]
fn lb_reads_the_least_significant_byte() {
    let mut rig = Rig::quiet();
    rig.put(word(70), 0, 0x0A0B_0C0D).set(A, word(70)).op(0x01);
    assert_eq!(rig.get(A), 0x0D);
    rig.set(A, word(70) + 3).op(0x01);
    assert_eq!(rig.get(A), 0x0A);
}

fn fresh_answers(size: usize, code: usize) -> u32 {
    let mut memory = vec![7; size];
    let fresh = Emulator::new().fresh(&mut memory, &[], &vec![0x40; code]);
    if fresh.is_err() {
        assert!(memory.iter().all(|&word| word == 7));
    }
    number(&fresh)
}

#[test]
fn sizes_of_fresh() {
    assert_eq!(fresh_answers(64, 180), 0);
    assert_eq!(fresh_answers(64, 181), 2);
    assert_eq!(fresh_answers(64, 0), 2);
    assert_eq!(fresh_answers(63, 10), 1);
    assert_eq!(fresh_answers(63, 0), 1);
    assert_eq!(fresh_answers(16_384, 65_460), 0);
    assert_eq!(fresh_answers(16_384, 65_461), 2);
    assert_eq!(fresh_answers(16_385, 10), 1);
}

#[test]
fn two_steps_and_three_undos() {
    let mut rig = Rig::fresh(64, &[0x41, 0x81]);
    rig.steps(2);
    assert_eq!((rig.get(A), rig.m.used, rig.m.depth), (2, 92, 2));
    assert_eq!(rig.undo(), 0);
    assert_eq!((rig.get(A), rig.m.used, rig.m.depth), (1, 46, 1));
    assert_eq!(rig.undo(), 0);
    assert_eq!((rig.m.used, rig.m.depth), (0, 0));
    assert_eq!(rig.undo(), 5);
}

#[test]
fn call_adds_54_words() {
    let mut rig = Rig::quiet();
    rig.stack(1, 2, 3).run(&[0x92]);
    assert_eq!(rig.m.used, 54);
    assert_eq!(
        [4, 3, 2, 1].map(|n: u32| rig.at(W, n.wrapping_neg())),
        [CODE + 1, 1, 2, 3]
    );
    assert_eq!(rig.get(IPTR), CODE + 3);
    assert_eq!(rig.get(WDESC), (W - 16) | 1);
    assert_eq!(rig.get(A), CODE + 1);
}

#[test]
fn state_after_fresh() {
    let rig = Rig::fresh(64, &[1, 2, 3, 4, 5]);
    let mut expected = [0; REGISTERS];
    expected[IPTR] = 0x8000_0048;
    expected[WDESC] = 0x8000_0051;
    expected[FPTR[0]] = NOT_PROCESS;
    expected[FPTR[1]] = NOT_PROCESS;
    assert_eq!(rig.m.regs, expected);
    assert!(rig.mem[..12].iter().all(|&word| word == NOT_PROCESS));
    assert_eq!(rig.mem[12..21], [0, 0, 0, 0, 0, 0, 0x0403_0201, 5, 0]);
}
