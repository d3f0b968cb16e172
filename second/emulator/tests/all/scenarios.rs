//! Hand-made scenarios: several processes, channels and clocks at work.

use crate::rig::*;
use emulator::registers::*;

const P: u32 = word(80);
const Q: u32 = word(100);
const CHANNEL: u32 = word(120);
const HERE: u32 = word(40);
const THERE: u32 = word(45);

#[test]
fn soft_channel_input_first() {
    let mut rig = Rig::quiet();
    rig.put(CHANNEL, 0, NOT_PROCESS)
        .set(A, P | 1)
        .put(P, IPTR_S, word(30))
        .op(0x39);
    rig.stack(5, CHANNEL, THERE).op(0x07);
    assert_eq!((rig.at(CHANNEL, 0), rig.at(W, POINTER_S)), (W | 1, THERE));
    assert_eq!((rig.get(WDESC), rig.get(IPTR)), (P | 1, word(30)));
    rig.put_bytes(HERE + 1, b"abcde")
        .stack(5, CHANNEL, HERE + 1)
        .op(0x0B);
    assert_eq!(rig.bytes(THERE, 6), b"abcde\0");
    assert_eq!(rig.abc(), [0, THERE + 5, HERE + 6]);
    assert_eq!((rig.at(CHANNEL, 0), rig.get(WDESC)), (NOT_PROCESS, P | 1));
    assert_eq!((rig.get(FPTR[1]), rig.get(BPTR[1])), (W, W));
    rig.op(0x15);
    assert_eq!((rig.get(WDESC), rig.get(IPTR)), (W | 1, CODE + 2));
}

#[test]
fn soft_channel_output_first_and_a_count_of_0() {
    let mut rig = Rig::quiet();
    rig.put(CHANNEL, 0, P | 1)
        .put(P, POINTER_S, HERE)
        .put_bytes(HERE, b"xyz");
    rig.stack(3, CHANNEL, THERE).op(0x07);
    assert_eq!(rig.bytes(THERE, 4), b"xyz\0");
    assert_eq!((rig.abc(), rig.get(FPTR[1])), ([0, THERE + 3, HERE + 3], P));
    let mut rig = Rig::quiet();
    rig.put(CHANNEL, 0, P | 1)
        .put(P, POINTER_S, HERE)
        .stack(0, CHANNEL, THERE)
        .op(0x07);
    assert_eq!((rig.abc(), rig.get(FPTR[1])), ([0, THERE, HERE], P));
    assert_eq!(rig.at(CHANNEL, 0), NOT_PROCESS);
}

#[test]
fn decision_14_an_interrupt_by_the_partner_saves_the_moved_registers() {
    let mut rig = Rig::quiet();
    rig.put(CHANNEL, 0, P)
        .put(P, POINTER_S, THERE)
        .put(P, IPTR_S, word(30));
    rig.stack(4, CHANNEL, HERE).op(0x0B);
    assert_eq!(rig.mem[11..16], [W | 1, CODE + 1, 0, THERE + 4, HERE + 4]);
    assert_eq!(rig.get(WDESC), P);
}

/// The process at W enables a soft and a hard channel and waits.
fn alternative() -> Rig {
    let mut rig = Rig::quiet();
    rig.put(CHANNEL, 0, NOT_PROCESS).op(0x43);
    rig.stack(1, CHANNEL, 0)
        .op(0x48)
        .stack(1, word(4), 0)
        .op(0x48);
    assert_eq!((rig.at(CHANNEL, 0), rig.at(PORT_BASE, 4)), (W | 1, W | 1));
    assert_eq!(
        (rig.at(W, STATE_S), rig.get(flags_of(4))),
        (ENABLING, ENABLED)
    );
    rig
}

/// After the wait: both guards are disabled; the offset of the chosen one is in local 0.
fn chosen(rig: &mut Rig) -> u32 {
    rig.stack(11, 1, CHANNEL)
        .op(0x2F)
        .stack(22, 1, word(4))
        .op(0x2F);
    let end = rig.get(IPTR) + 1;
    rig.op(0x45);
    rig.get(IPTR) - end
}

#[test]
fn alt_ready_by_the_link() {
    let mut rig = alternative();
    rig.op(0x44);
    assert_eq!((rig.at(W, STATE_S), rig.get(FLAGS)), (WAITING, IDLE));
    assert_eq!(rig.give(4, 0x66), 0);
    assert_eq!(rig.get(flags_of(4)), HELD | READY_REQUEST | 0x6600);
    rig.steps(1);
    assert_eq!(
        (rig.get(WDESC), rig.at(W, STATE_S), rig.get(FLAGS)),
        (W | 1, READY, 0)
    );
    assert_eq!(chosen(&mut rig), 22);
    assert_eq!(
        (rig.at(CHANNEL, 0), rig.get(flags_of(4))),
        (NOT_PROCESS, HELD | 0x6600)
    );
    rig.stack(1, word(4), HERE).op(0x07).steps(1);
    assert_eq!((rig.at(HERE, 0), rig.get(WDESC)), (0x66, W | 1));
}

#[test]
fn alt_ready_by_the_soft_channel() {
    let mut rig = alternative();
    rig.op(0x44)
        .set(WDESC, P | 1)
        .set(IPTR, word(30))
        .set(FLAGS, 0);
    rig.stack(4, CHANNEL, HERE).op(0x0B);
    assert_eq!((rig.at(W, STATE_S), rig.at(P, POINTER_S)), (READY, HERE));
    assert_eq!(
        (rig.at(CHANNEL, 0), rig.get(WDESC), rig.get(SLICE)),
        (P | 1, W | 1, 0)
    );
    assert_eq!(chosen(&mut rig), 11);
    assert_eq!(rig.get(flags_of(4)), 0);
    rig.put(HERE, 0, 0x1234).stack(4, CHANNEL, THERE).op(0x07);
    assert_eq!((rig.at(THERE, 0), rig.get(FPTR[1])), (0x1234, P));
}

#[test]
fn alt_ready_before_the_wait() {
    let mut rig = alternative();
    rig.set(WDESC, P | 1).stack(4, CHANNEL, HERE).op(0x0B);
    assert_eq!((rig.at(W, STATE_S), rig.get(FLAGS)), (READY, IDLE));
    rig.set(WDESC, W | 1).set(FLAGS, 0).op(0x44);
    assert_eq!((rig.get(A), rig.get(WDESC)), (READY, W | 1));
    let mut rig = alternative();
    assert_eq!(rig.give(4, 1), 0);
    rig.steps(1);
    assert_eq!(
        (rig.at(W, STATE_S), rig.get(flags_of(4))),
        (READY, HELD | 0x100)
    );
}

#[test]
fn timer_alternative() {
    let mut rig = Rig::quiet_high();
    rig.set(FLAGS, CLOCKS_RUN)
        .set(CLOCK[0], u32::MAX - 1)
        .op(0x4E);
    rig.stack(1, 1, 0)
        .op(0x47)
        .stack(1, u32::MAX, 0)
        .op(0x47)
        .stack(1, 2, 0)
        .op(0x47);
    assert_eq!(
        (rig.at(W, TLINK_S), rig.at(W, TIME_S)),
        (TIME_SET, u32::MAX)
    );
    rig.put(SAVE_BASE, 0, NO_LOW_PROCESS).op(0x51);
    assert_eq!(
        (rig.at(TIMER_BASE, 0), rig.at(W, TIME_S), rig.get(TNEXT[0])),
        (W, 0, 0)
    );
    assert_eq!(rig.get(FLAGS), CLOCKS_RUN | TENABLED[0] | IDLE);
    assert_eq!(
        (rig.step(), rig.tick(), rig.step(), rig.tick(), rig.step()),
        (7, 0, 7, 0, 0)
    );
    assert_eq!((rig.get(WDESC), rig.get(FLAGS)), (W, CLOCKS_RUN));
    assert_eq!(
        (rig.at(W, TLINK_S), rig.at(TIMER_BASE, 0)),
        (TIME_SET, NOT_PROCESS)
    );
    rig.stack(11, 1, 1).op(0x2E);
    assert_eq!(rig.get(A), 0);
    rig.stack(22, 1, u32::MAX).op(0x2E);
    assert_eq!((rig.get(A), rig.at(W, 0)), (1, 22));
}

#[test]
fn overlapping_moves() {
    let bytes: Vec<u8> = (1..=40).collect();
    for (from, to, count) in [
        (0, 1, 20),
        (0, 3, 17),
        (1, 6, 19),
        (2, 10, 30),
        (9, 2, 30),
        (5, 4, 25),
    ] {
        let mut rig = Rig::quiet();
        rig.put_bytes(HERE, &bytes)
            .stack(count, HERE + to, HERE + from)
            .op(0x4A);
        let mut expected = bytes.clone();
        for i in 0..count as usize {
            expected[to as usize + i] = expected[from as usize + i];
        }
        assert_eq!(rig.bytes(HERE, 40), expected, "from {from} to {to}");
        let words = (to + count - 1) / 4 - to / 4 + 1;
        assert_eq!(rig.m.used, RECORD + 2 * u64::from(words));
        assert_eq!(rig.undo(), 0);
        assert_eq!(rig.bytes(HERE, 40), bytes);
    }
}

/// DECISIONS 17: a low `out` to a waiting high ALT saves Status with GotoSNP, which comes back set
/// when the high process stops, and is acted on by the first step that is no prefix.
#[test]
fn the_goto_snp_trace() {
    let mut rig = Rig::quiet();
    rig.put(CHANNEL, 0, P)
        .put(P, STATE_S, WAITING)
        .put(P, IPTR_S, word(30));
    rig.set(FPTR[1], Q).set(BPTR[1], Q).put(Q, IPTR_S, word(35));
    rig.stack(1, CHANNEL, HERE).op(0x0B);
    assert_eq!((rig.get(WDESC), rig.get(STATUS)), (P, 0));
    assert_eq!(
        (rig.at(SAVE_BASE, 5), rig.at(SAVE_BASE, 0)),
        (GOTO_SNP, W | 1)
    );
    rig.op(0x15);
    assert_eq!(
        (rig.get(WDESC), rig.get(IPTR), rig.get(STATUS)),
        (W | 1, CODE + 1, GOTO_SNP)
    );
    rig.run(&[0x21, 0x20]);
    assert_eq!(
        (rig.get(WDESC), rig.get(STATUS), rig.get(OREG)),
        (W | 1, GOTO_SNP, 0x100)
    );
    rig.run(&[0x44]);
    assert_eq!(
        (rig.get(A), rig.get(WDESC), rig.get(IPTR)),
        (0x104, Q | 1, word(35))
    );
    assert_eq!(rig.get(STATUS), 0);
}

#[test]
fn start_and_end_of_processes() {
    let mut rig = Rig::quiet();
    rig.stack(P, 16, 0).op(0x0D);
    assert_eq!((rig.at(P, IPTR_S), rig.get(FPTR[1])), (CODE + 1 + 16, P));
    rig.set(A, Q).put(Q, 1, 2).put(Q, 0, word(30)).op(0x03);
    assert_eq!(
        (rig.at(Q, 1), rig.get(WDESC), rig.get(IPTR)),
        (1, P | 1, CODE + 17)
    );
    rig.set(A, Q).op(0x03);
    assert_eq!(
        (rig.at(Q, 1), rig.get(WDESC), rig.get(IPTR)),
        (1, Q | 1, word(30))
    );
}

#[test]
fn stop_on_error() {
    let mut rig = Rig::quiet();
    rig.op(0x55);
    assert_eq!(rig.get(WDESC), W | 1);
    rig.op(0x10).op(0x55);
    assert_eq!(
        (rig.get(WDESC), rig.at(W, IPTR_S)),
        (NO_LOW_PROCESS, CODE + 3)
    );
    let mut rig = Rig::quiet();
    rig.op(0x10).set(A, 9).op(0x29);
    assert_eq!((rig.abc(), rig.get(STATUS)), ([0, 9, 0], 0));
    rig.op(0x29);
    assert_eq!(rig.get(A), 1);
}

#[test]
fn calls_and_returns() {
    let mut rig = Rig::quiet();
    rig.stack(1, 2, 3).run(&[0x93]);
    rig.op(0x20);
    assert_eq!((rig.get(WDESC), rig.get(IPTR)), (W | 1, CODE + 1));
    rig.set(A, word(30)).op(0x06);
    assert_eq!((rig.get(A), rig.get(IPTR)), (CODE + 2, word(30)));
    rig.set(A, 8).op(0x1B);
    assert_eq!(rig.get(A), word(30) + 9);
}

/// Document 02, No. 3: a card with busy links. A low process is interrupted twenty times, and 2,000
/// ticks go by in the high process; the low one is not sliced at its next jump. Its own 1,024 ticks
/// slice it.
#[test]
fn decision_64_link_work_does_not_use_up_the_slice() {
    let (high, other) = (Q, P);
    let mut rig = Rig::quiet();
    rig.set(FLAGS, CLOCKS_RUN).put(high, IPTR_S, word(30));
    rig.set(FPTR[1], other)
        .set(BPTR[1], other)
        .put(other, IPTR_S, word(40));
    // ldlp 0, mint, ldnlp 4, ldc 1, in, j -8
    rig.put_bytes(word(30), &[0x10, 0x24, 0xF2, 0x54, 0x41, 0xF7, 0x60, 0x08]);
    rig.stack(high, 0, 0).op(0x39).steps(6);
    assert_eq!((rig.get(WDESC), rig.get(SLICE)), (W | 1, 0));
    for byte in 0..20 {
        assert_eq!(rig.give(4, byte), 0);
        rig.steps(1);
        assert_eq!(rig.get(WDESC), high);
        for _ in 0..100 {
            assert_eq!((rig.clear(), rig.tick()), (0, 0));
        }
        rig.steps(8);
        assert_eq!((rig.get(WDESC), rig.get(SLICE)), (W | 1, 0));
    }
    assert_eq!((rig.get(CLOCK[0]), rig.get(CLOCK[1])), (2_000, 31));
    rig.run(&[0x00]);
    assert_eq!((rig.get(WDESC), rig.get(FPTR[1])), (W | 1, other));
    for _ in 0..1_024 {
        assert_eq!((rig.clear(), rig.tick()), (0, 0));
    }
    rig.run(&[0x00]);
    assert_eq!((rig.get(WDESC), rig.get(FPTR[1])), (other | 1, W));
}
