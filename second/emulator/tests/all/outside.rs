//! DECISIONS 58: which access went outside memory, and at which address.

use crate::rig::*;
use emulator::registers::*;
use emulator::Refusal::{self, OutsideFetch, OutsideLoad, OutsideStore};

/// The first address above the memory of `Rig::quiet`, and the last word below it.
const END: u32 = word(128);
const BELOW: u32 = MIN_INT - 4;

/// Addresses outside memory, at both ends and far away, with every value of the low bits.
const OUTSIDE: [u32; 12] = [
    BELOW,
    BELOW + 1,
    BELOW + 2,
    BELOW + 3,
    END,
    END + 1,
    END + 2,
    END + 3,
    0,
    0x7FFF_0002,
    0xC000_0001,
    u32::MAX,
];

/// An operation with this stack, or the refusal that it meets.
fn operation(code: u32, stack: [u32; 3]) -> Option<Refusal> {
    let mut rig = Rig::quiet();
    let [a, b, c] = stack;
    rig.stack(a, b, c).operate(code);
    rig.refusal
}

/// An operation of a low process in this workspace.
fn in_workspace(wptr: u32, code: u32, stack: [u32; 3]) -> Option<Refusal> {
    let mut rig = Rig::quiet();
    let [a, b, c] = stack;
    rig.set(WDESC, wptr | 1).stack(a, b, c).operate(code);
    rig.refusal
}

#[test]
fn decision_58_numbers_parts_and_addresses() {
    for (refusal, expected) in [
        (OutsideFetch(7), (10, 1, 7)),
        (OutsideLoad(8), (10, 2, 8)),
        (OutsideStore(9), (10, 3, 9)),
        (Refusal::Unlisted, (9, 0, 0)),
        (Refusal::Stop, (11, 0, 0)),
    ] {
        let told = (refusal.number(), refusal.part(), refusal.address());
        assert_eq!(told, expected);
    }
}

#[test]
fn decision_58_the_fetch() {
    for address in OUTSIDE {
        for oreg in [0, 0x50] {
            let mut rig = Rig::quiet();
            rig.set(IPTR, address).set(OREG, oreg).step();
            assert_eq!(rig.refusal, Some(OutsideFetch(address)));
        }
    }
}

#[test]
fn decision_58_low_bits_stay() {
    const LB: u32 = 0x01;
    const SB: u32 = 0x3B;
    const RESETCH: u32 = 0x12;
    const SAVEH: u32 = 0x3E;
    for address in OUTSIDE {
        let stack = [address, 0, 0];
        assert_eq!(operation(LB, stack), Some(OutsideLoad(address)));
        assert_eq!(operation(SB, stack), Some(OutsideStore(address)));
        assert_eq!(operation(RESETCH, stack), Some(OutsideLoad(address)));
        assert_eq!(operation(SAVEH, stack), Some(OutsideStore(address)));
    }
    // the operand of ldnl and stnl counts words; a word more than the address leads outside
    for address in OUTSIDE {
        let base = address.wrapping_sub(20);
        let mut rig = Rig::quiet();
        rig.set(A, base).function(3, 5);
        assert_eq!(rig.refusal, Some(OutsideLoad(address)));
        rig.set(A, base).function(14, 5);
        assert_eq!(rig.refusal, Some(OutsideStore(address)));
    }
    // bit 1 of a workspace pointer
    for wptr in [END, END | 2] {
        let mut rig = Rig::quiet();
        rig.set(WDESC, wptr | 1).function(7, 1);
        assert_eq!(rig.refusal, Some(OutsideLoad(wptr + 4)));
        rig.function(13, 2);
        assert_eq!(rig.refusal, Some(OutsideStore(wptr + 8)));
    }
}

/// Memory's last bytes and first bytes are inside.
#[test]
fn decision_58_the_ends_themselves() {
    for address in [MIN_INT, MIN_INT + 3, END - 4, END - 1] {
        assert_eq!(operation(0x01, [address, 0, 0]), None);
        assert_eq!(operation(0x3B, [address, 0, 0]), None);
    }
    let mut rig = Rig::quiet();
    rig.set(IPTR, END - 1);
    assert_eq!((rig.step(), rig.step()), (0, 10));
    assert_eq!(rig.refusal, Some(OutsideFetch(END)));
}

#[test]
fn decision_58_a_frame_is_stored_from_above() {
    for (wptr, first) in [
        (MIN_INT, BELOW),
        (word(1), BELOW),
        (word(2), BELOW),
        (word(3), BELOW),
        (word(3) | 2, BELOW | 2),
        (word(129), END),
        (word(131), word(130)),
        (word(132), word(131)),
    ] {
        let mut rig = Rig::quiet();
        rig.set(WDESC, wptr | 1).function(9, 0);
        assert_eq!(rig.refusal, Some(OutsideStore(first)), "{wptr:X}");
    }
    let mut rig = Rig::quiet();
    assert_eq!(rig.set(WDESC, word(128) | 1).function(9, 0), 0);
    let mut rig = Rig::quiet();
    assert_eq!(rig.set(WDESC, word(4) | 1).function(9, 0), 0);
}

#[test]
fn decision_58_the_first_access_of_an_operation() {
    const ENDP: u32 = 0x03;
    const STARTP: u32 = 0x0D;
    const OUTWORD: u32 = 0x0F;
    const RET: u32 = 0x20;
    const LEND: u32 = 0x21;
    for (code, stack, expected) in [
        (0x3E, [word(127), 0, 0], OutsideStore(END)),
        (LEND, [0, word(127), 0], OutsideLoad(END)),
        (ENDP, [word(127), 0, 0], OutsideLoad(END)),
        (STARTP, [MIN_INT, 0, 0], OutsideStore(BELOW)),
        (STARTP, [END + 7, 0, 0], OutsideStore(END + 3)),
        // enbc, disc of a soft channel
        (0x48, [1, END + 1, 0], OutsideLoad(END + 1)),
        (0x2F, [0, 1, BELOW + 2], OutsideLoad(BELOW + 2)),
    ] {
        assert_eq!(operation(code, stack), Some(expected), "{code:X}");
    }
    for (wptr, code, expected) in [
        (END, OUTWORD, OutsideStore(END)),
        (END | 2, RET, OutsideLoad(END | 2)),
        (MIN_INT, 0x15, OutsideStore(BELOW)),
        // altwt: local 0, then State.s
        (END, 0x44, OutsideStore(END)),
        (word(2), 0x44, OutsideLoad(BELOW)),
        // altend
        (END, 0x45, OutsideLoad(END)),
        // talt: TLink.s, then State.s
        (word(3), 0x4E, OutsideStore(BELOW)),
        (word(131), 0x4E, OutsideStore(END)),
        // taltwt: local 0, State.s, TLink.s
        (word(2), 0x51, OutsideLoad(BELOW)),
        (word(130), 0x51, OutsideStore(word(130))),
        // tin: State.s, then Time.s
        (word(2), 0x2B, OutsideStore(BELOW)),
        (word(4), 0x2B, OutsideStore(BELOW)),
        (word(131), 0x2B, OutsideStore(END)),
        // dist: TLink.s
        (word(3), 0x2E, OutsideLoad(BELOW)),
        // alt, diss
        (word(2), 0x43, OutsideStore(BELOW)),
        // enbs, enbt
        (word(131), 0x49, OutsideStore(END)),
        (word(3), 0x47, OutsideLoad(BELOW)),
        (END, 0x30, OutsideLoad(END)),
    ] {
        let told = in_workspace(wptr, code, [1, 1, 1]);
        assert_eq!(told, Some(expected), "{wptr:X} {code:X}");
    }
}

/// Where the first accesses are inside, a later one decides.
#[test]
fn decision_58_a_later_access() {
    // lend stores the count in word 0 and loops; the index is below it
    let mut rig = Rig::quiet();
    rig.put(MIN_INT, 0, 5).stack(0, BELOW, 0).operate(0x21);
    assert_eq!(rig.refusal, Some(OutsideLoad(BELOW)));
    // endp finds 1 in word 0, and the continuation is below it
    let mut rig = Rig::quiet();
    rig.put(MIN_INT, 0, 1).stack(BELOW, 0, 0).operate(0x03);
    assert_eq!(rig.refusal, Some(OutsideLoad(BELOW)));
    // runp: the back pointer's Link.s; a high process's Iptr.s
    let mut rig = Rig::quiet();
    rig.set(FPTR[1], word(70)).set(BPTR[1], MIN_INT | 2);
    rig.set(A, word(80) | 1).operate(0x39);
    assert_eq!(rig.refusal, Some(OutsideStore(MIN_INT - 6)));
    assert_eq!(operation(0x39, [END + 4, 0, 0]), Some(OutsideLoad(END)));
    // stopp: the front's Link.s before its Iptr.s; alone in the queue, its Iptr.s
    let mut rig = Rig::quiet();
    rig.set(FPTR[1], word(0) + 1).set(BPTR[1], word(70));
    rig.operate(0x15);
    assert_eq!(rig.refusal, Some(OutsideLoad(MIN_INT - 7)));
    rig.set(BPTR[1], word(0) + 1).operate(0x15);
    assert_eq!(rig.refusal, Some(OutsideLoad(BELOW)));
    // j that is sliced
    let mut rig = Rig::quiet();
    rig.set(WDESC, MIN_INT | 3).set(FLAGS, CLOCKS_RUN);
    rig.set(SLICE, 1024).function(0, 0);
    assert_eq!(rig.refusal, Some(OutsideStore(BELOW | 2)));
}

#[test]
fn decision_58_channels() {
    const IN: u32 = 0x07;
    const OUT: u32 = 0x0B;
    for code in [IN, OUT] {
        let channel = [1, END + 1, word(90)];
        assert_eq!(operation(code, channel), Some(OutsideLoad(END + 1)));
        for (wptr, expected) in [
            (MIN_INT, OutsideStore(BELOW)),
            (word(1), OutsideStore(MIN_INT - 8)),
            (word(2), OutsideStore(BELOW)),
            (word(129), OutsideStore(END)),
        ] {
            // nobody waits: the channel word, Iptr.s, Pointer.s
            let mut rig = Rig::quiet();
            rig.put(word(100), 0, NOT_PROCESS).set(WDESC, wptr | 1);
            rig.stack(1, word(100), word(90)).operate(code);
            assert_eq!(rig.refusal, Some(expected), "{wptr:X}");
        }
        // a partner outside: its Pointer.s
        let mut rig = Rig::quiet();
        rig.put(word(100), 0, END + 1 + 16);
        rig.stack(1, word(100), word(90)).operate(code);
        assert_eq!(rig.refusal, Some(OutsideLoad(END + 4)));
    }
    // the message itself: an `in` of four bytes, the source two bytes before the end
    let mut rig = Rig::quiet();
    rig.put(word(100), 0, word(80) | 1)
        .put(word(80), POINTER_S, END - 2);
    rig.stack(4, word(100), END - 2).operate(IN);
    assert_eq!(rig.refusal, Some(OutsideLoad(END)));
    rig.stack(4, word(100), END - 1).operate(IN);
    assert_eq!(rig.refusal, Some(OutsideStore(END)));
    // and to the same places by an `out`
    rig.stack(4, word(100), END - 1).operate(OUT);
    assert_eq!(rig.refusal, Some(OutsideLoad(END)));
    rig.stack(4, word(100), END - 3).operate(OUT);
    assert_eq!(rig.refusal, Some(OutsideStore(END)));
}

#[test]
fn decision_58_links() {
    for address in OUTSIDE {
        let mut rig = Rig::quiet();
        for channel in [1, 5] {
            rig.set(pointer_of(channel), address)
                .set(count_of(channel), 3)
                .set(flags_of(channel), ACTIVE);
        }
        assert_eq!(rig.take(1), Err(10));
        assert_eq!(rig.refusal, Some(OutsideLoad(address)));
        assert_eq!(rig.give(5, 7), 10);
        assert_eq!(rig.refusal, Some(OutsideStore(address)));
        // an `in` that meets a held byte
        let mut rig = Rig::quiet();
        rig.set(flags_of(6), HELD).stack(1, word(6), address);
        assert_eq!(rig.operate(0x07), 10);
        assert_eq!(rig.refusal, Some(OutsideStore(address)));
    }
}

#[test]
fn decision_58_requests_and_timer_queues() {
    // a ready request and a timer that find NotProcess.p
    let mut rig = Rig::quiet();
    rig.put(PORT_BASE, 4, NOT_PROCESS)
        .set(flags_of(4), READY_REQUEST)
        .step();
    assert_eq!(rig.refusal, Some(OutsideLoad(MIN_INT - 12)));
    let mut rig = Rig::quiet();
    rig.put(TIMER_BASE, 0, NOT_PROCESS)
        .set(FLAGS, TENABLED[0])
        .step();
    assert_eq!(rig.refusal, Some(OutsideLoad(MIN_INT - 16)));
    // a deletion walks off the end of the queue
    let mut rig = Rig::quiet();
    rig.put(TIMER_BASE, 1, NOT_PROCESS).put(W, TLINK_S, 0);
    rig.stack(0, 1, 0).operate(0x2E);
    assert_eq!(rig.refusal, Some(OutsideLoad(MIN_INT - 16)));
    // an insertion meets a process outside
    let mut rig = Rig::quiet();
    rig.put(TIMER_BASE, 1, END + 21).set(A, 5).operate(0x2B);
    assert_eq!(rig.refusal, Some(OutsideLoad(END + 1)));
}

/// The first access outside of load 0, store 0, load 1, .. one by one.
fn byte_by_byte(source: u32, dest: u32, count: u32) -> Option<Refusal> {
    let outside = |address: u32| address.wrapping_sub(MIN_INT) >= END - MIN_INT;
    for at in 0..count {
        if outside(source.wrapping_add(at)) {
            return Some(OutsideLoad(source.wrapping_add(at)));
        }
        if outside(dest.wrapping_add(at)) {
            return Some(OutsideStore(dest.wrapping_add(at)));
        }
    }
    None
}

#[test]
fn decision_58_moves() {
    let starts = [0, 1, 3, 4, 9].map(|back| END - 9 + back);
    let starts = starts
        .into_iter()
        .chain([MIN_INT, MIN_INT + 5, BELOW + 3, 0, END - 512]);
    let starts: Vec<u32> = starts.collect();
    for &source in &starts {
        for &dest in &starts {
            for count in [0, 1, 2, 8, 9, 10, 511, 512, 513, 1 << 31, u32::MAX] {
                let told = operation(0x4A, [count, dest, source]);
                let expected = byte_by_byte(source, dest, count);
                assert_eq!(told, expected, "{source:X} {dest:X} {count}");
            }
        }
    }
}
