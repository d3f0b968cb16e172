//! What a step is to do, and operands under which it is likely to be accepted.

use emulator::registers::*;

use super::scene::Scene;
use crate::instructions::{function_code, operation_code, FUNCTIONS, OPERATIONS};
use crate::random::Random;

/// Operations with many branches, drawn more often than the rest.
const BUSY: [&str; 22] = [
    "in", "out", "outword", "outbyte", "resetch", "enbc", "disc", "enbt", "dist", "diss", "tin",
    "taltwt", "altwt", "startp", "endp", "runp", "stopp", "stoperr", "lend", "move", "in", "out",
];

pub fn prepare(random: &mut Random, scene: &mut Scene) {
    match random.below(100) {
        0..=9 => channel_request(random, scene),
        10..=16 => timer_request(random, scene),
        17..=40 => function(random, scene),
        41 => unlisted(random, scene),
        42 => no_byte(random, scene),
        _ => {
            let any = random.pick(&OPERATIONS).name;
            let busy = random.pick(&BUSY);
            let name = if random.percent(55) { any } else { busy };
            if random.percent(80) {
                operands(random, scene, name);
            }
            place(random, scene, "opr", operation_code(name));
        }
    }
}

fn channel_request(random: &mut Random, scene: &mut Scene) {
    scene.regs[OREG] = 0;
    for _ in 0..random.between(1, 3) {
        let channel = random.below(LINK_CHANS as u32) as usize;
        let request = random.pick(&[RUN_REQUEST, READY_REQUEST, RUN_REQUEST | READY_REQUEST]);
        scene.regs[flags_of(channel)] |= request;
        if random.percent(60) {
            let waiting = scene.descriptor(random);
            scene.put(PORT_BASE, channel as u32, waiting);
            let state = random.pick(&[ENABLING, WAITING, WAITING, READY]);
            scene.put(waiting & !1, STATE_S, state);
        }
    }
}

fn timer_request(random: &mut Random, scene: &mut Scene) {
    scene.regs[OREG] = 0;
    quiet_channels(scene);
    let queue = random.below(2) as usize;
    let clock = scene.regs[CLOCK[queue]];
    scene.regs[FLAGS] |= TENABLED[queue];
    if random.percent(30) {
        scene.regs[FLAGS] |= TENABLED[1 - queue];
    }
    if queue == 1 {
        scene.regs[WDESC] |= u32::from(random.percent(80));
    }
    scene.regs[TNEXT[queue]] = clock.wrapping_sub(random.below(4));
    if random.percent(20) {
        scene.regs[TNEXT[queue]] = random.pick(&[clock ^ MIN_INT, clock.wrapping_add(1)]);
    }
}

fn function(random: &mut Random, scene: &mut Scene) {
    let all_but_opr = FUNCTIONS.len() - 1;
    let name = random.pick(&FUNCTIONS[..all_but_opr]).name;
    let near = random.below(16).wrapping_sub(6);
    let any = random.word();
    let mut operand = match name {
        "j" => random.below(40).wrapping_sub(20),
        "ldc" => random.pick(&[near, any]),
        _ if random.percent(90) => near,
        _ => any,
    };
    if name == "stl" && random.percent(30) {
        operand = scheduler_word(random, scene).wrapping_sub(scene.regs[WDESC] & !1) / 4;
    }
    if name == "adc" || name == "eqc" {
        scene.regs[A] = edge(random);
        let same = scene.regs[A];
        operand = random.pick(&[near, any, same]);
    }
    if (name == "ldnl" || name == "stnl") && random.percent(85) {
        scene.regs[A] = data_address(random, scene);
    }
    if name == "cj" {
        scene.regs[A] = random.below(2);
    }
    place(random, scene, name, operand);
}

/// A word that StartNextProcess is going to read: the step's own stores must be seen there.
fn scheduler_word(random: &mut Random, scene: &mut Scene) -> u32 {
    scene.regs[STATUS] |= GOTO_SNP;
    let level = (scene.regs[WDESC] & 1) as usize;
    let front = scene.regs[FPTR[level]];
    if front == NOT_PROCESS && level == 0 {
        return SAVE_BASE + 4 * random.below(6);
    }
    let offset = random.between(1, 2);
    front.wrapping_sub(4 * offset)
}

fn unlisted(random: &mut Random, scene: &mut Scene) {
    let any = random.word();
    let above = random.between(0x5A, 0x200);
    let code = random.pick(&[0x11, 0x14, 0x23, 0x28, 0x2D, 0x63, 0x19B, above, above, any]);
    place(random, scene, "opr", code);
}

/// Nothing to fetch.
fn no_byte(random: &mut Random, scene: &mut Scene) {
    place(random, scene, "j", 0);
    scene.regs[IPTR] = scene.just_outside(random);
}

/// Puts the last byte of an instruction at Iptr and the rest of its operand into Oreg.
fn place(random: &mut Random, scene: &mut Scene, function: &str, operand: u32) {
    scene.regs[OREG] = operand & !15;
    // The last nibble is ORed in, so it may stand in Oreg already, in part or with others.
    if random.percent(4) {
        let others = if random.percent(30) { 15 } else { operand & 15 };
        scene.regs[OREG] |= others & random.below(16);
    }
    let iptr = scene.regs[IPTR];
    scene.put_byte(iptr, (function_code(function) << 4) | (operand & 15));
    if scene.regs[OREG] == 0 {
        if random.percent(97) {
            quiet_channels(scene);
            scene.regs[FLAGS] &= !(TENABLED[0] | TENABLED[1]);
        }
    } else if random.percent(20) {
        let channel = random.below(LINK_CHANS as u32) as usize;
        scene.regs[flags_of(channel)] |= random.pick(&[RUN_REQUEST, READY_REQUEST]);
        scene.regs[FLAGS] |= random.pick(&TENABLED);
    }
    if random.percent(85) {
        scene.regs[FLAGS] &= !IDLE;
    }
}

fn quiet_channels(scene: &mut Scene) {
    for channel in 0..LINK_CHANS {
        scene.regs[flags_of(channel)] &= !(RUN_REQUEST | READY_REQUEST);
    }
}

/// Operands that suit the operation.
fn operands(random: &mut Random, scene: &mut Scene, name: &str) {
    match name {
        "lb" | "sb" | "saveh" | "savel" => scene.regs[A] = data_address(random, scene),
        "lend" => loop_end(random, scene),
        "in" | "out" => communication(random, scene, name == "in"),
        "outword" | "outbyte" => communication(random, scene, false),
        "resetch" => scene.regs[A] = channel_address(random, scene),
        "move" => block(random, scene),
        "startp" => {
            scene.regs[A] = scene.spot(random);
            scene.regs[B] = random.below(30).wrapping_sub(15);
        }
        "endp" => {
            scene.regs[A] = scene.spot(random);
            let at = scene.regs[A];
            let count = random.pick(&[0, 1, 1, 1, 2, 7]);
            scene.put(at, 1, count);
        }
        "runp" | "gajw" => scene.regs[A] = scene.descriptor(random),
        "shl" | "shr" => shift(random, scene, 32),
        "lshl" | "lshr" => shift(random, scene, 64),
        "div" | "rem" => division(random, scene),
        "xword" | "cword" => part_word(random, scene),
        "ldiv" => long_division(random, scene),
        "lsum" | "ldiff" | "ladd" | "lsub" => carry(random, scene),
        "norm" => normal(random, scene),
        "enbs" | "enbt" | "enbc" | "diss" | "disc" | "dist" => guard(random, scene, name),
        "tin" | "taltwt" => timer_wait(random, scene),
        "alt" | "altwt" | "altend" | "talt" | "rev" | "stopp" | "ret" => {}
        _ => arithmetic(random, scene),
    }
}

/// An address, more often than others just outside memory.
fn data_address(random: &mut Random, scene: &Scene) -> u32 {
    if random.percent(10) {
        return scene.just_outside(random);
    }
    scene.address(random)
}

/// A number at an edge of the range.
fn edge(random: &mut Random) -> u32 {
    let any = random.word();
    let small = random.below(9).wrapping_sub(4);
    let high = (MIN_INT - 4).wrapping_add(random.below(9));
    random.pick(&[small, small, high, 1 << 15, 1 << 16, any])
}

fn arithmetic(random: &mut Random, scene: &mut Scene) {
    for register in [A, B, C] {
        scene.regs[register] = edge(random);
    }
    if random.percent(25) {
        scene.regs[B] = scene.regs[A].wrapping_add(random.below(3)).wrapping_sub(1);
    }
}

fn carry(random: &mut Random, scene: &mut Scene) {
    arithmetic(random, scene);
    if random.percent(40) {
        scene.regs[B] = (!scene.regs[A])
            .wrapping_add(random.below(4))
            .wrapping_sub(1);
    }
    scene.regs[C] = random.pick(&[0, 1, 2, 3]);
}

fn shift(random: &mut Random, scene: &mut Scene, bits: u32) {
    scene.regs[A] = match random.below(10) {
        0..=7 => random.below(bits + 3),
        8 => random.pick(&[bits - 1, bits, bits + 1]),
        _ => random.word(),
    };
    scene.regs[B] = random.word();
    scene.regs[C] = random.word();
}

/// B often at one of the two bounds that A sets.
fn part_word(random: &mut Random, scene: &mut Scene) {
    arithmetic(random, scene);
    let a = scene.regs[A];
    if random.percent(50) {
        let bound = random.pick(&[a, a.wrapping_neg()]);
        scene.regs[B] = bound.wrapping_add(random.below(3)).wrapping_sub(1);
    }
}

/// Often a division that has no result.
fn division(random: &mut Random, scene: &mut Scene) {
    arithmetic(random, scene);
    match random.below(6) {
        0 => scene.regs[A] = 0,
        1 => {
            scene.regs[A] = random.pick(&[u32::MAX, 1]);
            scene.regs[B] = random.pick(&[MIN_INT, MIN_INT, MIN_INT + 1]);
        }
        _ => {}
    }
}

fn long_division(random: &mut Random, scene: &mut Scene) {
    arithmetic(random, scene);
    scene.regs[B] = random.word();
    if random.percent(70) && scene.regs[A] != 0 {
        scene.regs[C] = random.below(scene.regs[A]);
    }
}

fn normal(random: &mut Random, scene: &mut Scene) {
    let pair = if random.percent(10) {
        0
    } else {
        random.long() >> random.below(64)
    };
    scene.regs[A] = pair as u32;
    scene.regs[B] = (pair >> 32) as u32;
}

fn loop_end(random: &mut Random, scene: &mut Scene) {
    let block = scene.address(random);
    scene.regs[B] = block;
    scene.regs[A] = random.below(20);
    let count = random.pick(&[0, 1, 2, 3, 5, MIN_INT, MIN_INT + 1, MIN_INT - 1, u32::MAX]);
    scene.put(block, 1, count);
}

/// Two blocks, often close to each other, on words that the scheduler is going to read, or one of
/// them or both across the end of memory.
fn block(random: &mut Random, scene: &mut Scene) {
    let any = random.word();
    let bytes = 4 * scene.size as u32;
    let few = random.below(40);
    scene.regs[A] = random.pick(&[few, few, few, few, few, few, few, 0, bytes, bytes + 1, any]);
    scene.regs[C] = buffer(random, scene);
    scene.regs[B] = match random.below(10) {
        0..=3 => scene.regs[C].wrapping_add(random.below(13)).wrapping_sub(6),
        4 => scheduler_word(random, scene),
        _ => buffer(random, scene),
    };
    if random.percent(25) {
        scene.regs[A] = random.between(8, 60);
        for register in random.pick(&[&[B][..], &[B], &[C], &[C], &[B, C]]) {
            scene.regs[*register] = scene.end().wrapping_sub(random.below(30));
        }
    }
}

/// Where a message or block begins: anywhere, or a little before a word that means something.
fn buffer(random: &mut Random, scene: &Scene) -> u32 {
    if random.percent(50) {
        return scene.inside(random);
    }
    scene.address(random).wrapping_sub(random.below(8))
}

fn channel_address(random: &mut Random, scene: &Scene) -> u32 {
    let low = if random.percent(10) {
        random.below(4)
    } else {
        0
    };
    match random.below(10) {
        0..=4 => word(random.below(9)) + low,
        5 => word(random.between(8, 10)) + low,
        _ => scene.address(random),
    }
}

/// A message on a hard channel, or on a soft one where a partner waits or nobody does.
fn communication(random: &mut Random, scene: &mut Scene, input: bool) {
    let channel = channel_address(random, scene);
    scene.regs[A] = random.pick(&[0, 1, 2, 3, 4, 5, 9, 17, 26]);
    scene.regs[B] = channel;
    scene.regs[C] = buffer(random, scene);
    if channel.wrapping_sub(MIN_INT) / 4 < LINK_CHANS as u32 {
        return;
    }
    let partner = scene.descriptor(random);
    match random.below(10) {
        0..=2 => scene.put(channel, 0, NOT_PROCESS),
        _ => scene.put(channel, 0, partner),
    }
    let buffer = buffer(random, scene);
    let state = random.pick(&[ENABLING, WAITING, WAITING, READY]);
    let alternative = !input && random.percent(50);
    scene.put(
        partner & !1,
        POINTER_S,
        if alternative { state } else { buffer },
    );
}

fn guard(random: &mut Random, scene: &mut Scene, name: &str) {
    let truth = random.pick(&[0, 1, 1, 1, 2]);
    let channel = channel_address(random, scene);
    let time = scene.time(random);
    let enables = name.starts_with('e');
    let about = if name.ends_with('t') { time } else { channel };
    let wptr = scene.regs[WDESC] & !1;
    if enables {
        scene.regs[A] = truth;
        scene.regs[B] = about;
    } else {
        scene.regs[A] = random.below(50);
        scene.regs[B] = truth;
        scene.regs[C] = about;
        if random.percent(60) {
            scene.put(wptr, 0, NONE_SELECTED);
        }
    }
    if name == "enbt" && random.percent(85) {
        let mark = random.pick(&[TIME_SET, TIME_NOT_SET]);
        scene.put(wptr, TLINK_S, mark);
    }
    if name.ends_with('c') && random.percent(60) {
        let wdesc = scene.regs[WDESC];
        let content = random.pick(&[NOT_PROCESS, wdesc, wdesc ^ 1]);
        scene.put(channel, 0, content);
    }
}

fn timer_wait(random: &mut Random, scene: &mut Scene) {
    let level = (scene.regs[WDESC] & 1) as usize;
    let clock = scene.regs[CLOCK[level]];
    let near = clock.wrapping_add(random.below(24)).wrapping_sub(2);
    scene.regs[A] = if random.percent(85) {
        near
    } else {
        scene.time(random)
    };
    let wptr = scene.regs[WDESC] & !1;
    if random.percent(60) {
        scene.put(wptr, TLINK_S, TIME_SET);
        scene.put(wptr, STATE_S, ENABLING);
        scene.put(wptr, TIME_S, near);
    }
}
