//! Timer queues: ordered chains, long ones, rings, and some without order.

use emulator::registers::*;

use super::scene::Scene;
use crate::random::Random;

/// Puts both timer queues into a scene.
pub fn queues(random: &mut Random, scene: &mut Scene) {
    for queue in 0..2 {
        timer_queue(random, scene, queue);
    }
}

fn timer_queue(random: &mut Random, scene: &mut Scene, queue: usize) {
    if random.percent(25) {
        scene.put(TIMER_BASE, queue as u32, NOT_PROCESS);
        return;
    }
    let chain = members(random, scene);
    let times = times(random, scene, queue, chain.len());
    for (at, &process) in chain.iter().enumerate() {
        let next = chain.get(at + 1).copied();
        let next = next.unwrap_or_else(|| end(random, scene, &chain));
        scene.put(process, TLINK_S, next);
        scene.put(process, TIME_S, times[at]);
        if random.percent(70) {
            scene.put(process, STATE_S, WAITING);
        }
    }
    scene.put(TIMER_BASE, queue as u32, chain[0]);
    if random.percent(70) {
        scene.regs[TNEXT[queue]] = times[0];
    }
    if random.percent(25) {
        let low = queue as u32;
        scene.regs[WDESC] = random.pick(&chain) | low;
    }
}

/// Mostly a few of the workspaces, sometimes many processes two words apart.
fn members(random: &mut Random, scene: &Scene) -> Vec<u32> {
    if random.percent(12) && scene.size >= 64 {
        let length = random.between(9, 20);
        let last = scene.size as u32 - 1;
        let first = random.between(20, last - 2 * length);
        return (0..length).map(|at| word(first + 2 * at)).collect();
    }
    let mut chain = Vec::new();
    for _ in 0..random.between(1, 4) {
        let spot = scene.odd_spot(random);
        if !chain.contains(&spot) || random.percent(10) {
            chain.push(spot);
        }
    }
    chain
}

/// Times that rise by little or nothing, around the clock.
fn times(random: &mut Random, scene: &Scene, queue: usize, length: usize) -> Vec<u32> {
    let mut time = scene.regs[CLOCK[queue]]
        .wrapping_add(random.below(8))
        .wrapping_sub(4);
    let mut times = Vec::new();
    for _ in 0..length {
        times.push(if random.percent(4) {
            scene.time(random)
        } else {
            time
        });
        time = time.wrapping_add(random.below(3));
    }
    times
}

/// What the last process points to: mostly the end, sometimes back into the chain.
fn end(random: &mut Random, scene: &Scene, chain: &[u32]) -> u32 {
    match random.below(20) {
        0..=14 => NOT_PROCESS,
        15..=17 => random.pick(chain),
        18 => random.pick(chain) | 2,
        _ => scene.address(random),
    }
}
