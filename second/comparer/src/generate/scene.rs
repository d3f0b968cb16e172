//! A machine with processes, queues and channels in the middle of their work.

use emulator::registers::*;

use crate::random::Random;

/// A state under construction.
pub struct Scene {
    pub size: usize,
    pub regs: Registers,
    pub memory: Vec<u32>,
    /// Workspace pointers; some lie close to each other, to special words or to memory's ends.
    pub spots: Vec<u32>,
}

impl Scene {
    /// Builds a scene without timer queues.
    pub fn new(random: &mut Random, size: usize) -> Scene {
        let mut scene = Scene {
            size,
            regs: [0; REGISTERS],
            memory: Vec::new(),
            spots: spots(random, size),
        };
        scene.clocks(random);
        scene.memory = (0..size).map(|_| scene.value(random)).collect();
        scene.workspaces(random);
        scene.special_words(random);
        scene.processor(random);
        scene.channels(random);
        scene
    }

    fn clocks(&mut self, random: &mut Random) {
        let any = random.word();
        let near = random.below(40);
        let start = random.pick(&[near, near.wrapping_sub(20), MIN_INT + near - 20, any]);
        self.regs[CLOCK[0]] = start;
        self.regs[CLOCK[1]] = start.wrapping_add(random.below(8)).wrapping_sub(4);
        for next in TNEXT {
            self.regs[next] = self.time(random);
        }
        let any = random.word();
        self.regs[PRESCALER] = random.pick(&[0, 7, 62, 63, 64, any]);
        self.regs[SLICE] = random.pick(&[0, 1023, 1024, 1025, any, 5000]);
    }

    fn workspaces(&mut self, random: &mut Random) {
        for at in 0..self.spots.len() {
            let spot = self.spots[at];
            let state = random.pick(&[ENABLING, WAITING, WAITING, READY, READY]);
            let value = self.value(random);
            let pointer = self.address(random);
            let link = self.spot(random);
            self.put(spot, IPTR_S, pointer);
            self.put(spot, LINK_S, if random.percent(70) { link } else { value });
            self.put(
                spot,
                STATE_S,
                if random.percent(55) { state } else { pointer },
            );
            let mark = random.pick(&[TIME_SET, TIME_NOT_SET, TIME_SET, TIME_NOT_SET, value]);
            self.put(spot, TLINK_S, mark);
            let time = self.time(random);
            self.put(spot, TIME_S, time);
            self.put(
                spot,
                0,
                if random.percent(50) {
                    NONE_SELECTED
                } else {
                    value
                },
            );
            let count = random.pick(&[0, 1, 1, 2, MIN_INT, MIN_INT + 1, value]);
            self.put(spot, 1, count);
        }
    }

    fn special_words(&mut self, random: &mut Random) {
        for channel in 0..LINK_CHANS as u32 {
            let waiting = self.descriptor(random);
            self.put(
                MIN_INT,
                channel,
                if random.percent(40) {
                    NOT_PROCESS
                } else {
                    waiting
                },
            );
        }
        let low = self.spot(random) | 1;
        let any = self.value(random);
        let saved = random.pick(&[
            NO_LOW_PROCESS,
            NO_LOW_PROCESS,
            NOT_PROCESS,
            low,
            low,
            low,
            any,
        ]);
        let pointer = self.address(random);
        let status = self.status(random);
        self.put(SAVE_BASE, WDESC_INT_SAVE, saved);
        self.put(SAVE_BASE, IPTR_INT_SAVE, pointer);
        self.put(SAVE_BASE, STATUS_INT_SAVE, status);
    }

    fn processor(&mut self, random: &mut Random) {
        self.regs[IPTR] = self.inside(random);
        self.regs[WDESC] = self.descriptor(random);
        if random.percent(3) {
            self.regs[WDESC] = random.pick(&[NO_LOW_PROCESS, NOT_PROCESS]);
        }
        for register in [A, B, C] {
            self.regs[register] = self.value(random);
        }
        self.regs[STATUS] = self.status(random);
        for level in 0..2 {
            let (front, back) = (self.odd_spot(random), self.odd_spot(random));
            self.regs[FPTR[level]] = if random.percent(45) {
                NOT_PROCESS
            } else {
                front
            };
            self.regs[BPTR[level]] = if random.percent(40) { front } else { back };
        }
        self.regs[FLAGS] = random.below(2)
            | flag(random, 8, IDLE)
            | flag(random, 3, HALTED)
            | flag(random, 6, TENABLED[0])
            | flag(random, 6, TENABLED[1])
            | unnamed(random, 0x1F);
    }

    /// Requests are rare here; a step that is to serve one gets its own.
    fn channels(&mut self, random: &mut Random) {
        let quiet = random.percent(90);
        for channel in 0..LINK_CHANS {
            let any = random.word();
            let few = random.between(1, 9);
            self.regs[pointer_of(channel)] = self.address(random);
            self.regs[count_of(channel)] = random.pick(&[0, 1, 1, few, few, any]);
            self.regs[flags_of(channel)] = flag(random, 55, ACTIVE)
                | flag(random, 35, ENABLED)
                | flag(random, 40, HELD)
                | if quiet {
                    0
                } else {
                    flag(random, 10, RUN_REQUEST)
                }
                | if quiet {
                    0
                } else {
                    flag(random, 10, READY_REQUEST)
                }
                | (random.below(256) << 8)
                | unnamed(random, 0xFF1F);
        }
    }

    /// Who is current and the slice, mostly each combination as often as any other.
    pub fn before_tick(&mut self, random: &mut Random) {
        if random.percent(10) {
            return;
        }
        self.regs[SLICE] = random.pick(&[1023, 1024]);
        self.regs[WDESC] = (self.regs[WDESC] & !1) | random.below(2);
        let decide = CLOCKS_RUN | IDLE | HALTED;
        self.regs[FLAGS] = (self.regs[FLAGS] & !decide) | (random.word() & decide);
    }

    /// A link that moves with its pointer just outside memory.
    pub fn outside_transfer(&mut self, random: &mut Random, channel: u32) {
        let channel = channel as usize;
        if channel < LINK_CHANS {
            self.regs[pointer_of(channel)] = self.just_outside(random);
            self.regs[count_of(channel)] = random.between(1, 9);
            self.regs[flags_of(channel)] |= ACTIVE;
        }
    }

    /// Any word may be anything: some states are damaged after all.
    pub fn damage(&mut self, random: &mut Random) {
        if random.percent(4) {
            for _ in 0..random.between(1, 3) {
                let register = random.below(REGISTERS as u32) as usize;
                self.regs[register] = if random.percent(50) {
                    self.value(random)
                } else {
                    random.word()
                };
            }
        }
        if random.percent(4) && !self.memory.is_empty() {
            for _ in 0..random.between(1, 4) {
                let index = random.below(self.memory.len() as u32) as usize;
                self.memory[index] = self.value(random);
            }
        }
    }

    /// Stores a word if it lies inside memory.
    pub fn put(&mut self, base: u32, n: u32, x: u32) {
        let address = base.wrapping_add(n.wrapping_mul(4));
        let index = (address.wrapping_sub(MIN_INT) / 4) as usize;
        if let Some(place) = self.memory.get_mut(index) {
            *place = x;
        }
    }

    pub fn get(&self, base: u32, n: u32) -> Option<u32> {
        let address = base.wrapping_add(n.wrapping_mul(4));
        let index = (address.wrapping_sub(MIN_INT) / 4) as usize;
        self.memory.get(index).copied()
    }

    pub fn put_byte(&mut self, address: u32, byte: u32) {
        if let Some(word) = self.get(address, 0) {
            let shift = 8 * (address % 4);
            self.put(address, 0, (word & !(0xFF << shift)) | (byte << shift));
        }
    }

    pub fn spot(&self, random: &mut Random) -> u32 {
        random.pick(&self.spots)
    }

    /// A queue pointer; an odd one can change the priority (DECISIONS 23).
    pub fn odd_spot(&self, random: &mut Random) -> u32 {
        let odd = flag(random, 4, 1);
        self.spot(random) | odd
    }

    /// A process descriptor.
    pub fn descriptor(&self, random: &mut Random) -> u32 {
        let low = u32::from(random.percent(60));
        self.spot(random) | low
    }

    /// An address where something is likely to stand; its low bits are sometimes set.
    pub fn address(&self, random: &mut Random) -> u32 {
        let words = self.size.max(1) as u32;
        let index = match random.below(21) {
            0..=8 => {
                let offset = random.below(8).wrapping_sub(5);
                let spot = self.spot(random);
                return crooked(random, spot.wrapping_add(offset.wrapping_mul(4)));
            }
            9..=11 => random.below(20),
            12..=17 => random.below(words),
            18 => words.wrapping_add(random.below(6)).wrapping_sub(3),
            19 => random.below(6).wrapping_sub(3),
            _ => return self.just_outside(random),
        };
        crooked(random, MIN_INT.wrapping_add(index.wrapping_mul(4)))
    }

    /// Where memory ends.
    pub fn end(&self) -> u32 {
        word(self.size as u32)
    }

    /// An address just outside memory, at either end; its low bits are any.
    pub fn just_outside(&self, random: &mut Random) -> u32 {
        let from = random.pick(&[MIN_INT - 16, self.end()]);
        from + random.below(16)
    }

    /// An address inside memory, if there is any memory.
    pub fn inside(&self, random: &mut Random) -> u32 {
        if random.percent(3) {
            return self.address(random);
        }
        MIN_INT + random.below(4 * self.size.max(1) as u32)
    }

    /// A time near the clock, or half the range away from it.
    pub fn time(&self, random: &mut Random) -> u32 {
        let queue = random.below(2) as usize;
        let clock = self.regs[CLOCK[queue]];
        let near = clock.wrapping_add(random.below(9)).wrapping_sub(4);
        match random.below(10) {
            0..=6 => near,
            7 | 8 => near.wrapping_add(1 << 31),
            _ => random.word(),
        }
    }

    /// Any word, more often one that means something.
    pub fn value(&self, random: &mut Random) -> u32 {
        match random.below(20) {
            0..=3 => random.below(6),
            4..=6 => self.descriptor(random),
            7..=10 => self.address(random),
            11 | 12 => MIN_INT + random.below(4),
            13 | 14 => self.time(random),
            15 => random.pick(&[u32::MAX, u32::MAX - 1, MIN_INT - 1, MIN_INT, 0]),
            16 => random.below(6).wrapping_sub(3),
            _ => random.word(),
        }
    }

    fn status(&self, random: &mut Random) -> u32 {
        let saved = if random.percent(20) {
            random.word() & SAVED_ONLY
        } else {
            0
        };
        flag(random, 30, ERROR_FLAG)
            | flag(random, 40, HALT_ON_ERROR)
            | flag(random, 10, GOTO_SNP)
            | saved
            | if random.percent(4) { random.word() } else { 0 }
    }
}

fn spots(random: &mut Random, size: usize) -> Vec<u32> {
    let words = size.max(40) as u32;
    let mut spots = Vec::new();
    for _ in 0..random.between(4, 7) {
        let index = match random.below(20) {
            0..=11 => random.between(24, words - 6),
            12..=14 => random.between(5, 23),
            15 => words.wrapping_add(random.below(10)).wrapping_sub(4),
            16 => random.below(6),
            _ => match spots.last() {
                Some(last) => ((last - MIN_INT) / 4).wrapping_add(random.below(5)),
                None => words / 2,
            },
        };
        let two = flag(random, 4, 2);
        spots.push(MIN_INT.wrapping_add(index.wrapping_mul(4)) | two);
    }
    spots
}

fn crooked(random: &mut Random, address: u32) -> u32 {
    if random.percent(25) {
        address.wrapping_add(random.below(4))
    } else {
        address
    }
}

fn flag(random: &mut Random, chances: u32, bits: u32) -> u32 {
    if random.percent(chances) {
        bits
    } else {
        0
    }
}

/// Bits without a name, which no call changes.
fn unnamed(random: &mut Random, named: u32) -> u32 {
    if random.percent(10) {
        random.word() & !named
    } else {
        0
    }
}
