//! A machine on the bench: set it up, make calls, look at it.

use emulator::registers::*;
use emulator::{number, Emulator, Machine, Refusal};

pub struct Rig {
    pub m: Machine,
    pub mem: Vec<u32>,
    pub jou: Vec<u32>,
    /// The last call's refusal.
    pub refusal: Option<Refusal>,
    emulator: Emulator,
}

/// Words of a record without pairs.
pub const RECORD: u64 = emulator::RECORD as u64;

/// The low process of `Rig::quiet`: its workspace pointer and where its code stands.
pub const W: u32 = word(60);
pub const CODE: u32 = word(20);

impl Rig {
    pub fn fresh(size: usize, code: &[u8]) -> Rig {
        let mut emulator = Emulator::new();
        let mut mem = vec![0xDEAD_BEEF; size];
        let jou = vec![0; 4096];
        let m = emulator
            .fresh(&mut mem, &jou, code)
            .expect("fresh accepted");
        Rig {
            m,
            mem,
            jou,
            refusal: None,
            emulator,
        }
    }

    /// 128 words, a low process at W about to execute at CODE, nothing else going on.
    pub fn quiet() -> Rig {
        let mut rig = Rig::fresh(128, &[0]);
        rig.set(IPTR, CODE);
        rig.set(WDESC, W | 1);
        rig
    }

    /// The same with a high process at W.
    pub fn quiet_high() -> Rig {
        let mut rig = Rig::quiet();
        rig.set(WDESC, W);
        rig
    }

    pub fn get(&self, register: usize) -> u32 {
        self.m.regs[register]
    }

    pub fn set(&mut self, register: usize, value: u32) -> &mut Rig {
        self.m.regs[register] = value;
        self
    }

    /// Sets A, B and C.
    pub fn stack(&mut self, a: u32, b: u32, c: u32) -> &mut Rig {
        self.set(A, a).set(B, b).set(C, c)
    }

    pub fn abc(&self) -> [u32; 3] {
        [self.get(A), self.get(B), self.get(C)]
    }

    /// The word `n` words from an address.
    pub fn at(&self, base: u32, n: u32) -> u32 {
        self.mem[place(base, n)]
    }

    pub fn put(&mut self, base: u32, n: u32, value: u32) -> &mut Rig {
        self.mem[place(base, n)] = value;
        self
    }

    pub fn put_bytes(&mut self, address: u32, bytes: &[u8]) -> &mut Rig {
        for (i, &byte) in bytes.iter().enumerate() {
            let at = address + i as u32;
            let shift = 8 * (at % 4);
            let word = &mut self.mem[place(at, 0)];
            *word = (*word & !(0xFF << shift)) | (u32::from(byte) << shift);
        }
        self
    }

    pub fn bytes(&self, address: u32, count: u32) -> Vec<u8> {
        let byte = |at: u32| (self.at(at, 0) >> (8 * (at % 4))) as u8;
        (address..address + count).map(byte).collect()
    }

    pub fn has(&self, register: usize, bits: u32) -> bool {
        self.get(register) & bits == bits
    }

    /// Keeps the refusal and gives the answer's number.
    fn answer<T>(&mut self, answer: Result<T, Refusal>) -> u32 {
        let number = number(&answer);
        self.refusal = answer.err();
        number
    }

    pub fn step(&mut self) -> u32 {
        let (m, mem, jou) = (&mut self.m, &mut self.mem, &mut self.jou);
        let answer = self.emulator.step(m, mem, jou);
        self.answer(answer)
    }

    pub fn steps(&mut self, count: u32) {
        for _ in 0..count {
            assert_eq!(self.step(), 0);
        }
    }

    /// Puts bytes at Iptr and steps through them; all are accepted.
    pub fn run(&mut self, bytes: &[u8]) -> &mut Rig {
        self.put_bytes(self.get(IPTR), bytes);
        self.steps(bytes.len() as u32);
        self
    }

    /// Executes a function in one step, its operand all but the last nibble in Oreg.
    pub fn function(&mut self, function: u8, operand: u32) -> u32 {
        self.set(OREG, operand & !15);
        self.put_bytes(self.get(IPTR), &[(function << 4) | (operand & 15) as u8]);
        self.step()
    }

    pub fn operate(&mut self, code: u32) -> u32 {
        self.function(15, code)
    }

    /// An operation that is accepted.
    pub fn op(&mut self, code: u32) -> &mut Rig {
        assert_eq!(self.operate(code), 0, "operation {code:X}");
        self
    }

    pub fn tick(&mut self) -> u32 {
        let (m, mem, jou) = (&mut self.m, &mut self.mem, &mut self.jou);
        let answer = self.emulator.tick(m, mem, jou);
        self.answer(answer)
    }

    pub fn take(&mut self, channel: u32) -> Result<u8, u32> {
        let (m, mem, jou) = (&mut self.m, &mut self.mem, &mut self.jou);
        let taken = self.emulator.take(m, mem, jou, channel);
        self.refusal = taken.err();
        taken.map_err(|refusal| refusal.number())
    }

    pub fn give(&mut self, channel: u32, byte: u8) -> u32 {
        let (m, mem, jou) = (&mut self.m, &mut self.mem, &mut self.jou);
        let answer = self.emulator.give(m, mem, jou, channel, byte);
        self.answer(answer)
    }

    pub fn event(&mut self) -> u32 {
        let (m, mem, jou) = (&mut self.m, &mut self.mem, &mut self.jou);
        let answer = self.emulator.event(m, mem, jou);
        self.answer(answer)
    }

    pub fn undo(&mut self) -> u32 {
        let answer = self.emulator.undo(&mut self.m, &mut self.mem, &self.jou);
        self.answer(answer)
    }

    pub fn clear(&mut self) -> u32 {
        let answer = self.emulator.clear(&mut self.m, &self.mem, &self.jou);
        self.answer(answer)
    }

    pub fn size(&mut self, words: usize) -> &mut Rig {
        self.mem.resize(words, 0);
        self
    }
}

fn place(base: u32, n: u32) -> usize {
    (base.wrapping_add(n.wrapping_mul(4)).wrapping_sub(MIN_INT) / 4) as usize
}
