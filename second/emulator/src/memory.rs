//! Document 000, 1.5: the memory access procedures, over a call in progress.
//!
//! The first old value of every word that the call stores to is kept: it undoes a refused call and
//! becomes the record of an accepted one.

use std::cell::Cell;
use std::ops::Range;

use crate::answers::Refusal;
use crate::mistakes::{Care, Mistake};
use crate::registers::*;
use crate::words::{at_word, byte_of, with_byte};

/// A stored word's index and its value before the call.
pub type Kept = (u32, u32);

/// What an access is.
#[derive(Clone, Copy)]
pub enum Access {
    Fetch,
    Load,
    Store,
}

/// A call in progress.
pub struct Work<'a, K> {
    pub regs: &'a mut Registers,
    pub memory: &'a mut [u32],
    pub kept: &'a mut Vec<Kept>,
    /// The words that a move of this call stores to, and where in `kept` they stand.
    pub moved: Range<usize>,
    pub moved_kept: Range<usize>,
    pub care: K,
    /// Only read by wrong variants: StartNextProcess or an interrupt is running.
    pub starting: bool,
    pub interrupting: bool,
    /// Only set by a wrong variant that goes on after an access outside: the last of them.
    pub late: Cell<Option<Refusal>>,
}

impl<K: Care> Work<'_, K> {
    #[inline(always)]
    pub fn wrong(&self, mistake: Mistake) -> bool {
        self.care.wrong(mistake)
    }

    /// The word that an address falls in; a word access ignores the low two bits. There is none only
    /// where a wrong variant goes on after an access outside.
    #[inline(always)]
    fn index(&self, access: Access, address: u32) -> Result<Option<usize>, Refusal> {
        let index = (address.wrapping_sub(MIN_INT) >> 2) as usize;
        if index < self.memory.len() {
            return Ok(Some(index));
        }
        let refusal = self.outside(access, address);
        if self.wrong(Mistake::LastAccessOutside) {
            return Ok(None);
        }
        Err(refusal)
    }

    /// The refusal of an access outside: its kind, and its address as computed (DECISIONS 58).
    pub fn outside(&self, access: Access, address: u32) -> Refusal {
        let address = if self.wrong(Mistake::OutsideAddressMasked) {
            address & !3
        } else {
            address
        };
        let refusal = match access {
            Access::Fetch if !self.wrong(Mistake::FetchIsLoad) => Refusal::OutsideFetch(address),
            Access::Fetch | Access::Load => Refusal::OutsideLoad(address),
            Access::Store => Refusal::OutsideStore(address),
        };
        if self.wrong(Mistake::LastAccessOutside) {
            self.late.set(Some(refusal));
        }
        refusal
    }

    #[inline(always)]
    pub fn r_index_word(&self, base: u32, n: u32) -> Result<u32, Refusal> {
        let Some(index) = self.index(Access::Load, at_word(base, n))? else {
            return Ok(0);
        };
        if self.stale(index) {
            return Ok(self.before(index));
        }
        Ok(self.memory[index])
    }

    #[inline(always)]
    pub fn w_index_word(&mut self, base: u32, n: u32, x: u32) -> Result<(), Refusal> {
        if let Some(index) = self.index(Access::Store, at_word(base, n))? {
            self.put(index, x);
        }
        Ok(())
    }

    #[inline(always)]
    pub fn r_index_byte(&self, base: u32, n: u32) -> Result<u32, Refusal> {
        self.byte_at(Access::Load, base.wrapping_add(n))
    }

    /// The byte of an instruction.
    #[inline(always)]
    pub fn fetch_byte(&self, address: u32) -> Result<u32, Refusal> {
        self.byte_at(Access::Fetch, address)
    }

    #[inline(always)]
    fn byte_at(&self, access: Access, address: u32) -> Result<u32, Refusal> {
        let index = self.index(access, address)?;
        let word = index.map_or(0, |index| self.memory[index]);
        Ok(byte_of(word, self.selector(address)))
    }

    #[inline(always)]
    pub fn w_index_byte(&mut self, base: u32, n: u32, byte: u32) -> Result<(), Refusal> {
        let address = base.wrapping_add(n);
        let access = if self.wrong(Mistake::ByteStoreIsLoad) {
            Access::Load
        } else {
            Access::Store
        };
        if let Some(index) = self.index(access, address)? {
            let word = with_byte(self.memory[index], self.selector(address), byte);
            self.put(index, word);
        }
        Ok(())
    }

    fn selector(&self, address: u32) -> u32 {
        if self.wrong(Mistake::ByteOrder) {
            return 3 - (address & 3);
        }
        address & 3
    }

    fn put(&mut self, index: usize, x: u32) {
        if self.wrong(Mistake::OnlyChangedWords) && self.memory[index] == x {
            return;
        }
        if self.wrong(Mistake::FirstStoreWins) && self.is_kept(index) {
            return;
        }
        if self.wrong(Mistake::MovedBytesWin) && self.moved.contains(&index) {
            return;
        }
        if !self.is_kept(index) || self.wrong(Mistake::WordSavedTwice) {
            self.kept.push((index as u32, self.memory[index]));
        }
        self.memory[index] = x;
    }

    /// Single stores are few, so a walk finds them; the words of a move are known by their range.
    fn is_kept(&self, index: usize) -> bool {
        let same = |kept: &Kept| kept.0 == index as u32;
        self.moved.contains(&index)
            || self.kept[..self.moved_kept.start].iter().any(same)
            || self.kept[self.moved_kept.end..].iter().any(same)
    }

    /// Wrong variants read the value before the call.
    #[inline(always)]
    fn stale(&self, index: usize) -> bool {
        let moved = || self.moved.contains(&index);
        (self.wrong(Mistake::StaleStart) && self.starting)
            || (self.wrong(Mistake::StartMissesMovedBytes) && self.starting && moved())
            || (self.wrong(Mistake::LoadsMissMovedBytes) && moved())
            || (self.wrong(Mistake::StaleInterrupt) && self.interrupting)
    }

    /// The value before the call, for the wrong variants that read it.
    pub fn before(&self, index: usize) -> u32 {
        let kept = self.kept.iter().find(|kept| kept.0 == index as u32);
        kept.map_or(self.memory[index], |kept| kept.1)
    }
}
