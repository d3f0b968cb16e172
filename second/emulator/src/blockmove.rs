//! The block move in one step, as document 01 rules: bytes in rising order, each read just before it
//! is stored, the count unsigned.

use crate::answers::Refusal;
use crate::memory::{Access, Kept, Work};
use crate::mistakes::{Care, Mistake};
use crate::registers::*;
use crate::words::{at_byte, byte_of, with_byte};

impl<K: Care> Work<'_, K> {
    /// Moves A bytes from C to B. The three are references in document 000, so that they end at
    /// 0, behind the destination and behind the source (DECISIONS 14).
    pub fn block_move(&mut self) -> Result<(), Refusal> {
        let (source, dest, count) = (self.regs[C], self.regs[B], self.regs[A]);
        if count == 0 {
            return Ok(());
        }
        if let Some(refusal) = self.move_outside(source, dest, count) {
            return Err(refusal);
        }
        let [from, to] = [source, dest].map(|address| address.wrapping_sub(MIN_INT) as usize);
        self.keep_range(to / 4, (to + count as usize - 1) / 4 + 1);
        if self.wrong(Mistake::OverlapSavedTwice) && from.abs_diff(to) < count as usize {
            self.kept
                .push((from.max(to) as u32 / 4, self.memory[from.max(to) / 4]));
        }
        if self.wrong(Mistake::MoveBackwards) && from < to {
            for i in (0..count as usize).rev() {
                self.copy_byte(from + i, to + i);
            }
        } else {
            self.copy(from, to, count as usize);
        }
        if self.wrong(Mistake::MoveKeepsRegisters) {
            return Ok(());
        }
        self.regs[A] = 0;
        self.regs[B] = at_byte(dest, count);
        self.regs[C] = at_byte(source, count);
        Ok(())
    }

    /// How many bytes from an address on lie inside memory.
    fn bytes_inside(&self, address: u32) -> u32 {
        let bytes = 4 * self.memory.len() as u32;
        bytes.saturating_sub(address.wrapping_sub(MIN_INT))
    }

    /// The first access outside of load 0, store 0, load 1, .. (DECISIONS 58); what went before it
    /// would be undone again.
    fn move_outside(&self, source: u32, dest: u32, count: u32) -> Option<Refusal> {
        let (loads, stores) = (self.bytes_inside(source), self.bytes_inside(dest));
        if loads >= count && stores >= count {
            return None;
        }
        let load_first = if self.wrong(Mistake::MoveSourceFirst) {
            loads < count
        } else if self.wrong(Mistake::MoveDestinationFirst) {
            stores >= count
        } else {
            loads <= stores
        };
        let (access, start, inside) = if load_first {
            (Access::Load, source, loads)
        } else {
            (Access::Store, dest, stores)
        };
        if self.wrong(Mistake::MoveTellsItsStart) {
            return Some(self.outside(access, start));
        }
        Some(self.outside(access, start.wrapping_add(inside)))
    }

    /// Keeps the words from `first` to below `end` that are not kept yet.
    fn keep_range(&mut self, first: usize, end: usize) {
        let before = self.kept.len();
        for index in first..end {
            let same = |kept: &Kept| kept.0 == index as u32;
            let again = self.wrong(Mistake::MoveForgetsEarlierStores);
            if !self.kept[..before].iter().any(same) || again {
                self.kept.push((index as u32, self.memory[index]));
            }
        }
        self.moved = first..end;
        self.moved_kept = before..self.kept.len();
    }

    /// A word at a time in the middle is the same as byte by byte, unless the destination is one to
    /// three bytes above the source: then a word would hold bytes that it is itself to supply.
    fn copy(&mut self, from: usize, to: usize, count: usize) {
        let head = count.min(to.wrapping_neg() % 4);
        let close = to > from && to - from < 4 && !self.wrong(Mistake::CloseMoveByWords);
        let stale = self.wrong(Mistake::StaleMoveSource);
        let words = if close || stale {
            0
        } else {
            (count - head) / 4
        };
        for i in 0..head {
            self.copy_byte(from + i, to + i);
        }
        for i in 0..words {
            let at = head + 4 * i;
            self.memory[(to + at) / 4] = self.word_at(from + at);
        }
        let end = if self.wrong(Mistake::MoveStoresWholeWords) {
            let room = 4 * self.memory.len() - from.max(to);
            ((to + count).next_multiple_of(4) - to).min(room)
        } else {
            count
        };
        for i in head + 4 * words..end {
            self.copy_byte(from + i, to + i);
        }
    }

    /// The four bytes from a byte offset on.
    fn word_at(&self, offset: usize) -> u32 {
        let low = self.memory[offset / 4];
        let shift = 8 * (offset % 4) as u32;
        if shift == 0 {
            return low;
        }
        (low >> shift) | (self.memory[offset / 4 + 1] << (32 - shift))
    }

    fn copy_byte(&mut self, from: usize, to: usize) {
        let mut source = self.memory[from / 4];
        if self.wrong(Mistake::StaleMoveSource) && !self.moved.contains(&(from / 4)) {
            source = self.before(from / 4);
        }
        let byte = byte_of(source, (from % 4) as u32);
        let word = &mut self.memory[to / 4];
        *word = with_byte(*word, (to % 4) as u32, byte);
    }
}
