//! Document 000, 1.8 and 1.10: clocks, timer queues and timer input.

use crate::answers::Refusal;
use crate::memory::Work;
use crate::mistakes::{Care, Mistake};
use crate::registers::*;
use crate::walk::Walk;
use crate::words::{at_word, later};

impl<K: Care> Work<'_, K> {
    fn clock(&self) -> u32 {
        self.regs[CLOCK[self.priority()]]
    }

    fn later(&self, t1: u32, t2: u32) -> bool {
        later(self.care, t1, t2)
    }

    fn enable_queue(&mut self, queue: usize, enabled: bool) {
        if enabled {
            self.regs[FLAGS] |= TENABLED[queue];
        } else {
            self.regs[FLAGS] &= !TENABLED[queue];
        }
    }

    fn time_set(&self) -> u32 {
        if self.wrong(Mistake::TimeMarksExchanged) {
            return TIME_NOT_SET;
        }
        if self.wrong(Mistake::TimeMarksOf001) {
            return u32::MAX - 1;
        }
        TIME_SET
    }

    fn time_not_set(&self) -> u32 {
        if self.wrong(Mistake::TimeMarksExchanged) {
            return TIME_SET;
        }
        if self.wrong(Mistake::TimeMarksOf001) {
            return u32::MAX;
        }
        TIME_NOT_SET
    }

    pub fn handle_timer_request(&mut self, queue: usize) -> Result<(), Refusal> {
        self.enable_queue(queue, false);
        let front = self.r_index_word(TIMER_BASE, queue as u32)?;
        let second = self.r_index_word(front, TLINK_S)?;
        self.w_index_word(front, TLINK_S, self.time_set())?;
        self.w_index_word(TIMER_BASE, queue as u32, second)?;
        if second != NOT_PROCESS {
            self.regs[TNEXT[queue]] = self.r_index_word(second, TIME_S)?;
            self.enable_queue(queue, true);
        }
        let status = self.r_index_word(front, POINTER_S)?;
        match status {
            READY => Ok(()),
            WAITING => {
                self.w_index_word(front, POINTER_S, READY)?;
                self.run(front | queue as u32)
            }
            _ if self.wrong(Mistake::StopAsSkip) => Ok(()),
            _ => Err(Refusal::Stop),
        }
    }

    /// A is the time, B `previous`, C `subsequent`. The middle steps follow in the same step.
    fn insert_first_step(&mut self) -> Result<(), Refusal> {
        let queue = self.priority() as u32;
        self.w_index_word(self.wptr(), STATE_S, WAITING)?;
        self.w_index_word(self.wptr(), TIME_S, self.regs[A])?;
        self.regs[B] = at_word(TIMER_BASE, queue);
        self.insert_walk()?;
        self.insert_final_step()
    }

    /// `InsertTest` and `InsertMiddleStep` until the place is found.
    fn insert_walk(&mut self) -> Result<(), Refusal> {
        self.regs[C] = self.r_index_word(self.regs[B], 0)?;
        let mut walk = Walk::from(self.regs[C]);
        while self.goes_behind(self.regs[C])? {
            self.regs[B] = at_word(self.regs[C], TLINK_S);
            self.regs[C] = self.r_index_word(self.regs[B], 0)?;
            let ring = walk.pass(self.regs[C]);
            if self.wrong(Mistake::RingTakenForEnd) && ring.is_err() {
                return Ok(());
            }
            ring?;
            self.fixed_limit(&walk)?;
        }
        Ok(())
    }

    /// A wrong variant gives up after a fixed number of processes.
    fn fixed_limit(&self, walk: &Walk) -> Result<(), Refusal> {
        if self.wrong(Mistake::FixedTimerWalk) && walk.passed >= 8 {
            return Err(Refusal::Stop);
        }
        Ok(())
    }

    /// An equal time goes before the one already there (DECISIONS 15).
    fn goes_behind(&self, subsequent: u32) -> Result<bool, Refusal> {
        if subsequent == NOT_PROCESS {
            return Ok(false);
        }
        let time = self.r_index_word(subsequent, TIME_S)?;
        let equal = self.wrong(Mistake::EqualTimeBehind) && self.regs[A] == time;
        Ok(equal || self.later(self.regs[A], time))
    }

    fn insert_final_step(&mut self) -> Result<(), Refusal> {
        let queue = self.priority();
        let wptr = self.wptr();
        let old_front = self.old_front(queue);
        self.w_index_word(self.regs[B], 0, wptr)?;
        self.w_index_word(wptr, TLINK_S, self.regs[C])?;
        self.w_index_word(wptr, IPTR_S, self.regs[IPTR])?;
        self.regs[B] = self.r_index_word(TIMER_BASE, queue as u32)?;
        self.regs[B] = old_front.unwrap_or(self.regs[B]);
        self.regs[TNEXT[queue]] = self.r_index_word(self.regs[B], TIME_S)?;
        self.enable_queue(queue, true);
        self.set_goto_snp();
        Ok(())
    }

    /// A wrong variant keeps the front that stood before its own store, if there was one.
    fn old_front(&self, queue: usize) -> Option<u32> {
        if !self.wrong(Mistake::InsertReadsOldFront) {
            return None;
        }
        let front = self.r_index_word(TIMER_BASE, queue as u32).ok()?;
        (front != NOT_PROCESS).then_some(front)
    }

    /// B is `previous`, C `subsequent`. Off the end of the queue the walk leads outside
    /// (DECISIONS 26).
    fn delete_first_step(&mut self) -> Result<(), Refusal> {
        let queue = self.priority();
        if !self.wrong(Mistake::DeleteLeavesEnabled) {
            self.enable_queue(queue, false);
        }
        self.regs[B] = at_word(TIMER_BASE, queue as u32);
        self.regs[C] = self.r_index_word(self.regs[B], 0)?;
        let mut walk = Walk::from(self.regs[C]);
        while self.regs[C] != self.wptr() {
            if self.wrong(Mistake::DeleteAsksForEnd) && self.regs[C] == NOT_PROCESS {
                return Ok(());
            }
            self.regs[B] = at_word(self.regs[C], TLINK_S);
            self.regs[C] = self.r_index_word(self.regs[B], 0)?;
            walk.pass(self.regs[C])?;
            self.fixed_limit(&walk)?;
        }
        self.delete_final_step()
    }

    fn delete_final_step(&mut self) -> Result<(), Refusal> {
        let queue = self.priority();
        self.regs[C] = self.r_index_word(self.wptr(), TLINK_S)?;
        self.w_index_word(self.regs[B], 0, self.regs[C])?;
        self.w_index_word(self.wptr(), TLINK_S, self.time_not_set())?;
        self.regs[B] = self.r_index_word(TIMER_BASE, queue as u32)?;
        if self.regs[B] != NOT_PROCESS {
            self.regs[TNEXT[queue]] = self.r_index_word(self.regs[B], TIME_S)?;
            self.enable_queue(queue, true);
        }
        Ok(())
    }

    pub fn timer_input(&mut self) -> Result<(), Refusal> {
        if self.later(self.clock(), self.regs[A]) {
            return Ok(());
        }
        if !self.wrong(Mistake::TinAtItsTime) {
            self.regs[A] = self.regs[A].wrapping_add(1);
        }
        self.insert_first_step()
    }

    pub fn timer_alt_start(&mut self) -> Result<(), Refusal> {
        self.w_index_word(self.wptr(), TLINK_S, self.time_not_set())?;
        self.w_index_word(self.wptr(), STATE_S, ENABLING)
    }

    pub fn timer_alt_wait(&mut self) -> Result<(), Refusal> {
        let wptr = self.wptr();
        self.w_index_word(wptr, 0, NONE_SELECTED)?;
        self.regs[C] = self.r_index_word(wptr, STATE_S)?;
        if self.regs[C] == READY {
            return self.w_index_word(wptr, TIME_S, self.clock());
        }
        self.regs[B] = self.r_index_word(wptr, TLINK_S)?;
        if self.regs[B] == self.time_not_set() {
            return self.wait();
        }
        if self.regs[B] != self.time_set() {
            return Err(Refusal::Stop);
        }
        self.regs[A] = self.r_index_word(wptr, TIME_S)?;
        if self.later(self.clock(), self.regs[A]) {
            self.w_index_word(wptr, STATE_S, READY)?;
            return self.w_index_word(wptr, TIME_S, self.clock());
        }
        self.regs[A] = self.regs[A].wrapping_add(1);
        self.insert_first_step()
    }

    pub fn enable_timer(&mut self) -> Result<(), Refusal> {
        if self.regs[A] != 0 {
            self.enable_true_timer()?;
        }
        self.regs[B] = self.regs[C];
        Ok(())
    }

    fn enable_true_timer(&mut self) -> Result<(), Refusal> {
        let wptr = self.wptr();
        let mark = self.r_index_word(wptr, TLINK_S)?;
        if mark == self.time_not_set() {
            self.w_index_word(wptr, TLINK_S, self.time_set())?;
            return self.w_index_word(wptr, TIME_S, self.regs[B]);
        }
        if mark != self.time_set() {
            return Err(Refusal::Stop);
        }
        let earliest = self.r_index_word(wptr, TIME_S)?;
        if self.later(earliest, self.regs[B]) {
            self.w_index_word(wptr, TIME_S, self.regs[B])?;
        }
        Ok(())
    }

    /// Document 000 works through Oreg here; it is 0 again after the function.
    pub fn disable_timer(&mut self) -> Result<(), Refusal> {
        if self.regs[B] == 0 {
            self.regs[A] = 0;
            return Ok(());
        }
        let mark = self.r_index_word(self.wptr(), TLINK_S)?;
        if mark == self.time_not_set() {
            self.regs[A] = 0;
        } else if mark == self.time_set() {
            let time = self.r_index_word(self.wptr(), TIME_S)?;
            if self.later(time, self.regs[C]) {
                self.is_this_selected_process()?;
            } else {
                self.regs[A] = 0;
            }
        } else {
            self.delete_first_step()?;
            self.regs[A] = 0;
        }
        Ok(())
    }

    /// `sttimer` zeroes the prescaler (document 01) and starts the clocks.
    pub fn store_timer(&mut self) {
        self.regs[CLOCK[0]] = self.regs[A];
        self.regs[CLOCK[1]] = self.regs[A];
        self.pop();
        self.regs[FLAGS] |= CLOCKS_RUN;
        if !self.wrong(Mistake::PrescalerKept) {
            self.regs[PRESCALER] = 0;
        }
    }
}
