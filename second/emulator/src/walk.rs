//! Rings in timer queues.

use crate::answers::Refusal;

/// Tells a walk that runs in a ring (DECISIONS 27): the next pointer depends on the last one alone,
/// so a value that comes again comes for ever. The mark is set anew after 1, 2, 4, .. pointers, so
/// that it falls into the ring at last and the walk meets it there.
pub struct Walk {
    mark: u32,
    left: u64,
    length: u64,
    pub passed: u64,
}

impl Walk {
    pub fn from(pointer: u32) -> Walk {
        Walk {
            mark: pointer,
            left: 1,
            length: 1,
            passed: 0,
        }
    }

    pub fn pass(&mut self, pointer: u32) -> Result<(), Refusal> {
        if pointer == self.mark {
            return Err(Refusal::Stop);
        }
        self.passed += 1;
        self.left -= 1;
        if self.left == 0 {
            self.length *= 2;
            self.left = self.length;
            self.mark = pointer;
        }
        Ok(())
    }
}
