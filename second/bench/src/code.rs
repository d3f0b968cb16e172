//! Writes T414 code.

use comparer::instructions::{put_function, put_operation};

#[derive(Default)]
pub struct Code {
    bytes: Vec<u8>,
}

impl Code {
    pub fn new() -> Code {
        Code::default()
    }

    pub fn done(self) -> Vec<u8> {
        self.bytes
    }

    /// Where the next byte stands.
    pub fn here(&self) -> usize {
        self.bytes.len()
    }

    pub fn function(&mut self, name: &str, operand: i32) -> &mut Code {
        put_function(&mut self.bytes, name, operand);
        self
    }

    pub fn operation(&mut self, name: &str) -> &mut Code {
        put_operation(&mut self.bytes, name);
        self
    }

    /// An endless loop: back to an earlier place, by a jump with one prefix.
    pub fn back_to(&mut self, place: usize) -> &mut Code {
        let distance = place as i32 - (self.here() as i32 + 2);
        assert!((-256..0).contains(&distance), "one prefix is enough");
        self.function("j", distance)
    }

    pub fn append(&mut self, other: Code) -> &mut Code {
        self.bytes.extend(other.bytes);
        self
    }
}
