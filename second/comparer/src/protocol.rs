//! The batch protocol: cases in, responses out, all numbers little-endian.

use std::io::{self, ErrorKind, Read, Write};

use emulator::{Machine, Refusal, REGISTERS};

use crate::case::{Call, Case, Response};
use crate::repeat::NUMBERS;

pub const LIMIT_MEMORY: u32 = 16_400;
pub const LIMIT_JOURNAL: u32 = 65_600;
pub const LIMIT_CODE: u32 = 65_600;

/// Bytes of a case before its registers, and of a response before its registers.
const CASE_HEAD: usize = 6 * 4 + 2 * 8;
const RESPONSE_HEAD: usize = 3 * 4 + 2 * 8;

pub fn response_bytes(case: &Case) -> usize {
    RESPONSE_HEAD + 4 * (REGISTERS + case.memory.len() + case.journal.len())
}

fn put_words(out: &mut Vec<u8>, words: &[u32]) {
    for word in words {
        out.extend_from_slice(&word.to_le_bytes());
    }
}

fn put_machine(out: &mut Vec<u8>, machine: &Machine) {
    out.extend_from_slice(&machine.depth.to_le_bytes());
    out.extend_from_slice(&machine.used.to_le_bytes());
    put_words(out, &machine.regs);
}

pub fn put_case(out: &mut Vec<u8>, case: &Case) {
    let sizes = [case.memory.len(), case.journal.len(), case.code.len()];
    put_words(out, &[case.call as u32, case.channel, case.byte]);
    put_words(out, &sizes.map(|size| size as u32));
    put_machine(out, &case.machine);
    put_words(out, &case.memory);
    put_words(out, &case.journal);
    out.extend_from_slice(&case.code);
    out.resize(
        out.len() + case.code.len().next_multiple_of(4) - case.code.len(),
        0,
    );
}

/// The answer word of a response.
pub fn answer_word(refusal: Refusal) -> u32 {
    refusal.number() + 256 * refusal.part()
}

pub fn put_response(out: &mut Vec<u8>, response: &Response) {
    put_words(out, &[response.answer, response.byte, response.address]);
    put_machine(out, &response.machine);
    put_words(out, &response.memory);
    put_words(out, &response.journal);
}

/// Words and numbers taken one after the other from bytes that are known to be long enough.
struct Cursor<'a>(&'a [u8]);

impl Cursor<'_> {
    fn word(&mut self) -> u32 {
        let (head, rest) = self.0.split_first_chunk().expect("bytes were counted");
        self.0 = rest;
        u32::from_le_bytes(*head)
    }

    fn long(&mut self) -> u64 {
        let low = u64::from(self.word());
        low | (u64::from(self.word()) << 32)
    }

    fn words(&mut self, count: usize) -> Vec<u32> {
        (0..count).map(|_| self.word()).collect()
    }

    fn machine(&mut self) -> Machine {
        let mut machine = Machine::ZERO;
        machine.depth = self.long();
        machine.used = self.long();
        machine.regs = std::array::from_fn(|_| self.word());
        machine
    }
}

/// The next case, or none at the end of the input. Anything else is an error in words.
pub fn read_case(input: &mut impl Read) -> Result<Option<Case>, String> {
    let mut head = [0; CASE_HEAD];
    let got = read_up_to(input, &mut head).map_err(|error| error.to_string())?;
    if got == 0 {
        return Ok(None);
    }
    if got < CASE_HEAD {
        return Err("a case is cut short".into());
    }
    let mut cursor = Cursor(&head);
    let number = cursor.word();
    let call = Call::by_number(number).ok_or(format!("unknown call {number}"))?;
    let (channel, byte) = (cursor.word(), cursor.word());
    let (n, j, codelen) = (cursor.word(), cursor.word(), cursor.word());
    if n > LIMIT_MEMORY || j > LIMIT_JOURNAL || codelen > LIMIT_CODE {
        return Err(format!("a length past the limits: {n} {j} {codelen}"));
    }
    let (n, j, codelen) = (n as usize, j as usize, codelen as usize);
    if call == Call::Repeat && codelen < NUMBERS {
        return Err(format!("{codelen} code bytes, too few for repeat"));
    }
    let (depth, used) = (cursor.long(), cursor.long());
    let mut body = vec![0; 4 * (REGISTERS + n + j) + codelen.next_multiple_of(4)];
    if read_up_to(input, &mut body).map_err(|error| error.to_string())? < body.len() {
        return Err("a case is cut short".into());
    }
    let mut cursor = Cursor(&body);
    let regs = std::array::from_fn(|_| cursor.word());
    let (memory, journal) = (cursor.words(n), cursor.words(j));
    let code = cursor.0[..codelen].to_vec();
    let machine = Machine { regs, depth, used };
    Ok(Some(Case {
        call,
        channel,
        byte,
        machine,
        memory,
        journal,
        code,
    }))
}

/// Fills the buffer unless the input ends before.
fn read_up_to(input: &mut impl Read, buffer: &mut [u8]) -> io::Result<usize> {
    let mut got = 0;
    while got < buffer.len() {
        match input.read(&mut buffer[got..]) {
            Ok(0) => break,
            Ok(more) => got += more,
            Err(error) if error.kind() == ErrorKind::Interrupted => {}
            Err(error) => return Err(error),
        }
    }
    Ok(got)
}

/// The response to a case, from exactly `response_bytes` bytes.
pub fn get_response(bytes: &[u8], case: &Case) -> Response {
    let mut cursor = Cursor(bytes);
    let (answer, byte, address) = (cursor.word(), cursor.word(), cursor.word());
    let machine = cursor.machine();
    let memory = cursor.words(case.memory.len());
    let journal = cursor.words(case.journal.len());
    Response {
        answer,
        byte,
        address,
        machine,
        memory,
        journal,
    }
}

pub fn write_response(out: &mut impl Write, response: &Response) -> io::Result<()> {
    let mut bytes = Vec::new();
    put_response(&mut bytes, response);
    out.write_all(&bytes)
}
