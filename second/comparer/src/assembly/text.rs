//! The assembler's text: a line an instruction.

use super::chain::{NFIX, PFIX};
use super::{Reference, Slip};
use crate::instructions::{find_function, find_operation, function_code};

impl Reference {
    /// The code of all lines, or the number of the first bad line, from 1. A line is a mnemonic and an
    /// operand, or the name of an operation; `--` starts a comment, and a line without a word is skipped.
    pub fn read_text(self, text: &[u8]) -> Result<Vec<u8>, usize> {
        let mut bytes = Vec::new();
        let mut bad = None;
        let mut number = usize::from(!self.slips(Slip::LinesFromZero));
        for line in text.split(|&byte| byte == b'\n') {
            let code = without_comment(line);
            let words: Vec<&[u8]> = code
                .split(|&byte| self.is_blank(byte))
                .filter(|word| !word.is_empty())
                .collect();
            if self.read_line(&mut bytes, &words).is_none() {
                bad = Some(number);
                if !self.slips(Slip::LastBadLineTold) {
                    break;
                }
            }
            number += usize::from(!(self.slips(Slip::OnlyCodeLinesCounted) && words.is_empty()));
        }
        bad.map_or(Ok(bytes), Err)
    }

    fn is_blank(self, byte: u8) -> bool {
        byte == b' ' || byte == b'\t' || byte == b'\r' && !self.slips(Slip::CarriageReturnIsNoBlank)
    }

    /// Appends the code of a line; none for a bad line.
    fn read_line(self, bytes: &mut Vec<u8>, words: &[&[u8]]) -> Option<()> {
        let words = match words {
            [name, operand, ..] if self.slips(Slip::RestOfLineSkipped) => &[*name, *operand],
            _ => words,
        };
        let text = |word: &[u8]| std::str::from_utf8(word).map(String::from).ok();
        match words {
            [] => {}
            [name] => {
                let code = find_operation(&text(name)?)?;
                self.put(bytes, function_code("opr"), code as i32);
            }
            [name, operand] => {
                let function = find_function(&text(name)?)?;
                let prefix = [PFIX, NFIX].contains(&function);
                if prefix && !self.slips(Slip::PrefixesAllowed) {
                    return None;
                }
                self.put(bytes, function, self.read_operand(&text(operand)?)?);
            }
            _ => return None,
        }
        Some(())
    }

    /// `#` and one to eight hex digits, or a decimal number of 32 bits with its sign.
    fn read_operand(self, word: &str) -> Option<i32> {
        if let Some(digits) = word.strip_prefix('#') {
            let most = 8 + usize::from(self.slips(Slip::NineDigits));
            let plain = digits.bytes().all(|digit| digit.is_ascii_hexdigit());
            if !plain || !(1..=most).contains(&digits.len()) {
                return None;
            }
            return u64::from_str_radix(digits, 16).ok().map(|word| word as i32);
        }
        let digits = word.strip_prefix('-').unwrap_or(word);
        if digits.is_empty() || !digits.bytes().all(|digit| digit.is_ascii_digit()) {
            return None;
        }
        let value: i128 = word.parse().ok()?;
        if self.slips(Slip::DecimalWraps) {
            return Some(value as i32);
        }
        i32::try_from(value).ok()
    }
}

fn without_comment(line: &[u8]) -> &[u8] {
    let starts = line.windows(2).position(|pair| pair == b"--");
    &line[..starts.unwrap_or(line.len())]
}
