//! The listing: a line a chain.

use emulator::registers::MEM_START;

use super::chain::{chains, Chain};
use super::{Reference, Slip};
use crate::instructions::{function_code, operation_place, FUNCTIONS, OPERATIONS};

impl Reference {
    /// Each chain as mnemonic and operand, signed; an operation of the built list as its name; an
    /// unfinished chain at the end as its bytes.
    pub fn list(self, code: &[u8]) -> String {
        chains(code).map(|chain| self.line(chain)).collect()
    }

    /// The same, with the chain's address and bytes before each line.
    pub fn list_addresses(self, code: &[u8]) -> String {
        let mut address = if self.slips(Slip::AddressesFromZero) {
            0
        } else {
            MEM_START
        };
        let mut text = String::new();
        for chain in chains(code) {
            let line = self.line(chain);
            text += &format!("{address:08X} {} {line}", hex(chain.bytes));
            address += chain.bytes.len() as u32;
        }
        text
    }

    fn line(self, chain: Chain) -> String {
        let Some(function) = chain.function else {
            return self.unfinished(chain.bytes);
        };
        let operand = self.operand(chain.bytes);
        let code = operand as u32;
        if function == function_code("opr") {
            match operation_place(code) {
                Some(place) if !self.slips(Slip::KnownByNumber) => {
                    return format!("{}\n", OPERATIONS[place].name);
                }
                None if self.slips(Slip::UnknownByNumber) => return format!("{operand}\n"),
                _ => {}
            }
        }
        let name = FUNCTIONS[function as usize].name;
        if self.slips(Slip::UnsignedOperand) {
            return format!("{name} {code}\n");
        }
        format!("{name} {operand}\n")
    }

    fn unfinished(self, bytes: &[u8]) -> String {
        if self.slips(Slip::LastChainDropped) {
            return String::new();
        }
        let line = hex(bytes) + "\n";
        if self.slips(Slip::LowerCaseBytes) {
            return line.to_lowercase();
        }
        line
    }
}

/// Bytes as two upper-case digits each, a space between them.
pub fn hex(bytes: &[u8]) -> String {
    let bytes: Vec<String> = bytes.iter().map(|byte| format!("{byte:02X}")).collect();
    bytes.join(" ")
}
