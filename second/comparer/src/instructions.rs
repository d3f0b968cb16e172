//! The built instructions, read from docs/instructions.txt, and how they are written as bytes.

use std::sync::LazyLock;

use crate::assembly::Reference;

const LIST: &str = include_str!("../../../docs/instructions.txt");

/// A function or an operation: its code and document 000's name.
#[derive(Clone, Copy, Debug, PartialEq, Eq)]
pub struct Instruction {
    pub code: u32,
    pub name: &'static str,
}

/// The direct functions in the order of their codes, so that opr is the last.
pub static FUNCTIONS: LazyLock<Vec<Instruction>> = LazyLock::new(|| listed("function"));

/// The operations of the built list in the order of their codes.
pub static OPERATIONS: LazyLock<Vec<Instruction>> = LazyLock::new(|| listed("operation"));

fn listed(kind: &str) -> Vec<Instruction> {
    let lines = LIST.lines();
    let rows = lines.filter(|line| !line.trim().is_empty() && !line.starts_with("#!"));
    let rows =
        rows.map(|line| row(line).unwrap_or_else(|| panic!("docs/instructions.txt: {line}")));
    let of_kind = rows.filter(|row| row.0 == kind);
    let mut instructions: Vec<Instruction> = of_kind.map(|row| row.1).collect();
    instructions.sort_by_key(|instruction| instruction.code);
    instructions
}

/// Reads KIND, CODE and NAME; the other columns are not used here.
fn row(line: &'static str) -> Option<(&'static str, Instruction)> {
    let mut columns = line.split_whitespace();
    let kind = columns.next()?;
    if !["function", "operation"].contains(&kind) {
        return None;
    }
    let code = columns.next()?.strip_prefix('#')?;
    let code = u32::from_str_radix(code, 16).ok()?;
    let name = columns.next()?;
    Some((kind, Instruction { code, name }))
}

/// The code of a direct function; none for any other name.
pub fn find_function(name: &str) -> Option<u32> {
    code_in(&FUNCTIONS, name)
}

/// The code of an operation of the built list; none for any other name.
pub fn find_operation(name: &str) -> Option<u32> {
    code_in(&OPERATIONS, name)
}

pub fn function_code(name: &str) -> u32 {
    find_function(name).expect("a direct function")
}

pub fn operation_code(name: &str) -> u32 {
    find_operation(name).expect("an operation of the built list")
}

fn code_in(instructions: &[Instruction], name: &str) -> Option<u32> {
    let found = instructions.iter().find(|entry| entry.name == name);
    found.map(|entry| entry.code)
}

/// The place of an operation in the built list.
pub fn operation_place(code: u32) -> Option<usize> {
    OPERATIONS
        .binary_search_by_key(&code, |entry| entry.code)
        .ok()
}

/// Appends a function: its prefixes and its last byte.
pub fn put_function(bytes: &mut Vec<u8>, name: &str, operand: i32) {
    Reference::RIGHT.put(bytes, function_code(name), operand);
}

/// Appends an operation.
pub fn put_operation(bytes: &mut Vec<u8>, name: &str) {
    put_function(bytes, "opr", operation_code(name) as i32);
}
