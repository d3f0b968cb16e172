//! docs/instructions.txt against the second emulator's own list.

use comparer::instructions::{operation_place, FUNCTIONS, OPERATIONS};
use emulator::registers::OREG;
use emulator::{Emulator, Refusal};

/// Executes one operation after fresh, the upper part of its code in Oreg.
fn is_built(code: u32) -> bool {
    let (mut memory, mut journal) = ([0; 128], [0; 256]);
    let mut emulator = Emulator::new();
    let last = 0xF0 | (code & 15) as u8;
    let fresh = emulator.fresh(&mut memory, &journal, &[last]);
    let mut machine = fresh.expect("one byte of code fits");
    machine.regs[OREG] = code & !15;
    let answer = emulator.step(&mut machine, &mut memory, &mut journal);
    answer != Err(Refusal::Unlisted)
}

#[test]
fn the_file_names_exactly_the_operations_of_the_emulator() {
    let high = OPERATIONS.iter().map(|operation| operation.code | 1 << 31);
    for code in (0..=0xFFFF).chain(high).chain([u32::MAX]) {
        let named = operation_place(code).is_some();
        assert_eq!(named, is_built(code), "operation #{code:X}");
    }
    let codes = OPERATIONS.iter().map(|operation| operation.code);
    assert!(codes.max() <= Some(0xFFFF));
}

/// The emulator decodes four bits, so each of the 16 codes is a function.
#[test]
fn the_file_names_sixteen_functions() {
    let codes = FUNCTIONS.iter().map(|function| function.code);
    assert_eq!(codes.collect::<Vec<_>>(), Vec::from_iter(0..16));
    assert_eq!(FUNCTIONS[15].name, "opr");
}

#[test]
fn no_code_and_no_name_comes_twice() {
    assert!(OPERATIONS.is_sorted_by(|one, next| one.code < next.code));
    let all = FUNCTIONS.iter().chain(OPERATIONS.iter());
    let mut names: Vec<&str> = all.map(|instruction| instruction.name).collect();
    for name in &names {
        let plain = |byte: u8| byte.is_ascii_lowercase() || byte.is_ascii_digit();
        assert!(name.bytes().all(plain), "{name}");
    }
    names.sort_unstable();
    assert!(names.is_sorted_by(|one, next| one < next), "{names:?}");
}
