//! A difference in words.

use std::fmt::{Display, LowerHex, UpperHex};

use crate::case::{Case, Response};
use crate::names;
use crate::table::{asked, describe};

/// At most this many words of a kind are told one by one.
const MOST: usize = 12;

pub fn explain(case: &Case, a: &Response, b: &Response) -> String {
    let mut lines = vec![situation(case)];
    let before = case.regs();
    let shown = before[..18].iter().enumerate();
    let shown = shown.map(|(number, value)| format!("{} {value:08X}", names::register(number)));
    lines.push(format!(
        "  before: {}",
        shown.collect::<Vec<_>>().join(", ")
    ));
    if a.answer != b.answer {
        let (a, b) = (names::answer(a.answer), names::answer(b.answer));
        lines.push(format!("  answer: {a} against {b}"));
    }
    differ(&mut lines, "byte", a.byte, b.byte);
    if a.address != b.address {
        let (a, b) = (a.address, b.address);
        lines.push(format!("  address outside: {a:08X} against {b:08X}"));
    }
    differ(&mut lines, "depth", a.machine.depth, b.machine.depth);
    differ(&mut lines, "used", a.machine.used, b.machine.used);
    words(
        &mut lines,
        before,
        &a.machine.regs,
        &b.machine.regs,
        names::register,
    );
    words(
        &mut lines,
        &case.memory,
        &a.memory,
        &b.memory,
        names::memory_word,
    );
    let pairs = pairs_added(case, a).max(pairs_added(case, b));
    let name = |index| names::journal_word(index, case.machine.used, pairs);
    words(&mut lines, &case.journal, &a.journal, &b.journal, name);
    lines.join("\n")
}

fn situation(case: &Case) -> String {
    format!(
        "{}; N {}, journal {}, depth {}, used {}, channel {}, byte {}, code {} bytes",
        describe(asked(case)),
        case.memory.len(),
        case.journal.len(),
        case.machine.depth,
        case.machine.used,
        case.channel,
        case.byte,
        case.code.len()
    )
}

fn pairs_added(case: &Case, response: &Response) -> usize {
    let grown = response.machine.used.saturating_sub(case.machine.used);
    (grown.saturating_sub(emulator::RECORD as u64) / 2) as usize
}

fn differ<T: PartialEq + Display + UpperHex + LowerHex>(
    lines: &mut Vec<String>,
    name: &str,
    a: T,
    b: T,
) {
    if a != b {
        lines.push(format!("  {name}: {a} (#{a:X}) against {b} (#{b:X})"));
    }
}

fn words(
    lines: &mut Vec<String>,
    before: &[u32],
    a: &[u32],
    b: &[u32],
    name: impl Fn(usize) -> String,
) {
    let places = (0..before.len()).filter(|&place| a[place] != b[place]);
    let places: Vec<usize> = places.collect();
    for &place in places.iter().take(MOST) {
        let (was, a, b) = (before[place], a[place], b[place]);
        let name = name(place);
        lines.push(format!(
            "  {name}: {a:08X} against {b:08X}, before {was:08X}"
        ));
    }
    if places.len() > MOST {
        lines.push(format!("  and {} more such words", places.len() - MOST));
    }
}
