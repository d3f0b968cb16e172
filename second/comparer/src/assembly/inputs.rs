//! Inputs for assemblers and listers: lines, texts with a bad line, byte strings, programs.

use super::{Reference, NFIX, PFIX};
use crate::instructions::{function_code, FUNCTIONS, OPERATIONS};
use crate::random::Random;

/// A line of text and the code that it stands for.
pub struct Line {
    pub text: String,
    pub code: Vec<u8>,
}

/// Numbers at the edges of what one byte more can hold.
fn edges() -> Vec<i32> {
    let mut edges = vec![i32::MIN, i32::MIN + 1, i32::MAX - 1, i32::MAX];
    for place in 0..8 {
        let power = 1i64 << (4 * place);
        for near in [power, -power] {
            edges.extend([-1, 0, 1].map(|by| (near + by) as i32));
        }
    }
    edges
}

fn functions() -> impl Iterator<Item = &'static str> {
    let all = FUNCTIONS.iter();
    let own = all.filter(|function| ![PFIX, NFIX].contains(&function.code));
    own.map(|function| function.name)
}

fn plain(name: &str, operand: i32) -> Line {
    let mut code = Vec::new();
    Reference::RIGHT.put(&mut code, function_code(name), operand);
    let text = format!("{name} {operand}");
    Line { text, code }
}

/// Every operand from `-near` to `near` with some functions, every function at the edges, every
/// operation.
pub fn fixed_lines(near: i32) -> impl Iterator<Item = Line> {
    let some = ["ldc", "ajw", "opr"].into_iter();
    let near = some.flat_map(move |name| (-near..=near).map(move |operand| plain(name, operand)));
    let far = functions().flat_map(|name| edges().into_iter().map(move |edge| plain(name, edge)));
    let named = OPERATIONS.iter().map(|operation| Line {
        text: operation.name.into(),
        code: plain("opr", operation.code as i32).code,
    });
    near.chain(far).chain(named)
}

/// Any function with any operand, written in one of the ways that are allowed.
pub fn any_line(random: &mut Random) -> Line {
    let names: Vec<&str> = functions().collect();
    let name = random.pick(&names);
    let operand = any_operand(random);
    let written = match random.below(10) {
        0 | 1 => format!("#{operand:X}"),
        2 => format!("#{operand:08x}"),
        3 if operand >= 0 => format!("0{operand}"),
        3 => format!("-00{}", operand.unsigned_abs()),
        _ => operand.to_string(),
    };
    let text = match random.below(16) {
        0 => format!("  {name}   {written}  "),
        1 => format!("{name}\t{written} -- as it is"),
        2 => format!("-- {name} 1\n\n{name} {written}--{name} 2"),
        3 => format!("{name} {written}\r"),
        _ => format!("{name} {written}"),
    };
    let code = plain(name, operand).code;
    Line { text, code }
}

/// A 32-bit number, as often a short one as a long one.
fn any_operand(random: &mut Random) -> i32 {
    random.word() as i32 >> random.below(32)
}

/// What is no line of an assembler.
const BAD: [&str; 43] = [
    "pfix 1",
    "nfix 0",
    "pfix",
    "ldc",
    "opr",
    "j",
    "ldc 5 6",
    "add 5",
    "rev rev",
    "foo",
    "foo 5",
    "LDC 5",
    "Add",
    "ldc #",
    "ldc #123456789",
    "ldc #000000001",
    "ldc #1G",
    "ldc -#5",
    "ldc #-5",
    "ldc 2147483648",
    "ldc -2147483649",
    "ldc 4294967295",
    "ldc 99999999999999999999999999",
    "ldc +5",
    "ldc 5x",
    "ldc -",
    "ldc - 5",
    "ldc --5",
    "ldc 0x10",
    "ldc 1.5",
    "ldc 5,",
    "ldc5",
    "-5",
    "5",
    "#45",
    "21 40",
    "40",
    "ldc five",
    "ldc: 5",
    "- - ldc 5",
    "ldc 5\0",
    "ldc \u{665}",
    "ld\rc 5",
];

/// A text with a bad line or a few, and the number of the first.
pub fn bad_text(random: &mut Random, which: usize) -> (String, usize) {
    let before = random.below(30) as usize;
    let mut lines: Vec<String> = (0..before).map(|_| good_line(random)).collect();
    lines.push(BAD[which % BAD.len()].into());
    for _ in 0..random.below(10) {
        let bad = random.percent(20);
        lines.push(if bad {
            random.pick(&BAD).into()
        } else {
            good_line(random)
        });
    }
    let end = random.pick(&["", "\n"]);
    (lines.join("\n") + end, before + 1)
}

/// One line, also an empty one or a comment.
fn good_line(random: &mut Random) -> String {
    match random.below(10) {
        0 => String::new(),
        1 => "-- pfix 5".into(),
        2 => random.pick(&OPERATIONS).name.into(),
        _ => plain("ldc", any_operand(random)).text,
    }
}

/// Any bytes; many prefixes, so that chains are long; or chains of functions and operations.
pub fn any_bytes(random: &mut Random) -> Vec<u8> {
    let length = random.below(200);
    match random.below(4) {
        0 => (0..length).map(|_| random.word() as u8).collect(),
        1 | 2 => {
            let prefixes = random.between(50, 95);
            (0..length)
                .map(|_| prefix_or_any(random, prefixes))
                .collect()
        }
        _ => program(random, length / 4),
    }
}

fn prefix_or_any(random: &mut Random, prefixes: u32) -> u8 {
    let any = random.below(16) as u8;
    let low = random.pick(&[0, 15, any]);
    if random.percent(prefixes) {
        return random.pick(&[0x20, 0x20, 0x60]) | low;
    }
    (random.word() as u8 & 0xF0) | low
}

/// Code of as many shortest chains.
pub fn program(random: &mut Random, chains: u32) -> Vec<u8> {
    let mut code = Vec::new();
    for _ in 0..chains {
        if random.percent(40) {
            let operation = random.pick(&OPERATIONS);
            code.extend(plain("opr", operation.code as i32).code);
        } else {
            code.extend(any_line(random).code);
        }
    }
    code
}

/// Prefixes without an end.
pub fn unfinished(random: &mut Random) -> Vec<u8> {
    let length = random.between(1, 10);
    let prefix = |_| random.pick(&[0x20, 0x60]) | random.below(16) as u8;
    (0..length).map(prefix).collect()
}
