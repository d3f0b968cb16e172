//! Names of answers, registers, memory words and journal words, for reports.

use emulator::registers::{pointer_of, LINK_CHANS, REGISTERS};

/// Every answer of the documents: the word of a response, how the program writes it, its name.
pub const ANSWERS: [(u32, &str, &str); 15] = [
    (0, "0", "accepted"),
    (1, "1", "Size"),
    (2, "2", "CodeSize"),
    (3, "3", "BadChannel"),
    (4, "4", "JournalBad"),
    (5, "5", "NothingToUndo"),
    (6, "6", "Halted"),
    (7, "7", "Idle"),
    (8, "8", "NotReady"),
    (9, "9", "Unlisted"),
    (10 + 256, "10a", "OutsideFetch"),
    (10 + 2 * 256, "10b", "OutsideLoad"),
    (10 + 3 * 256, "10c", "OutsideStore"),
    (11, "11", "Stop"),
    (12, "12", "JournalFull"),
];

/// The place of an answer word in `ANSWERS`.
pub fn answer_place(word: u32) -> Option<usize> {
    ANSWERS.iter().position(|answer| answer.0 == word)
}

/// An answer word as the program writes it.
pub fn label(word: u32) -> String {
    answer_place(word).map_or(word.to_string(), |place| ANSWERS[place].1.into())
}

pub fn answer(word: u32) -> String {
    match answer_place(word) {
        Some(place) => format!("{} {}", ANSWERS[place].1, ANSWERS[place].2),
        None => format!("{word} (no answer of the documents)"),
    }
}

const FIRST: [&str; 18] = [
    "Iptr",
    "Wdesc",
    "A",
    "B",
    "C",
    "Oreg",
    "Status",
    "high front",
    "high back",
    "low front",
    "low back",
    "high clock",
    "low clock",
    "high next time",
    "low next time",
    "prescaler",
    "slice",
    "flags",
];

pub fn register(number: usize) -> String {
    const PART: [&str; 3] = ["pointer", "count", "flags"];
    if let Some(name) = FIRST.get(number) {
        return (*name).into();
    }
    let channel = (number - FIRST.len()) / 3;
    if channel >= LINK_CHANS {
        return format!("register {number}");
    }
    format!("channel {channel} {}", PART[number - pointer_of(channel)])
}

pub fn memory_word(index: usize) -> String {
    const SAVED: [&str; 7] = ["Wdesc", "Iptr", "A", "B", "C", "Status", "E"];
    match index {
        0..LINK_CHANS => format!("word {index} (channel {index})"),
        9 | 10 => format!("word {index} (timer queue {})", index - 9),
        11..=17 => format!("word {index} (saved {})", SAVED[index - 11]),
        _ => format!("word {index}"),
    }
}

/// A journal word by its place after `used`, the room of the new record.
pub fn journal_word(index: usize, used: u64, pairs: usize) -> String {
    let Some(place) = (index as u64).checked_sub(used).map(|place| place as usize) else {
        return format!("journal {index} (before used)");
    };
    let text = match place.checked_sub(2 * pairs) {
        None if place % 2 == 0 => format!("pair {} index", place / 2),
        None => format!("pair {} old value", place / 2),
        Some(old) if old < REGISTERS => format!("old {}", register(old)),
        Some(REGISTERS) => "number of pairs".into(),
        Some(_) => "behind the record".into(),
    };
    format!("journal {index} ({text})")
}
