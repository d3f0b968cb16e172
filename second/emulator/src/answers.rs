//! Document 01, "Answers by number", with document 02's three parts of 10.

/// An access outside memory carries its byte address as computed, low bits and all (DECISIONS 58).
#[derive(Clone, Copy, Debug, PartialEq, Eq)]
pub enum Refusal {
    Size,
    CodeSize,
    BadChannel,
    JournalBad,
    NothingToUndo,
    Halted,
    Idle,
    NotReady,
    Unlisted,
    OutsideFetch(u32),
    OutsideLoad(u32),
    OutsideStore(u32),
    Stop,
    JournalFull,
}

impl Refusal {
    pub fn number(self) -> u32 {
        match self {
            Refusal::Size => 1,
            Refusal::CodeSize => 2,
            Refusal::BadChannel => 3,
            Refusal::JournalBad => 4,
            Refusal::NothingToUndo => 5,
            Refusal::Halted => 6,
            Refusal::Idle => 7,
            Refusal::NotReady => 8,
            Refusal::Unlisted => 9,
            Refusal::OutsideFetch(_) | Refusal::OutsideLoad(_) | Refusal::OutsideStore(_) => 10,
            Refusal::Stop => 11,
            Refusal::JournalFull => 12,
        }
    }

    /// Which part of its number: 1 for 10a, 2 for 10b, 3 for 10c, else 0.
    pub fn part(self) -> u32 {
        match self {
            Refusal::OutsideFetch(_) => 1,
            Refusal::OutsideLoad(_) => 2,
            Refusal::OutsideStore(_) => 3,
            _ => 0,
        }
    }

    /// The byte address of the access that went outside; 0 where there is none.
    pub fn address(self) -> u32 {
        match self {
            Refusal::OutsideFetch(address)
            | Refusal::OutsideLoad(address)
            | Refusal::OutsideStore(address) => address,
            _ => 0,
        }
    }
}

/// The answer as a number: 0 accepted, else the refusal.
pub fn number<T>(answer: &Result<T, Refusal>) -> u32 {
    match answer {
        Ok(_) => 0,
        Err(refusal) => refusal.number(),
    }
}
