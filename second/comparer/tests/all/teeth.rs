//! The comparer has teeth: it tells every wrong variant from the true emulator.

use comparer::compare::{compare, Options};
use comparer::side::Side;
use emulator::{Emulator, Mistake};

const CASES: u64 = 300_000;
const SEQUENCE_CALLS: u64 = 20_000;

/// After how many cases or sequence calls a variant was told apart.
fn told(mistake: Mistake, sequences: bool, count: u64) -> Option<u64> {
    let mut options = Options::new(1, count);
    options.sequences = sequences;
    options.stop = true;
    let mut right = Side::Second(Emulator::new());
    let mut wrong = Side::wrong(mistake);
    let report = compare(&mut right, &mut wrong, &options).expect("both sides run");
    (report.different > 0).then_some(report.compared)
}

/// In a debug build fewer cases: there the point is only that no variant panics.
#[test]
fn every_wrong_variant_is_told() {
    let cases = if cfg!(debug_assertions) { 4_000 } else { CASES };
    let mut missed = Vec::new();
    for &mistake in Mistake::ALL {
        let by_cases = told(mistake, false, cases);
        let by_calls = match by_cases {
            Some(_) => None,
            None => told(mistake, true, SEQUENCE_CALLS),
        };
        println!("{}: cases {by_cases:?}, calls {by_calls:?}", mistake.name());
        if by_cases.is_none() && by_calls.is_none() {
            missed.push(mistake.name());
        }
    }
    assert!(Mistake::ALL.len() >= 30);
    assert!(
        missed.is_empty() || cfg!(debug_assertions),
        "not told: {missed:?}"
    );
}

#[test]
fn the_true_emulator_does_not_differ_from_itself() {
    let count = if cfg!(debug_assertions) {
        5_000
    } else {
        100_000
    };
    for sequences in [false, true] {
        let mut options = Options::new(3, count);
        options.sequences = sequences;
        let side = || Side::Second(Emulator::new());
        let report = compare(&mut side(), &mut side(), &options).expect("both sides run");
        assert_eq!((report.different, report.compared), (0, count));
    }
}

#[test]
fn a_difference_is_told_in_words() {
    for (mistake, words) in [
        (Mistake::UnsignedGt, ["step: gt", "\n  A: 0000000"]),
        (
            Mistake::FetchIsLoad,
            [
                "step: fetch",
                "answer: 10a OutsideFetch against 10b OutsideLoad",
            ],
        ),
        (Mistake::OutsideAddressMasked, ["", "\n  address outside: "]),
    ] {
        let mut options = Options::new(1, 20_000);
        options.stop = true;
        let mut right = Side::Second(Emulator::new());
        let mut wrong = Side::wrong(mistake);
        let report = compare(&mut right, &mut wrong, &options).expect("both sides run");
        let text = &report.shown[0];
        let told = words.iter().all(|word| text.contains(word));
        assert!(told, "{text}");
    }
}
