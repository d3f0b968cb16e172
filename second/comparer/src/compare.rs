//! Sends the same cases to two emulators and counts the responses that differ.

use std::thread;
use std::time::{Duration, Instant};

use crate::case::{Call, Case, Response};
use crate::explain::explain;
use crate::generate::Generator;
use crate::sequence::Sequences;
use crate::side::Side;

/// Cases of one program run: few enough that memory stays small.
const CHUNK: usize = 2_000;

pub struct Options {
    pub seed: u64,
    pub count: u64,
    pub calls: Vec<Call>,
    /// Sequences of calls from fresh in place of random states.
    pub sequences: bool,
    /// Differences that are told in words.
    pub show: usize,
    /// End at the first chunk with a difference.
    pub stop: bool,
}

impl Options {
    pub fn new(seed: u64, count: u64) -> Options {
        Options {
            seed,
            count,
            calls: Call::ALL.into(),
            sequences: false,
            show: 3,
            stop: false,
        }
    }
}

#[derive(Default)]
pub struct Report {
    pub compared: u64,
    pub different: u64,
    pub shown: Vec<String>,
    /// The first case with a difference.
    pub first: Option<Case>,
    pub took: Duration,
}

/// Where cases come from.
pub enum Source {
    Cases(Generator),
    Sequences(Box<Sequences>),
}

impl Source {
    pub fn new(seed: u64, calls: &[Call], sequences: bool) -> Source {
        if sequences {
            Source::Sequences(Box::new(Sequences::new(seed)))
        } else {
            Source::Cases(Generator::new(seed, calls))
        }
    }

    pub fn chunk(&mut self, count: usize) -> Result<Vec<Case>, String> {
        match self {
            Source::Cases(generator) => Ok((0..count).map(|_| generator.case()).collect()),
            Source::Sequences(sequences) => sequences.cases(count),
        }
    }
}

pub fn compare(a: &mut Side, b: &mut Side, options: &Options) -> Result<Report, String> {
    let began = Instant::now();
    let mut source = Source::new(options.seed, &options.calls, options.sequences);
    let mut report = Report::default();
    let mut left = options.count;
    while left > 0 {
        let mut cases = source.chunk(left.min(CHUNK as u64) as usize)?;
        left -= cases.len() as u64;
        cases.retain(|case| options.calls.contains(&case.call));
        let (ours, theirs) = both(a, b, &cases)?;
        judge(&mut report, &cases, &ours?, &theirs?, options.show);
        report.compared += cases.len() as u64;
        if options.stop && report.different > 0 {
            break;
        }
    }
    report.took = began.elapsed();
    Ok(report)
}

type Answers = Result<Vec<Response>, String>;

/// Both sides at the same time.
fn both(a: &mut Side, b: &mut Side, cases: &[Case]) -> Result<(Answers, Answers), String> {
    thread::scope(|scope| {
        let theirs = scope.spawn(|| b.responses(cases));
        let ours = a.responses(cases);
        let theirs = theirs.join().map_err(|_| "a side panicked".to_string())?;
        Ok((ours, theirs))
    })
}

fn judge(report: &mut Report, cases: &[Case], a: &[Response], b: &[Response], show: usize) {
    for (at, case) in cases.iter().enumerate() {
        if a[at] == b[at] {
            continue;
        }
        report.different += 1;
        report.first.get_or_insert_with(|| case.clone());
        if report.shown.len() < show {
            let number = report.compared + at as u64;
            let text = explain(case, &a[at], &b[at]);
            report.shown.push(format!("case {number}: {text}"));
        }
    }
}
