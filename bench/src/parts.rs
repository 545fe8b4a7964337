//! The parts that are timed, on either side, and a function with its times.

use crate::generate::{long, timed, TIMED_KINDS};
use crate::old::{build, Built};
use crate::ours::Ours;
use crate::sheet::{read, Sheet};
use std::hint::black_box;
use std::time::Instant;

/// Which functions are timed.
#[derive(Clone, Copy, PartialEq, Eq)]
pub enum Choice {
    /// Of 60 to 128 blocks.
    Timed,
    /// Those whose sheets are nearly as long as a sheet may be.
    Long,
}

impl Choice {
    pub fn kinds(self) -> &'static [&'static str] {
        match self {
            Choice::Timed => &TIMED_KINDS,
            Choice::Long => &["long"],
        }
    }
}

#[derive(Clone, Copy, PartialEq, Eq)]
pub enum Part {
    /// Ours: an empty sheet, which is refused at once; what is left is to clear the scratch.
    Clear,
    /// Ours: the sheet with an empty line behind it, which is read wholly and refused there.
    Load,
    /// Ours: all of it, under the old rule.
    Old,
    /// Ours: all of it, under the house rule.
    House,
    /// Rust: the sheet's text read by the oracle's reader.
    Read,
    /// Rust: the read sheet handed to the Rust checker.
    Build,
    /// Rust: `run`, which is `analyze` and `find_errors`, and frees the checker.
    Run,
}

pub const PARTS: [(&str, Part); 7] = [
    ("clear", Part::Clear),
    ("load", Part::Load),
    ("old", Part::Old),
    ("house", Part::House),
    ("read", Part::Read),
    ("build", Part::Build),
    ("run", Part::Run),
];

/// A generated function, and the nanoseconds that each part took in each round.
pub struct Function {
    pub kind: usize,
    pub sheet: Sheet,
    pub text: Vec<u8>,
    /// The text with an empty line behind it.
    pub longer: Vec<u8>,
    times: [Vec<f64>; 7],
}

impl Function {
    pub fn of(choice: Choice, seed: u64, index: u64) -> Function {
        let sheet = match choice {
            Choice::Timed => timed(seed, index),
            Choice::Long => long(seed, index),
        };
        let text = sheet.text();
        let mut longer = text.clone();
        longer.push(b'\n');
        let kind = index as usize % choice.kinds().len();
        Function { kind, sheet, text, longer, times: Default::default() }
    }

    /// One round: both sides, in the order that is asked for.
    pub fn time(&mut self, ours: &mut Ours, rust_first: bool) {
        if rust_first {
            self.time_rust();
        }
        for part in [Part::Clear, Part::Load, Part::Old, Part::House] {
            let start = Instant::now();
            self.call(part, ours);
            self.note(part, start);
        }
        if !rust_first {
            self.time_rust();
        }
    }

    fn time_rust(&mut self) {
        let start = Instant::now();
        let sheet = read(black_box(&self.text)).unwrap();
        self.note(Part::Read, start);
        let start = Instant::now();
        let built = build(black_box(&sheet));
        self.note(Part::Build, start);
        let Built { checker, places } = built.ok().unwrap();
        let start = Instant::now();
        let result = checker.run();
        self.note(Part::Run, start);
        drop(black_box((result, places)));
    }

    fn note(&mut self, part: Part, start: Instant) {
        self.times[part as usize].push(start.elapsed().as_nanos() as f64);
    }

    /// A part of ours.
    fn call(&self, part: Part, ours: &mut Ours) {
        let (house, text): (bool, &[u8]) = match part {
            Part::Clear => (false, &[]),
            Part::Load => (false, &self.longer),
            Part::House => (true, &self.text),
            _ => (false, &self.text),
        };
        black_box(ours.check(house, black_box(text)));
    }

    /// A part alone; of the Rust, with those before it. What was read and built is not freed, so that
    /// the difference of two parts is the later one.
    pub fn run_to(&self, part: Part, ours: &mut Ours) {
        match part {
            Part::Clear | Part::Load | Part::Old | Part::House => self.call(part, ours),
            Part::Read | Part::Build | Part::Run => self.run_rust_to(part),
        }
    }

    fn run_rust_to(&self, part: Part) {
        let sheet = read(black_box(&self.text)).unwrap();
        if part != Part::Read {
            let Built { checker, places } = build(black_box(&sheet)).ok().unwrap();
            if part == Part::Run {
                std::mem::forget(black_box(checker.run()));
            } else {
                std::mem::forget(black_box(checker));
            }
            std::mem::forget(places);
        }
        std::mem::forget(sheet);
    }

    /// The median of the rounds.
    pub fn took(&self, part: Part) -> f64 {
        median(&self.times[part as usize])
    }
}

pub fn median(values: &[f64]) -> f64 {
    share(values, 50)
}

/// The value below which so many percent of the values lie.
pub fn share(values: &[f64], percent: usize) -> f64 {
    let mut sorted = values.to_vec();
    sorted.sort_by(|a, b| a.partial_cmp(b).unwrap());
    sorted[(sorted.len() - 1) * percent / 100]
}
