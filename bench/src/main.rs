//! Times the product beside the Rust that it was ported from, over generated functions, in one run.
//! The Rust, its stand-ins and the generator are the oracle's.

// Of the oracle only a part is used here.
#![allow(dead_code)]

// checker.rs names its crate's own modules and two other crates; all lead to the stand-ins.
extern crate self as log;
extern crate self as rustc_hash;

#[path = "../../target/oracle/checker.rs"]
mod checker;
#[path = "../../oracle/src/columns.rs"]
mod columns;
#[path = "../../oracle/src/damage.rs"]
mod damage;
#[path = "../../oracle/src/generate.rs"]
mod generate;
#[path = "../../oracle/src/house.rs"]
mod house;
#[path = "../../oracle/src/old.rs"]
mod old;
#[path = "../../oracle/src/plain.rs"]
mod plain;
#[path = "../../oracle/src/random.rs"]
mod random;
#[path = "../../oracle/src/report.rs"]
mod report;
#[path = "../../oracle/src/sheet.rs"]
mod sheet;
#[path = "../../oracle/src/stand_ins.rs"]
mod stand_ins;

mod agree;
mod ours;
mod parts;
mod table;

#[allow(unused_imports)]
use stand_ins::{
    analysis_data_flow, data_structures, debug, inst_stream, Function, FxHashSet, RegUsageMapper,
    StackmapRequestInfo,
};

use ours::Ours;
use parts::{Choice, Function as Timed, Part, PARTS};

const USAGE: &str = "usage:
  bench time N SEED CHOICE ROUNDS    times both sides on N functions
  bench agree N SEED CHOICE          compares both sides' answers to N functions
  bench count N SEED CHOICE PART     runs one part once on each function, for a counter of instructions
CHOICE: timed, functions of 60 to 128 blocks; long, such with sheets of nearly 65,536 bytes
PART: none, clear, load, old, house, read, build or run";

fn main() {
    let arguments: Vec<String> = std::env::args().skip(1).collect();
    let words: Vec<&str> = arguments.iter().map(|word| word.as_str()).collect();
    let result = match words.as_slice() {
        ["time", n, seed, choice, rounds] => chosen(n, seed, choice).and_then(|chosen| time(chosen, number(rounds)?)),
        ["agree", n, seed, choice] => chosen(n, seed, choice).and_then(agree),
        ["count", n, seed, choice, part] => chosen(n, seed, choice).and_then(|chosen| count(chosen, part)),
        _ => Err(USAGE.to_string()),
    };
    if let Err(message) = result {
        eprintln!("bench: {}", message);
        std::process::exit(1);
    }
}

/// A number of the command line, which is not 0.
fn number(word: &str) -> Result<u64, String> {
    let number = word.parse().ok().filter(|n| *n > 0);
    number.ok_or(format!("{} is not a number above 0", word))
}

/// The functions that are asked for.
struct Chosen {
    n: u64,
    seed: u64,
    choice: Choice,
}

fn chosen(n: &str, seed: &str, choice: &str) -> Result<Chosen, String> {
    let choice = match choice {
        "timed" => Choice::Timed,
        "long" => Choice::Long,
        _ => return Err(USAGE.to_string()),
    };
    Ok(Chosen { n: number(n)?, seed: number(seed)?, choice })
}

impl Chosen {
    fn functions(&self) -> Vec<Timed> {
        (0..self.n).map(|index| Timed::of(self.choice, self.seed, index)).collect()
    }
}

/// Both sides in turn on each function, and so in each round; the median of the rounds counts.
fn time(chosen: Chosen, rounds: u64) -> Result<(), String> {
    let mut functions = chosen.functions();
    let mut ours = Ours::new();
    let counts = agree::all(&functions, &mut ours)?;
    for round in 0..rounds {
        for function in &mut functions {
            function.time(&mut ours, round % 2 == 0);
        }
    }
    println!("{} functions, seed {}, {} rounds", chosen.n, chosen.seed, rounds);
    counts.print(chosen.choice);
    table::print(chosen.choice, &functions);
    Ok(())
}

fn agree(chosen: Chosen) -> Result<(), String> {
    let counts = agree::all(&chosen.functions(), &mut Ours::new())?;
    counts.print(chosen.choice);
    Ok(())
}

/// One part alone. `none` is what the program does besides.
fn count(chosen: Chosen, part: &str) -> Result<(), String> {
    let functions = chosen.functions();
    let mut ours = Ours::new();
    if part == "none" {
        return Ok(());
    }
    let part = PARTS.iter().find(|(name, _)| *name == part).map(|(_, part)| *part);
    let part: Part = part.ok_or(USAGE.to_string())?;
    for function in &functions {
        function.run_to(part, &mut ours);
    }
    Ok(())
}
