//! The Rust side of the tests: the oracle of the old rule, a second reader, a second house rule, a
//! generator of sheets, and the comparison with a product that speaks frames.

// checker.rs names its crate's own modules and two other crates; all lead to the stand-ins.
extern crate self as log;
extern crate self as rustc_hash;

mod columns;
mod damage;
mod drive;
mod forms;
mod frames;
mod generate;
mod house;
mod old;
mod pairs;
mod plain;
mod random;
mod report;
mod seals;
mod selftest;
mod sheet;
mod shrink;
mod stand_ins;
mod store;

// The build script writes this file, which names that of the Rust crate, where it lies.
#[path = "../../target/oracle/checker.rs"]
mod checker;

#[allow(unused_imports)]
use stand_ins::{
    analysis_data_flow, data_structures, debug, inst_stream, Function, FxHashSet, RegUsageMapper,
    StackmapRequestInfo,
};

use drive::{Counts, Plan, Product};
use frames::Old;
use plain::{Wrong, WRONGS};
use std::io::{self, Write};

const USAGE: &str = "usage:
  oracle speak                       answers frames on standard input with six frames each
  oracle drive N SEED COMMAND        compares COMMAND, which speaks frames, on N sheets and those of every run
  oracle pairs N SEED COMMAND        compares COMMAND, which compares two reports, on N pairs of reports
  oracle seals N SEED COMMAND        compares COMMAND, which verifies seals, on N texts
  oracle forms N SEED COMMAND        compares COMMAND, which writes loaded words, on N lists of words
  oracle self-test N SEED            the tests of the tests
  oracle extremes                    the longest report and the runs with the most visits, under both rules
  oracle sheet SEED INDEX            writes one generated sheet
  oracle timed SEED INDEX            writes one function that bench/ times
  oracle long SEED INDEX             writes one whose sheet is nearly 65,536 bytes long
  oracle store FOLDER N SEED         writes the stored lists, chosen from N sheets
  oracle check-stored FOLDER         holds the stored lists against the oracle";

fn main() {
    let arguments: Vec<String> = std::env::args().skip(1).collect();
    let words: Vec<&str> = arguments.iter().map(|word| word.as_str()).collect();
    let result = match words.as_slice() {
        ["speak"] => speak(Old::Rust, Wrong::Nothing),
        ["speak", "plain"] => speak(Old::Plain, Wrong::Nothing),
        ["speak", "wrong", name] => wrong(name).and_then(|wrong| speak(Old::Plain, wrong)),
        ["drive", sheets, seed, command] => {
            number(sheets).and_then(|n| drive(n, number(seed)?, command))
        }
        ["pairs", pairs, seed, command] => {
            number(pairs).and_then(|n| pairs::drive(n, number(seed)?, command))
        }
        ["seals", texts, seed, command] => {
            number(texts).and_then(|n| seals::drive(n, number(seed)?, command))
        }
        ["forms", forms, seed, command] => {
            number(forms).and_then(|n| forms::drive(n, number(seed)?, command))
        }
        ["sheet", seed, index] => number(seed).and_then(|s| written(&generate::generate(s, number(index)?).1)),
        ["timed", seed, index] => number(seed).and_then(|s| written(&generate::timed(s, number(index)?).text())),
        ["long", seed, index] => number(seed).and_then(|s| written(&generate::long(s, number(index)?).text())),
        ["self-test", sheets, seed] => {
            number(sheets).and_then(|n| selftest::run(n, number(seed)?))
        }
        ["extremes"] => selftest::extremes(),
        ["store", folder, sheets, seed] => {
            number(sheets).and_then(|n| store::store(folder, n, number(seed)?))
        }
        ["check-stored", folder] => store::check(folder),
        _ => Err(USAGE.to_string()),
    };
    if let Err(message) = result {
        eprintln!("oracle: {}", message);
        std::process::exit(1);
    }
}

fn number(word: &str) -> Result<u64, String> {
    word.parse().map_err(|_| format!("{} is not a number", word))
}

/// A setting from the environment, a number.
fn setting(name: &str, otherwise: u64) -> Result<u64, String> {
    match std::env::var(name) {
        Ok(word) => number(&word),
        Err(_) => Ok(otherwise),
    }
}

fn wrong(name: &str) -> Result<Wrong, String> {
    let found = WRONGS.iter().find(|(known, _)| *known == name);
    found.map(|(_, wrong)| *wrong).ok_or(format!("no slip is called {}", name))
}

fn speak(old: Old, wrong: Wrong) -> Result<(), String> {
    let stdin = io::stdin();
    let stdout = io::stdout();
    let mut out = io::BufWriter::new(stdout.lock());
    frames::speak(&mut stdin.lock(), &mut out, old, wrong)
}

fn written(sheet: &[u8]) -> Result<(), String> {
    io::stdout().write_all(sheet).map_err(|e| e.to_string())
}

fn drive(sheets: u64, seed: u64, command: &str) -> Result<(), String> {
    let plan = Plan {
        product: Product {
            command: command.to_string(),
            patience: setting("ORACLE_PATIENCE", 900)?,
        },
        sheets,
        seed,
        rust_states: setting("ORACLE_RUST_STATES", 1)?.max(1),
        counts: true,
        quiet: false,
    };
    selftest::known()?;
    let started = std::time::Instant::now();
    let mut counts = Counts::new();
    match drive::compare(&plan, &mut counts)? {
        None => {
            counts.print();
            let seconds = started.elapsed().as_secs();
            let always = damage::always().len();
            println!("{} sheets, seed {}, and {} of every run, {} s: 0 differences", sheets, seed, always, seconds);
            Ok(())
        }
        Some(found) => {
            println!("seed {}, sheet {}: a difference; shrinking it", seed, found.index);
            if !drive::differs_alone(&plan.product, &found.sheet) {
                print!("{}", drive::visible(&found.sheet));
                return Err("the difference shows only behind other sheets".to_string());
            }
            let small = drive::shrink_difference(&plan.product, &found.sheet);
            drive::print_difference(&plan.product, &small)?;
            let kept = std::env::current_exe()
                .map_err(|e| e.to_string())?
                .with_file_name(format!("difference-{}-{}.sheet", seed, found.index));
            std::fs::write(&kept, &small).map_err(|e| e.to_string())?;
            println!("kept as {}", kept.display());
            Err(format!("1 difference after {} sheets", found.index))
        }
    }
}
