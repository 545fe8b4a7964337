//! Counts what a seal costs: the reader of seals on texts of two sizes, and how long the reports of the timed functions are.

// Of the oracle only a part is used here.
#![allow(dead_code)]

// checker.rs names its crate's own modules and two other crates; all lead to the stand-ins.
extern crate self as log;
extern crate self as rustc_hash;

#[path = "../../target/oracle/checker.rs"]
mod checker;
#[path = "../../oracle/src/damage.rs"]
mod damage;
#[path = "../../oracle/src/generate.rs"]
mod generate;
#[path = "../../oracle/src/house.rs"]
mod house;
#[path = "../../oracle/src/old.rs"]
mod old;
#[path = "../../oracle/src/plain.rs"]
mod plain;
#[path = "../../oracle/src/random.rs"]
mod random;
#[path = "../../oracle/src/report.rs"]
mod report;
#[path = "../../oracle/src/sheet.rs"]
mod sheet;
#[path = "../../oracle/src/stand_ins.rs"]
mod stand_ins;

#[allow(unused_imports)]
use stand_ins::{
    analysis_data_flow, data_structures, debug, inst_stream, Function, FxHashSet, RegUsageMapper,
    StackmapRequestInfo,
};

#[link(name = "seal", kind = "static")]
extern "C" {
    fn itanropen_verify(text: *const u8, length: usize) -> u8;
}

/// The bytes of the house reports of N timed functions, on average and at most.
fn lengths(n: u64, seed: u64) {
    let all: Vec<usize> = (0..n)
        .map(|index| {
            let sheet = generate::timed(seed, index);
            let (faults, states) = house::house_faults(&sheet, plain::Wrong::Nothing);
            let unreached = house::named(&sheet, &states, plain::Wrong::Nothing);
            report::report("house", &faults, &unreached, plain::Wrong::Nothing).len()
        })
        .collect();
    println!("{} {}", all.iter().sum::<usize>() / all.len(), all.iter().max().unwrap());
}

fn main() {
    let words: Vec<String> = std::env::args().skip(1).collect();
    let number = |at: usize| words[at].parse::<u64>().unwrap();
    if words[0] == "lengths" {
        return lengths(number(1), number(2));
    }
    // `verify BYTES TIMES`: a text with a seal's line behind it, so that the CRC is taken.
    let text = [vec![b'\n'; number(1) as usize], b"K\t00000000\n".to_vec()].concat();
    let told: u64 = (0..number(2)).map(|_| unsafe { itanropen_verify(text.as_ptr(), text.len()) as u64 }).sum();
    println!("{}", told);
}
