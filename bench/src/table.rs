//! The ratios, and the medians that they come from.

use crate::parts::{median, share, Choice, Function, Part};

/// A time of a function that is made of its parts.
type Time = fn(&Function) -> f64;

/// Loading takes the same time in both calls, and so does the clearing.
fn checks(f: &Function) -> f64 {
    f.took(Part::Old) - f.took(Part::Load)
}

fn house_checks(f: &Function) -> f64 {
    f.took(Part::House) - f.took(Part::Load)
}

fn clears(f: &Function) -> f64 {
    f.took(Part::Clear)
}

fn checks_and_clears(f: &Function) -> f64 {
    checks(f) + clears(f)
}

fn house_checks_and_clears(f: &Function) -> f64 {
    house_checks(f) + clears(f)
}

fn loads(f: &Function) -> f64 {
    f.took(Part::Load) - f.took(Part::Clear)
}

fn old(f: &Function) -> f64 {
    f.took(Part::Old)
}

fn rust_runs(f: &Function) -> f64 {
    f.took(Part::Run)
}

fn rust_builds(f: &Function) -> f64 {
    f.took(Part::Build)
}

fn rust_loads(f: &Function) -> f64 {
    f.took(Part::Read) + f.took(Part::Build)
}

fn rust_all(f: &Function) -> f64 {
    rust_loads(f) + rust_runs(f)
}

const RATIOS: [(&str, Time, Time); 9] = [
    ("checking, old rule: ours / Rust", checks, rust_runs),
    ("the same with our clearing", checks_and_clears, rust_runs),
    ("checking: our house rule / Rust's old", house_checks, rust_runs),
    ("the same with our clearing", house_checks_and_clears, rust_runs),
    ("checking: our house rule / our old", house_checks, checks),
    ("clearing / our checking, old rule", clears, checks),
    ("loading: ours / oracle's reader + build", loads, rust_loads),
    ("loading: ours / build alone", loads, rust_builds),
    ("text to answer, old rule: ours / Rust", old, rust_all),
];

const TIMES: [(&str, Time); 8] = [
    ("our checking, old rule", checks),
    ("our checking, house rule", house_checks),
    ("our clearing", clears),
    ("our loading", loads),
    ("our whole call, old rule", old),
    ("Rust's run", rust_runs),
    ("Rust's build", rust_builds),
    ("oracle's reader and Rust's build", rust_loads),
];

pub fn print(choice: Choice, functions: &[Function]) {
    println!();
    print!("{:42}{:>10}", "ratio of the sums", "all");
    for kind in choice.kinds() {
        print!("{:>12}", kind);
    }
    println!("{:>20}", "10th .. 90th of 100");
    for (name, over, under) in RATIOS.iter() {
        print!("{:42}{:>10.2}", name, ratio(functions, None, *over, *under));
        for kind in 0..choice.kinds().len() {
            print!("{:>12.2}", ratio(functions, Some(kind), *over, *under));
        }
        let each: Vec<f64> = functions.iter().map(|f| over(f) / under(f)).collect();
        println!("{:>20}", format!("{:.2} .. {:.2}", share(&each, 10), share(&each, 90)));
    }
    println!();
    println!("median over the functions, in microseconds on this computer in this run");
    for (name, time) in TIMES.iter() {
        let each: Vec<f64> = functions.iter().map(time).collect();
        println!("{:42}{:>10.1}", name, median(&each) / 1000.0);
    }
}

/// Of the functions of a kind, or of all.
fn ratio(functions: &[Function], kind: Option<usize>, over: Time, under: Time) -> f64 {
    let of_kind = |f: &&Function| kind.map_or(true, |kind| f.kind == kind);
    let sum = |time: Time| functions.iter().filter(of_kind).map(time).sum::<f64>();
    sum(over) / sum(under)
}
