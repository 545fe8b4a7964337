//! Before anything is timed: the answers of both sides to every function are the same.

use crate::house::{house_faults, named};
use crate::old;
use crate::ours::{Ours, Verdict, ACCEPTED, REFUSED};
use crate::parts::{Choice, Function};
use crate::plain::{reached, Wrong};
use crate::report::{report, Fault};

/// What the functions are like.
#[derive(Default)]
pub struct Counts {
    functions: [usize; 3],
    accepted_old: [usize; 3],
    accepted_house: [usize; 3],
    bytes: usize,
    blocks: usize,
    reached: usize,
    steps: usize,
    visits: usize,
}

/// Holds our two reports against the Rust's faults and the oracle's house faults, byte by byte.
pub fn all(functions: &[Function], ours: &mut Ours) -> Result<Counts, String> {
    let mut counts = Counts::default();
    for (index, function) in functions.iter().enumerate() {
        let rust = old::check(&function.sheet, true);
        let (house, states) = house_faults(&function.sheet, Wrong::Nothing);
        let unreached = named(&function.sheet, &states, Wrong::Nothing);
        let said = |same: bool, what: &str| {
            if same {
                Ok(())
            } else {
                Err(format!("function {}: {} differs", index, what))
            }
        };
        said(same(function, ours, false, &rust.faults, &[]), "the old answer")?;
        said(same(function, ours, true, &house, &unreached), "the house answer")?;
        said(is_read_wholly(function, ours), "the answer to the sheet with an empty line")?;
        counts.add(function, rust.faults.is_empty(), house.is_empty(), rust.visits);
    }
    Ok(counts)
}

fn same(function: &Function, ours: &mut Ours, house: bool, faults: &[Fault], unreached: &[usize]) -> bool {
    let verdict = ours.check(house, &function.text);
    let text = report(if house { "house" } else { "old" }, faults, unreached, Wrong::Nothing);
    let accepted = verdict.answer == ACCEPTED;
    verdict.answer != REFUSED && accepted == faults.is_empty() && ours.report(verdict) == text
}

/// The empty line is the last, and is what the sheet is refused for.
fn is_read_wholly(function: &Function, ours: &mut Ours) -> bool {
    let lines = function.longer.iter().filter(|byte| **byte == b'\n').count();
    let refused = Verdict { answer: REFUSED, number: 3, length: 0, line: lines, field: 1 };
    ours.check(false, &function.longer) == refused
}

impl Counts {
    fn add(&mut self, function: &Function, old: bool, house: bool, visits: usize) {
        self.functions[function.kind] += 1;
        self.accepted_old[function.kind] += old as usize;
        self.accepted_house[function.kind] += house as usize;
        let sheet = &function.sheet;
        self.bytes += function.text.len();
        self.blocks += sheet.blocks.len();
        self.reached += reached(sheet).iter().filter(|reached| **reached).count();
        self.steps += sheet.blocks.iter().map(|block| block.steps.len()).sum::<usize>();
        self.visits += visits;
    }

    pub fn print(&self, choice: Choice) {
        for (kind, name) in choice.kinds().iter().enumerate() {
            println!(
                "{}: {}, accepted under the old rule {}, under the house rule {}",
                name, self.functions[kind], self.accepted_old[kind], self.accepted_house[kind]
            );
        }
        let total = self.functions.iter().sum::<usize>() as f64;
        println!(
            "on average {:.0} bytes, {:.0} blocks ({:.0} reached), {:.0} steps, {:.0} visits by the old run",
            self.bytes as f64 / total,
            self.blocks as f64 / total,
            self.reached as f64 / total,
            self.steps as f64 / total,
            self.visits as f64 / total
        );
        println!("both sides' old answers agree on every function, and so do the house answers");
    }
}
