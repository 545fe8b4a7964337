//! Faults and entry states, and how they are written.

use crate::plain::{Cell, State, Wrong};
use crate::sheet::Refusal;

#[derive(Clone, Debug, PartialEq, Eq)]
pub struct Fault {
    pub block: usize,
    pub place: usize,
    pub inst: u32,
    pub kind: u32,
    pub at: String,
    pub expected: String,
    pub actual: String,
}

impl Fault {
    fn line(&self) -> String {
        format!(
            "E\t{}\t{}\t{}\t{}\t{}\t{}\t{}\n",
            self.block, self.place, self.inst, self.kind, self.at, self.expected, self.actual
        )
    }
}

/// The report's text: a header that counts the faults, then by block a line for each, and one for each block that is named as unreached.
pub fn report(rule: &str, faults: &[Fault], unreached: &[usize], wrong: Wrong) -> Vec<u8> {
    let mut lines: Vec<(usize, String)> = faults.iter().map(|fault| (fault.block, fault.line())).collect();
    lines.extend(unreached.iter().map(|block| (*block, format!("N\t{}\n", block))));
    if wrong != Wrong::UnreachedLast {
        lines.sort_by_key(|(block, _)| *block);
    }
    let count = if wrong == Wrong::UnreachedCounted { lines.len() } else { faults.len() };
    let text: String = lines.into_iter().map(|(_, line)| line).collect();
    format!("R\t{}\t{}\n{}", rule, count, text).into_bytes()
}

/// A refusal's line.
pub fn refusal(refusal: Refusal) -> Vec<u8> {
    format!("X\t{}\t{}\t{}\n", refusal.number, refusal.line, refusal.field).into_bytes()
}

/// One line of entry state for each block; the mark is `-`, `0` or `1`.
pub fn states(list: &[(char, State)]) -> Vec<u8> {
    let mut text = String::new();
    for (block, (mark, state)) in list.iter().enumerate() {
        text += &format!("D\t{}\t{}", block, mark);
        for cell in state.regs.iter().chain(state.slots.iter()) {
            text.push('\t');
            text += &cell_text(*cell);
        }
        text.push('\n');
    }
    text.into_bytes()
}

fn cell_text(cell: Cell) -> String {
    match cell {
        Cell::Absent => ".".to_string(),
        Cell::Unknown => "?".to_string(),
        Cell::Conflicted => "!".to_string(),
        Cell::Holds(name, false) => name.text(),
        Cell::Holds(name, true) => name.text() + "*",
    }
}
