//! Cells, states and checks of both rules, and a plain second implementation of the old rule, all from
//! document 01. `Wrong` names slips that can be asked for, to see whether a run of sheets finds them.

use crate::report::Fault;
use crate::sheet::{Name, Sheet, Step};
use std::collections::VecDeque;

/// A slip built in on purpose.
#[derive(Clone, Copy, Debug, PartialEq, Eq)]
pub enum Wrong {
    Nothing,
    /// Refusal 6 looked at before 5.
    SwapFiveSix,
    /// Of several fields that show a fault the last one named.
    LastField,
    /// A step's later faults reported too.
    LaterFaults,
    /// No effect after a fault.
    SkipEffect,
    /// Old: unreached blocks not checked.
    UnreachedSkipped,
    /// Old: unreached blocks named.
    OldNamed,
    /// House: unreached blocks checked, and not named.
    UnreachedChecked,
    /// House: unreached blocks counted with the faults.
    UnreachedCounted,
    /// House: unreached blocks named behind all faults.
    UnreachedLast,
    /// House: unreached blocks without a step not named.
    EmptyUnnamed,
    /// House: unreached blocks named beside a missing allocation.
    NamedBesideMissing,
    /// House: Unknown as the meet's neutral element.
    UnknownNeutral,
    /// House: stale copies made Unknown.
    StaleUnknown,
    /// Old: a waiting block not appended again.
    NotTwice,
    /// Old: the queue served last in, first out.
    LastIn,
    /// Old: successors served from the last to the first.
    Backwards,
    /// Old: the block run anew for each successor.
    Recomputed,
    /// Old: Absent equal to Unknown when states are compared.
    AbsentIsUnknown,
    /// Old: copying Absent stores Absent.
    CopyAbsent,
    /// Old: `C` marks by the list of `T`, not by what the slot held.
    ChangeMarks,
}

pub const WRONGS: [(&str, Wrong); 20] = [
    ("swap-five-six", Wrong::SwapFiveSix),
    ("last-field", Wrong::LastField),
    ("later-faults", Wrong::LaterFaults),
    ("skip-effect", Wrong::SkipEffect),
    ("unreached-skipped", Wrong::UnreachedSkipped),
    ("old-named", Wrong::OldNamed),
    ("unreached-checked", Wrong::UnreachedChecked),
    ("unreached-counted", Wrong::UnreachedCounted),
    ("unreached-last", Wrong::UnreachedLast),
    ("empty-unnamed", Wrong::EmptyUnnamed),
    ("named-beside-missing", Wrong::NamedBesideMissing),
    ("unknown-neutral", Wrong::UnknownNeutral),
    ("stale-unknown", Wrong::StaleUnknown),
    ("not-twice", Wrong::NotTwice),
    ("last-in", Wrong::LastIn),
    ("backwards", Wrong::Backwards),
    ("recomputed", Wrong::Recomputed),
    ("absent-is-unknown", Wrong::AbsentIsUnknown),
    ("copy-absent", Wrong::CopyAbsent),
    ("change-marks", Wrong::ChangeMarks),
];

#[derive(Clone, Copy, Debug, PartialEq, Eq)]
pub enum Cell {
    Absent,
    Unknown,
    Conflicted,
    /// A name with its reference mark.
    Holds(Name, bool),
}

#[derive(Clone, Debug, PartialEq, Eq)]
pub struct State {
    pub regs: Vec<Cell>,
    pub slots: Vec<Cell>,
}

impl State {
    pub fn filled(sheet: &Sheet, cell: Cell) -> State {
        State {
            regs: vec![cell; sheet.regs as usize],
            slots: vec![cell; sheet.slots as usize],
        }
    }

    /// Register i holds ri, unmarked; every slot the given cell.
    pub fn entry(sheet: &Sheet, slot: Cell) -> State {
        let mut state = State::filled(sheet, slot);
        for i in 0..sheet.regs {
            state.regs[i as usize] = Cell::Holds(Name::Real(i), false);
        }
        state
    }

    pub fn cells_mut(&mut self) -> impl Iterator<Item = &mut Cell> {
        self.regs.iter_mut().chain(self.slots.iter_mut())
    }
}

/// The state met cell by cell.
pub fn meet_states(a: &State, b: &State, meet: impl Fn(Cell, Cell) -> Cell) -> State {
    let row = |x: &[Cell], y: &[Cell]| (0..x.len()).map(|i| meet(x[i], y[i])).collect();
    State { regs: row(&a.regs, &b.regs), slots: row(&a.slots, &b.slots) }
}

/// A check's failure: kind, where, expected, actual.
pub type Failure = (u32, String, String, String);

fn nothing() -> String {
    "-".to_string()
}

/// Every failing use or slot of a step, in the order of the check. The first ends the check.
pub fn failures(step: &Step, state: &State) -> Vec<Failure> {
    let mut found = Vec::new();
    match step {
        Step::Op { uses, .. } => {
            for operand in uses {
                let reg = operand.reg.unwrap();
                let at = format!("r{}", reg);
                match state.regs[reg as usize] {
                    Cell::Holds(name, _) if name == operand.name => {}
                    Cell::Holds(name, _) => {
                        found.push((3, at, operand.name.text(), name.text()))
                    }
                    _ => found.push((2, at, nothing(), nothing())),
                }
            }
        }
        Step::Change { slot, from, .. } => {
            let at = format!("s{}", slot);
            match state.slots[*slot as usize] {
                Cell::Holds(name, _) if name == *from => {}
                Cell::Holds(name, _) => found.push((5, at, from.text(), name.text())),
                _ => found.push((4, at, from.text(), nothing())),
            }
        }
        Step::Safepoint { slots, .. } => {
            for slot in slots {
                let at = format!("s{}", slot);
                match state.slots[*slot as usize] {
                    Cell::Holds(_, true) => {}
                    Cell::Holds(_, false) => found.push((6, at, nothing(), nothing())),
                    _ => found.push((7, at, nothing(), nothing())),
                }
            }
        }
        _ => {}
    }
    found
}

/// The faults of the first step with a missing allocation, if there is one.
pub fn missing(sheet: &Sheet) -> Option<Vec<Fault>> {
    for (block, b) in sheet.blocks.iter().enumerate() {
        for (place, step) in b.steps.iter().enumerate() {
            if let Step::Op { inst, uses, defs } = step {
                for list in &[uses, defs] {
                    let names: Vec<Name> =
                        list.iter().filter(|o| o.reg.is_none()).map(|o| o.name).collect();
                    if !names.is_empty() {
                        let fault = |name: &Name| Fault {
                            block,
                            place,
                            inst: *inst,
                            kind: 1,
                            at: nothing(),
                            expected: name.text(),
                            actual: nothing(),
                        };
                        return Some(names.iter().map(fault).collect());
                    }
                }
            }
        }
    }
    None
}

/// Checks every block from its entry state.
pub fn find_faults(
    sheet: &Sheet,
    entry_states: &[State],
    effect: impl Fn(&Step, &mut State),
    wrong: Wrong,
) -> Vec<Fault> {
    let mut faults = Vec::new();
    for (block, b) in sheet.blocks.iter().enumerate() {
        let mut state = entry_states[block].clone();
        for (place, step) in b.steps.iter().enumerate() {
            let mut found = failures(step, &state);
            if wrong != Wrong::LaterFaults {
                found.truncate(1);
            }
            if found.is_empty() || wrong != Wrong::SkipEffect {
                effect(step, &mut state);
            }
            for (kind, at, expected, actual) in found {
                let inst = step.inst();
                faults.push(Fault { block, place, inst, kind, at, expected, actual });
            }
        }
    }
    faults
}

/// The old rule's effect of a step.
pub fn old_effect(sheet: &Sheet, step: &Step, state: &mut State, wrong: Wrong) {
    let copy = |cell: Cell| match cell {
        Cell::Absent if wrong != Wrong::CopyAbsent => Cell::Unknown,
        other => other,
    };
    match step {
        Step::Spill { slot, reg } => {
            state.slots[*slot as usize] = copy(state.regs[*reg as usize]);
        }
        Step::Reload { reg, slot } => {
            state.regs[*reg as usize] = copy(state.slots[*slot as usize]);
        }
        Step::Move { into, from } => {
            state.regs[*into as usize] = copy(state.regs[*from as usize]);
        }
        Step::Op { defs, .. } => {
            for def in defs {
                let mark = sheet.is_reftyped(def.name);
                state.regs[def.reg.unwrap() as usize] = Cell::Holds(def.name, mark);
            }
        }
        Step::Change { slot, to, .. } => {
            let mark = match state.slots[*slot as usize] {
                _ if wrong == Wrong::ChangeMarks => sheet.is_reftyped(*to),
                Cell::Holds(_, mark) => mark,
                _ => false,
            };
            state.slots[*slot as usize] = Cell::Holds(*to, mark);
        }
        Step::Safepoint { slots, .. } => forget_marked(state, slots, Cell::Unknown),
    }
}

/// Marked names in registers and unlisted slots become the given cell.
pub fn forget_marked(state: &mut State, listed: &[u32], becomes: Cell) {
    for cell in &mut state.regs {
        if let Cell::Holds(_, true) = *cell {
            *cell = becomes;
        }
    }
    for (slot, cell) in state.slots.iter_mut().enumerate() {
        if let Cell::Holds(_, true) = *cell {
            if !listed.contains(&(slot as u32)) {
                *cell = becomes;
            }
        }
    }
}

pub fn old_meet(a: Cell, b: Cell) -> Cell {
    match (a, b) {
        (Cell::Absent, other) | (other, Cell::Absent) => other,
        (Cell::Unknown, other) | (other, Cell::Unknown) => other,
        (Cell::Conflicted, _) | (_, Cell::Conflicted) => Cell::Conflicted,
        (Cell::Holds(x, m), Cell::Holds(y, n)) if x == y => Cell::Holds(x, m || n),
        _ => Cell::Conflicted,
    }
}

fn old_out(sheet: &Sheet, block: usize, entry_state: &State, wrong: Wrong) -> State {
    let mut state = entry_state.clone();
    for step in &sheet.blocks[block].steps {
        old_effect(sheet, step, &mut state, wrong);
    }
    state
}

fn same(a: &State, b: &State, wrong: Wrong) -> bool {
    if wrong != Wrong::AbsentIsUnknown {
        return a == b;
    }
    let plain = |state: &State| {
        let mut copy = state.clone();
        for cell in copy.cells_mut() {
            if *cell == Cell::Absent {
                *cell = Cell::Unknown;
            }
        }
        copy
    };
    plain(a) == plain(b)
}

/// The old run's entry states and number of visits.
pub fn old_run(sheet: &Sheet, wrong: Wrong) -> (Vec<State>, usize) {
    let mut states = vec![State::filled(sheet, Cell::Absent); sheet.blocks.len()];
    states[sheet.entry as usize] = State::entry(sheet, Cell::Absent);
    let mut queue = VecDeque::new();
    queue.push_back(sheet.entry as usize);
    let mut visits = 0;
    loop {
        let next = if wrong == Wrong::LastIn { queue.pop_back() } else { queue.pop_front() };
        let block = match next {
            Some(block) => block,
            None => return (states, visits),
        };
        visits += 1;
        let mut out = old_out(sheet, block, &states[block], wrong);
        let mut succs = sheet.blocks[block].succs.clone();
        if wrong == Wrong::Backwards {
            succs.reverse();
        }
        for succ in succs {
            let succ = succ as usize;
            if wrong == Wrong::Recomputed {
                out = old_out(sheet, block, &states[block], wrong);
            }
            let met = meet_states(&out, &states[succ], old_meet);
            if !same(&met, &states[succ], wrong) {
                states[succ] = met;
                if wrong != Wrong::NotTwice || !queue.contains(&succ) {
                    queue.push_back(succ);
                }
            }
        }
    }
}

/// The blocks that a walk from the entry comes to.
pub fn reached(sheet: &Sheet) -> Vec<bool> {
    let mut reached = vec![false; sheet.blocks.len()];
    let mut open = vec![sheet.entry as usize];
    while let Some(block) = open.pop() {
        if !reached[block] {
            reached[block] = true;
            open.extend(sheet.blocks[block].succs.iter().map(|&succ| succ as usize));
        }
    }
    reached
}

/// The blocks that none comes to, in order.
pub fn unreached(sheet: &Sheet) -> Vec<usize> {
    let reached = reached(sheet);
    (0..reached.len()).filter(|block| !reached[*block]).collect()
}

/// The old rule's faults and entry states.
pub fn old_faults(sheet: &Sheet, wrong: Wrong) -> (Vec<Fault>, Vec<State>) {
    let (states, _) = old_run(sheet, wrong);
    let effect = |step: &Step, state: &mut State| old_effect(sheet, step, state, wrong);
    let mut faults = find_faults(sheet, &states, effect, wrong);
    if wrong == Wrong::UnreachedSkipped {
        let reached = reached(sheet);
        faults.retain(|fault| reached[fault.block]);
    }
    (faults, states)
}
