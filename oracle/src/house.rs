//! A plain second implementation of the house rule, from document 01. It sweeps over the blocks until
//! nothing changes: the meet over walks does not depend on the order.

use crate::plain::{find_faults, forget_marked, meet_states, Cell, State, Wrong};
use crate::report::Fault;
use crate::sheet::{Name, Sheet, Step};
use std::collections::VecDeque;

fn meet(a: Cell, b: Cell, wrong: Wrong) -> Cell {
    match (a, b) {
        (Cell::Unknown, other) | (other, Cell::Unknown) if wrong == Wrong::UnknownNeutral => other,
        (Cell::Unknown, _) | (_, Cell::Unknown) => Cell::Unknown,
        (Cell::Conflicted, _) | (_, Cell::Conflicted) => Cell::Conflicted,
        (Cell::Holds(x, m), Cell::Holds(y, n)) if x == y => Cell::Holds(x, m || n),
        _ => Cell::Conflicted,
    }
}

/// Every cell that holds the name becomes the given cell.
fn make_stale(state: &mut State, name: Name, becomes: Cell) {
    for cell in state.cells_mut() {
        if let Cell::Holds(held, _) = *cell {
            if held == name {
                *cell = becomes;
            }
        }
    }
}

/// The house rule's effect of a step.
pub fn house_effect(sheet: &Sheet, step: &Step, state: &mut State, wrong: Wrong) {
    let stale = if wrong == Wrong::StaleUnknown { Cell::Unknown } else { Cell::Conflicted };
    match step {
        Step::Spill { slot, reg } => state.slots[*slot as usize] = state.regs[*reg as usize],
        Step::Reload { reg, slot } => state.regs[*reg as usize] = state.slots[*slot as usize],
        Step::Move { into, from } => state.regs[*into as usize] = state.regs[*from as usize],
        Step::Op { defs, .. } => {
            for def in defs {
                make_stale(state, def.name, stale);
                let mark = sheet.is_reftyped(def.name);
                state.regs[def.reg.unwrap() as usize] = Cell::Holds(def.name, mark);
            }
        }
        Step::Change { slot, from, to, .. } => {
            let held = state.slots[*slot as usize];
            make_stale(state, *to, stale);
            state.slots[*slot as usize] = match held {
                Cell::Holds(name, mark) if name == *from => Cell::Holds(*to, mark),
                Cell::Holds(_, _) => stale,
                other => other,
            };
        }
        Step::Safepoint { slots, .. } => forget_marked(state, slots, stale),
    }
}

/// A state comes to a block: does it change the block's own?
fn offered(state: &mut Option<State>, out: &State, wrong: Wrong) -> bool {
    let met = match state {
        Some(state) => meet_states(state, out, |a, b| meet(a, b, wrong)),
        None => out.clone(),
    };
    let changed = state.as_ref() != Some(&met);
    *state = Some(met);
    changed
}

/// Each block's entry state, none for a block that no walk comes to.
fn run(sheet: &Sheet, wrong: Wrong) -> Vec<Option<State>> {
    let mut states: Vec<Option<State>> = vec![None; sheet.blocks.len()];
    states[sheet.entry as usize] = Some(State::entry(sheet, Cell::Unknown));
    let mut changed = true;
    while changed {
        changed = false;
        for block in 0..sheet.blocks.len() {
            let mut out = match &states[block] {
                Some(state) => state.clone(),
                None => continue,
            };
            for step in &sheet.blocks[block].steps {
                house_effect(sheet, step, &mut out, wrong);
            }
            for &succ in &sheet.blocks[block].succs {
                changed |= offered(&mut states[succ as usize], &out, wrong);
            }
        }
    }
    states
}

/// How many blocks document 01's house run visits.
pub fn visits(sheet: &Sheet) -> usize {
    let mut states: Vec<Option<State>> = vec![None; sheet.blocks.len()];
    states[sheet.entry as usize] = Some(State::entry(sheet, Cell::Unknown));
    let mut queue = VecDeque::new();
    queue.push_back(sheet.entry as usize);
    let mut visits = 0;
    while let Some(block) = queue.pop_front() {
        visits += 1;
        let mut out = states[block].clone().unwrap();
        for step in &sheet.blocks[block].steps {
            house_effect(sheet, step, &mut out, Wrong::Nothing);
        }
        for &succ in &sheet.blocks[block].succs {
            if offered(&mut states[succ as usize], &out, Wrong::Nothing) {
                queue.push_back(succ as usize);
            }
        }
    }
    visits
}

/// The house rule's faults, and the entry states with their visited marks. A block that no walk comes to is not checked.
pub fn house_faults(sheet: &Sheet, wrong: Wrong) -> (Vec<Fault>, Vec<(bool, State)>) {
    let states: Vec<(bool, State)> = run(sheet, wrong)
        .into_iter()
        .map(|state| match state {
            Some(state) => (true, state),
            None => (false, State::filled(sheet, Cell::Unknown)),
        })
        .collect();
    let entry_states: Vec<State> = states.iter().map(|(_, state)| state.clone()).collect();
    let effect = |step: &Step, state: &mut State| house_effect(sheet, step, state, wrong);
    let mut faults = find_faults(sheet, &entry_states, effect, wrong);
    if wrong != Wrong::UnreachedChecked {
        faults.retain(|fault| states[fault.block].0);
    }
    (faults, states)
}

/// The blocks that the house report names, where no allocation is missing: those that were not visited.
pub fn named(sheet: &Sheet, states: &[(bool, State)], wrong: Wrong) -> Vec<usize> {
    let all = |block: &usize| wrong != Wrong::EmptyUnnamed || !sheet.blocks[*block].steps.is_empty();
    match wrong {
        Wrong::UnreachedChecked => Vec::new(),
        _ => (0..states.len()).filter(|block| !states[*block].0).filter(all).collect(),
    }
}
