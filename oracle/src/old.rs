//! The oracle of the old rule: hands a sheet to the Rust checker and reads its errors and its entry
//! states from their Debug text. Each step has an inst number of its own, by which its faults are
//! placed and sorted.

use crate::checker::{Checker, CheckerErrors, Inst};
use crate::data_structures::{
    BlockIx, InstIx, RealReg, RealRegUniverse, Reg, RegSets, Set, SpillSlot, VirtualReg, Writable,
};
use crate::plain::{Cell, State};
use crate::report::Fault;
use crate::sheet::{Name, Operand, Sheet, Step};
use crate::stand_ins::{start_log, take_log};
use crate::{Function, RegUsageMapper};

/// What the Rust says of a sheet.
pub struct Outcome {
    pub faults: Vec<Fault>,
    /// None when an allocation is missing, or when they were not asked for.
    pub states: Option<Vec<State>>,
    pub visits: usize,
    pub missing: bool,
}

struct Graph<'a>(&'a Sheet);

impl<'a> Function for Graph<'a> {
    type Inst = ();
    fn blocks(&self) -> Vec<BlockIx> {
        (0..self.0.blocks.len()).map(|block| BlockIx::new(block as u32)).collect()
    }
    fn block_succs(&self, block: BlockIx) -> Vec<BlockIx> {
        let succs = &self.0.blocks[block.get() as usize].succs;
        succs.iter().map(|succ| BlockIx::new(*succ)).collect()
    }
    fn entry_block(&self) -> BlockIx {
        BlockIx::new(self.0.entry)
    }
    fn get_insn(&self, _inst: InstIx) -> &() {
        &()
    }
}

/// The allocation of one operation, as its operands state it.
#[derive(Debug)]
struct Mapper<'a> {
    uses: &'a [Operand],
    defs: &'a [Operand],
}

fn look_up(list: &[Operand], vreg: VirtualReg) -> Option<RealReg> {
    let operand = list.iter().find(|o| o.name.is_virtual_reg(vreg))?;
    operand.reg.map(real)
}

impl<'a> RegUsageMapper for Mapper<'a> {
    fn get_use(&self, vreg: VirtualReg) -> Option<RealReg> {
        look_up(self.uses, vreg)
    }
    fn get_def(&self, vreg: VirtualReg) -> Option<RealReg> {
        look_up(self.defs, vreg)
    }
}

impl Name {
    fn reg(self) -> Reg {
        match self {
            Name::Real(n) => Reg::Real(n),
            Name::Virtual(n) => Reg::Virtual(n),
        }
    }
    fn is_virtual_reg(self, vreg: VirtualReg) -> bool {
        self.reg().is_virtual() && self.reg().to_virtual_reg() == vreg
    }
}

fn real(n: u32) -> RealReg {
    Reg::Real(n).to_real_reg()
}

fn reg_sets(uses: &[Operand], defs: &[Operand]) -> RegSets {
    let set = |list: &[Operand]| {
        let mut set = Set::empty();
        for operand in list {
            set.insert(operand.name.reg());
        }
        set
    };
    RegSets { uses: set(uses), defs: set(defs), mods: Set::empty() }
}

/// Hands one step to the Rust under its own inst number.
fn add(
    checker: &mut Checker,
    block: BlockIx,
    number: InstIx,
    step: &Step,
) -> Result<(), CheckerErrors> {
    let inst = match step {
        Step::Op { uses, defs, .. } => {
            return checker.add_op(block, number, &reg_sets(uses, defs), &Mapper { uses, defs });
        }
        Step::Spill { slot, reg } => Inst::Spill { into: SpillSlot::new(*slot), from: real(*reg) },
        Step::Reload { reg, slot } => Inst::Reload {
            into: Writable::from_reg(real(*reg)),
            from: SpillSlot::new(*slot),
        },
        Step::Move { into, from } => Inst::Move {
            into: Writable::from_reg(real(*into)),
            from: real(*from),
        },
        Step::Change { slot, from, to, .. } => Inst::ChangeSpillSlotOwnership {
            inst_ix: number,
            slot: SpillSlot::new(*slot),
            from_reg: from.reg(),
            to_reg: to.reg(),
        },
        Step::Safepoint { slots, .. } => Inst::Safepoint {
            inst_ix: number,
            slots: slots.iter().map(|slot| SpillSlot::new(*slot)).collect(),
        },
    };
    checker.add_inst(block, inst);
    Ok(())
}

/// Where a step stands: its block, its place there, and its inst.
pub type Place = (usize, usize, u32);

/// A sheet handed to the Rust, not yet run, and the place of each step by the number that it was given.
pub(crate) struct Built {
    pub checker: Checker,
    pub places: Vec<Place>,
}

/// Hands a read sheet to the Rust; the faults are those of a missing allocation.
pub(crate) fn build(sheet: &Sheet) -> Result<Built, Vec<Fault>> {
    let universe = RealRegUniverse { regs: (0..sheet.regs).map(|n| (real(n), ())).collect() };
    let reftyped: Vec<VirtualReg> =
        sheet.reftyped.iter().map(|n| Reg::Virtual(*n).to_virtual_reg()).collect();
    let mut checker = Checker::new(&Graph(sheet), &universe, &reftyped);
    let mut places = Vec::new();
    for (block, b) in sheet.blocks.iter().enumerate() {
        for (place, step) in b.steps.iter().enumerate() {
            let number = InstIx::new(places.len() as u32);
            places.push((block, place, step.inst()));
            if let Err(errors) = add(&mut checker, BlockIx::new(block as u32), number, step) {
                // An unrun checker panics when it is dropped.
                std::mem::forget(checker);
                return Err(faults(&errors, &places));
            }
        }
    }
    Ok(Built { checker, places })
}

/// Runs the Rust on a read sheet.
pub fn check(sheet: &Sheet, want_states: bool) -> Outcome {
    let Built { checker, places } = match build(sheet) {
        Ok(built) => built,
        Err(faults) => return Outcome { faults, states: None, visits: 0, missing: true },
    };
    if want_states {
        start_log();
    }
    let result = checker.run();
    let log = take_log();
    let mut faults = match result {
        Ok(()) => Vec::new(),
        Err(errors) => faults(&errors, &places),
    };
    faults.sort_by_key(|fault| (fault.block, fault.place));
    let states = if want_states { Some(states(sheet, &log)) } else { None };
    let visits = log.iter().filter(|message| message.contains(" has state ")).count();
    Outcome { faults, states, visits, missing: false }
}

/// Reads the errors from their Debug text.
fn faults(errors: &CheckerErrors, places: &[Place]) -> Vec<Fault> {
    let text = format!("{:?}", errors);
    let list = text.trim_start_matches("CheckerErrors { errors: [").trim_end_matches(" }] }");
    list.split(" }, ").map(|error| fault(error, places)).collect()
}

/// One error, `Kind { field: value, .. `.
fn fault(error: &str, places: &[Place]) -> Fault {
    let parts: Vec<&str> = error.split(" { ").collect();
    let field = |wanted: &str| {
        parts[1].split(", ").find_map(|field| {
            let pair: Vec<&str> = field.split(": ").collect();
            if pair[0] == wanted {
                Some(pair[1].to_string())
            } else {
                None
            }
        })
    };
    let kind = match parts[0] {
        "MissingAllocationForReg" => 1,
        "UnknownValueInReg" => 2,
        "IncorrectValueInReg" => 3,
        "UnknownValueInSlot" => 4,
        "IncorrectValueInSlot" => 5,
        "StackMapSpecifiesNonRefSlot" => 6,
        "StackMapSpecifiesUndefinedSlot" => 7,
        other => panic!("unknown error {}", other),
    };
    let number: usize = field("inst").unwrap().parse().unwrap();
    let (block, place, inst) = places[number];
    let or_nothing = |value: Option<String>| value.unwrap_or_else(|| "-".to_string());
    Fault {
        block,
        place,
        inst,
        kind,
        at: or_nothing(field("real_reg").or_else(|| field("slot"))),
        expected: or_nothing(field("expected").or_else(|| field("reg"))),
        actual: or_nothing(field("actual")),
    }
}

/// The entry states at the end: of each block the last one that the log tells, or the first one that
/// it was run with, or all Absent.
fn states(sheet: &Sheet, log: &[String]) -> Vec<State> {
    let mut texts: Vec<Option<&str>> = vec![None; sheet.blocks.len()];
    for message in log {
        let rest = message.trim_start_matches("analyze: block ");
        let block: usize = rest.split(' ').next().unwrap().parse().unwrap();
        if let Some(at) = rest.find("} to CheckerState ") {
            texts[block] = Some(&rest[at..]);
        } else if texts[block].is_none() {
            texts[block] = Some(rest);
        }
    }
    texts
        .iter()
        .map(|text| match text {
            Some(text) => state(sheet, text),
            None => State::filled(sheet, Cell::Absent),
        })
        .collect()
}

/// Reads `CheckerState { reg_values: {..}, spill_slots: {..} }`.
fn state(sheet: &Sheet, text: &str) -> State {
    let slots_at = text.find("spill_slots: ").unwrap();
    let row = |letter: char, count: u32, text: &str| {
        (0..count).map(|i| cell(text, &format!("{}{}: ", letter, i))).collect()
    };
    State {
        regs: row('r', sheet.regs, &text[..slots_at]),
        slots: row('s', sheet.slots, &text[slots_at..]),
    }
}

fn cell(row: &str, key: &str) -> Cell {
    let found = row.find(&format!("{{{}", key)).or_else(|| row.find(&format!(" {}", key)));
    let value = match found {
        Some(at) => &row[at + 1 + key.len()..],
        None => return Cell::Absent,
    };
    if value.starts_with("Unknown") {
        return Cell::Unknown;
    }
    if value.starts_with("Conflicted") {
        return Cell::Conflicted;
    }
    let inside = value.trim_start_matches("Reg(").split(')').next().unwrap();
    let pair: Vec<&str> = inside.split(", ").collect();
    let n: u32 = pair[0][1..].parse().unwrap();
    let name = if pair[0].starts_with('r') { Name::Real(n) } else { Name::Virtual(n) };
    Cell::Holds(name, pair[1] == "true")
}
