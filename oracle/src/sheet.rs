//! The second reader: a sheet's bytes to its blocks and steps, or the refusal with its line and its field. Written
//! from document 01 and request A4 of document 02, one function for each refusal number.

use crate::plain::Wrong;

pub const SHEET_LIMIT: usize = 65_536;
pub const REGS_LIMIT: u32 = 32;
pub const SLOTS_LIMIT: u32 = 32;
pub const VREGS_LIMIT: u32 = 256;
pub const BLOCKS_LIMIT: u32 = 128;
pub const SUCCS_LIMIT: usize = 8;
pub const OPERANDS_LIMIT: usize = 8;
pub const INST_LIMIT: u32 = 65_535;
pub const STEPS_LIMIT: usize = 1_024;

#[derive(Clone, Copy, Debug, PartialEq, Eq)]
pub enum Name {
    Real(u32),
    Virtual(u32),
}

impl Name {
    pub fn text(self) -> String {
        match self {
            Name::Real(n) => format!("r{}", n),
            Name::Virtual(n) => format!("v{}", n),
        }
    }
}

/// A name and its register; none is the sheet's `-`.
#[derive(Clone, Copy, Debug, PartialEq, Eq)]
pub struct Operand {
    pub name: Name,
    pub reg: Option<u32>,
}

#[derive(Clone, Debug, PartialEq, Eq)]
pub enum Step {
    Spill { slot: u32, reg: u32 },
    Reload { reg: u32, slot: u32 },
    Move { into: u32, from: u32 },
    Change { inst: u32, slot: u32, from: Name, to: Name },
    Op { inst: u32, uses: Vec<Operand>, defs: Vec<Operand> },
    Safepoint { inst: u32, slots: Vec<u32> },
}

impl Step {
    /// The step's inst; only steps that can be faulty have one.
    pub fn inst(&self) -> u32 {
        match *self {
            Step::Change { inst, .. } | Step::Op { inst, .. } | Step::Safepoint { inst, .. } => inst,
            _ => 0,
        }
    }

    /// The inst itself, if the step has one.
    pub fn inst_mut(&mut self) -> Option<&mut u32> {
        match self {
            Step::Change { inst, .. } | Step::Op { inst, .. } | Step::Safepoint { inst, .. } => Some(inst),
            _ => None,
        }
    }
}

#[derive(Clone, Debug, Default, PartialEq, Eq)]
pub struct Block {
    pub succs: Vec<u32>,
    pub steps: Vec<Step>,
}

#[derive(Clone, Debug, Default, PartialEq, Eq)]
pub struct Sheet {
    pub regs: u32,
    pub slots: u32,
    pub vregs: u32,
    pub entry: u32,
    pub reftyped: Vec<u32>,
    pub blocks: Vec<Block>,
}

impl Sheet {
    pub fn is_reftyped(&self, name: Name) -> bool {
        match name {
            Name::Real(_) => false,
            Name::Virtual(n) => self.reftyped.contains(&n),
        }
    }

    /// The sheet's text.
    pub fn text(&self) -> Vec<u8> {
        let mut lines = vec![format!(
            "F {} {} {} {} {}",
            self.regs,
            self.slots,
            self.vregs,
            self.blocks.len(),
            self.entry
        )];
        lines.extend(self.reftyped.iter().map(|n| format!("T {}", n)));
        for block in &self.blocks {
            lines.push(format!("B{}", numbers(&block.succs)));
            lines.extend(block.steps.iter().map(step_text));
        }
        lines.push(String::new());
        lines.join("\n").replace(' ', "\t").into_bytes()
    }
}

fn numbers(list: &[u32]) -> String {
    list.iter().map(|n| format!(" {}", n)).collect()
}

fn operands(list: &[Operand]) -> String {
    let mut text = format!(" {}", list.len());
    for operand in list {
        let reg = operand.reg.map_or("-".to_string(), |n| n.to_string());
        text += &format!(" {} {}", operand.name.text(), reg);
    }
    text
}

/// A step's line with blanks for tabs.
fn step_text(step: &Step) -> String {
    match step {
        Step::Spill { slot, reg } => format!("S {} {}", slot, reg),
        Step::Reload { reg, slot } => format!("L {} {}", reg, slot),
        Step::Move { into, from } => format!("M {} {}", into, from),
        Step::Change { inst, slot, from, to } => {
            format!("C {} {} {} {}", inst, slot, from.text(), to.text())
        }
        Step::Op { inst, uses, defs } => format!("O {}{}{}", inst, operands(uses), operands(defs)),
        Step::Safepoint { inst, slots } => format!("P {}{}", inst, numbers(slots)),
    }
}

/// `field` is the first that shows the fault, the letter being 1; 0 where no field does.
#[derive(Clone, Copy, Debug, PartialEq, Eq)]
pub struct Refusal {
    pub number: u32,
    pub line: usize,
    pub field: usize,
}

/// A line of good form.
enum Record {
    Counts { regs: u32, slots: u32, vregs: u32, blocks: u32, entry: u32 },
    Reftyped(u32),
    Opens(Vec<u32>),
    Step(Step),
}

/// What the lines before have said.
#[derive(Default)]
struct Seen {
    counted: bool,
    blocks: u32,
    steps: usize,
    sheet: Sheet,
}

/// Reads a sheet. `wrong` may ask for a slip of the reader.
pub fn read_with(bytes: &[u8], wrong: Wrong) -> Result<Sheet, Refusal> {
    if bytes.is_empty() || bytes.len() > SHEET_LIMIT || bytes[bytes.len() - 1] != b'\n' {
        return Err(Refusal { number: 2, line: 0, field: 0 });
    }
    let mut seen = Seen::default();
    let mut line = 0;
    for text in bytes[..bytes.len() - 1].split(|&byte| byte == b'\n') {
        line += 1;
        match read_line(text, &seen, wrong) {
            Ok(record) => take(record, &mut seen),
            Err((number, field)) => return Err(Refusal { number, line, field }),
        }
    }
    if (seen.sheet.blocks.len() as u32) < seen.blocks {
        return Err(Refusal { number: 4, line: line + 1, field: 0 });
    }
    Ok(seen.sheet)
}

pub fn read(bytes: &[u8]) -> Result<Sheet, Refusal> {
    read_with(bytes, Wrong::Nothing)
}

/// The fields of a record that show a fault, in their order; of a fault between two fields the later one. None where there is no such
/// fault, and 0 alone for a fault that no field shows.
type Shown = Vec<usize>;

/// The conditions on a line of good form, in their order.
const CONDITIONS: [(u32, fn(&Record, &Seen) -> Shown); 6] = [
    (4, out_of_place),
    (5, beyond_limit),
    (6, repeated_or_not_ascending),
    (7, real_name_elsewhere),
    (8, mixed_change),
    (9, step_too_many),
];

/// A line's record, or the lowest number that applies to it and the first field that shows it.
fn read_line(text: &[u8], seen: &Seen, wrong: Wrong) -> Result<Record, (u32, usize)> {
    let record = form(text).map_err(|field| (3, field))?;
    let mut conditions = CONDITIONS;
    if wrong == Wrong::SwapFiveSix {
        conditions.swap(1, 2);
    }
    for (number, shown) in conditions.iter() {
        let shown = shown(&record, seen);
        let field = if wrong == Wrong::LastField { shown.last() } else { shown.first() };
        if let Some(field) = field {
            return Err((*number, *field));
        }
    }
    Ok(record)
}

/// Of the first bad line: its letter and every number that applies to it. Empty when there is none.
pub fn broken(bytes: &[u8]) -> (String, String) {
    let mut seen = Seen::default();
    for text in bytes.split(|&byte| byte == b'\n') {
        if let Ok(record) = read_line(text, &seen, Wrong::Nothing) {
            take(record, &mut seen);
            continue;
        }
        let letter = String::from_utf8_lossy(&text[..text.len().min(1)]).to_string();
        let numbers: String = match form(text) {
            Err(_) => "3".to_string(),
            Ok(record) => CONDITIONS
                .iter()
                .filter(|(_, shown)| !shown(&record, &seen).is_empty())
                .map(|(number, _)| number.to_string())
                .collect(),
        };
        return (letter, numbers);
    }
    (String::new(), String::new())
}

/// Adds a good line to what was seen.
fn take(record: Record, seen: &mut Seen) {
    match record {
        Record::Counts { regs, slots, vregs, blocks, entry } => {
            seen.counted = true;
            seen.blocks = blocks;
            seen.sheet.regs = regs;
            seen.sheet.slots = slots;
            seen.sheet.vregs = vregs;
            seen.sheet.entry = entry;
        }
        Record::Reftyped(n) => seen.sheet.reftyped.push(n),
        Record::Opens(succs) => seen.sheet.blocks.push(Block { succs, steps: Vec::new() }),
        Record::Step(step) => {
            seen.steps += 1;
            seen.sheet.blocks.last_mut().unwrap().steps.push(step);
        }
    }
}

/// Does an inst fall: is it smaller than the last one before it, over all lines of good form?
pub fn falls(bytes: &[u8]) -> bool {
    let inst = |line: &[u8]| match form(line) {
        Ok(Record::Step(mut step)) => step.inst_mut().copied(),
        _ => None,
    };
    let insts: Vec<u32> = bytes.split(|&byte| byte == b'\n').filter_map(inst).collect();
    insts.windows(2).any(|pair| pair[1] < pair[0])
}

// Refusal 3: the form of a line.

/// The fields of a line one after another. What is bad, missing or too many is told by its number.
struct Fields<'a> {
    list: Vec<&'a [u8]>,
    read: usize,
}

impl<'a> Fields<'a> {
    fn of(text: &'a [u8]) -> Fields<'a> {
        Fields { list: text.split(|&byte| byte == b'\t').collect(), read: 0 }
    }

    fn more(&self) -> bool {
        self.read < self.list.len()
    }

    fn next<T>(&mut self, form: fn(&[u8]) -> Option<T>) -> Result<T, usize> {
        let field = self.list.get(self.read);
        self.read += 1;
        field.and_then(|text| form(text)).ok_or(self.read)
    }

    /// As many numbers as there are, but no more than the most.
    fn numbers(&mut self, most: usize) -> Result<Vec<u32>, usize> {
        let mut list = Vec::new();
        while self.more() && list.len() < most {
            list.push(self.next(number)?);
        }
        Ok(list)
    }

    /// A count, and that many pairs.
    fn operands(&mut self) -> Result<Vec<Operand>, usize> {
        let count = self.next(number)?;
        let mut list = Vec::new();
        for _ in 0..count {
            list.push(Operand { name: self.next(name)?, reg: self.next(allocation)? });
        }
        Ok(list)
    }
}

/// A line's record, or the first field that is bad, missing or too many.
fn form(text: &[u8]) -> Result<Record, usize> {
    let mut fields = Fields::of(text);
    let record = match fields.next(letter)? {
        b'F' => counts(&mut fields)?,
        b'T' => Record::Reftyped(fields.next(number)?),
        b'B' => Record::Opens(fields.numbers(SUCCS_LIMIT)?),
        letter => Record::Step(step(letter, &mut fields)?),
    };
    if fields.more() {
        return Err(fields.read + 1);
    }
    Ok(record)
}

fn counts(fields: &mut Fields) -> Result<Record, usize> {
    Ok(Record::Counts {
        regs: fields.next(number)?,
        slots: fields.next(number)?,
        vregs: fields.next(number)?,
        blocks: fields.next(number)?,
        entry: fields.next(number)?,
    })
}

fn step(letter: u8, fields: &mut Fields) -> Result<Step, usize> {
    Ok(match letter {
        b'S' => Step::Spill { slot: fields.next(number)?, reg: fields.next(number)? },
        b'L' => Step::Reload { reg: fields.next(number)?, slot: fields.next(number)? },
        b'M' => Step::Move { into: fields.next(number)?, from: fields.next(number)? },
        b'C' => Step::Change {
            inst: fields.next(number)?,
            slot: fields.next(number)?,
            from: fields.next(name)?,
            to: fields.next(name)?,
        },
        b'O' => Step::Op { inst: fields.next(number)?, uses: fields.operands()?, defs: fields.operands()? },
        b'P' => Step::Safepoint { inst: fields.next(number)?, slots: fields.numbers(usize::MAX)? },
        _ => return Err(1),
    })
}

fn letter(field: &[u8]) -> Option<u8> {
    match field {
        [letter] => Some(*letter),
        _ => None,
    }
}

pub fn number(field: &[u8]) -> Option<u32> {
    let leading_zero = field.len() > 1 && field[0] == b'0';
    if field.is_empty() || field.len() > 5 || leading_zero {
        return None;
    }
    if !field.iter().all(|byte| byte.is_ascii_digit()) {
        return None;
    }
    std::str::from_utf8(field).ok()?.parse().ok()
}

pub fn name(field: &[u8]) -> Option<Name> {
    match field.first()? {
        b'r' => number(&field[1..]).map(Name::Real),
        b'v' => number(&field[1..]).map(Name::Virtual),
        _ => None,
    }
}

/// A register, or `-`, which is none.
pub fn allocation(field: &[u8]) -> Option<Option<u32>> {
    if field == b"-" {
        Some(None)
    } else {
        number(field).map(Some)
    }
}

// Refusals 4 to 9: a record against the lines before it.

/// A fault that no field shows, where there is one.
fn unplaced(holds: bool) -> Shown {
    vec![0; holds as usize]
}

/// Which of the fields behind the letter are bad, by their numbers.
fn placed(bad: &[bool]) -> Shown {
    (0..bad.len()).filter(|&at| bad[at]).map(|at| at + 2).collect()
}

fn out_of_place(record: &Record, seen: &Seen) -> Shown {
    let opened = seen.sheet.blocks.len() as u32;
    unplaced(match record {
        Record::Counts { .. } => seen.counted,
        Record::Reftyped(_) => !seen.counted || opened > 0,
        Record::Opens(_) => !seen.counted || opened == seen.blocks,
        Record::Step(_) => !seen.counted || opened == 0,
    })
}

fn beyond_limit(record: &Record, seen: &Seen) -> Shown {
    match record {
        Record::Counts { regs, slots, vregs, blocks, entry } => placed(&[
            *regs > REGS_LIMIT,
            *slots > SLOTS_LIMIT,
            *vregs > VREGS_LIMIT,
            *blocks < 1 || *blocks > BLOCKS_LIMIT,
            entry >= blocks,
        ]),
        Record::Reftyped(n) => placed(&[*n >= seen.sheet.vregs]),
        Record::Opens(succs) => placed(&succs.iter().map(|succ| *succ >= seen.blocks).collect::<Vec<_>>()),
        Record::Step(step) => step_beyond_limit(step, &seen.sheet),
    }
}

fn step_beyond_limit(step: &Step, sheet: &Sheet) -> Shown {
    let bad_inst = |inst: u32| inst > INST_LIMIT;
    let bad_reg = |reg: u32| reg >= sheet.regs;
    let bad_slot = |slot: u32| slot >= sheet.slots;
    let bad_name = |name: Name| match name {
        Name::Real(n) => n >= sheet.regs,
        Name::Virtual(n) => n >= sheet.vregs,
    };
    let bad_pair = |o: &Operand| [bad_name(o.name), o.reg.map_or(false, bad_reg)];
    match step {
        Step::Spill { slot, reg } => placed(&[bad_slot(*slot), bad_reg(*reg)]),
        Step::Reload { reg, slot } => placed(&[bad_reg(*reg), bad_slot(*slot)]),
        Step::Move { into, from } => placed(&[bad_reg(*into), bad_reg(*from)]),
        Step::Change { inst, slot, from, to } => {
            placed(&[bad_inst(*inst), bad_slot(*slot), bad_name(*from), bad_name(*to)])
        }
        Step::Op { inst, uses, defs } => {
            let mut bad = vec![bad_inst(*inst)];
            for list in &[uses, defs] {
                bad.push(list.len() > OPERANDS_LIMIT);
                bad.extend(list.iter().flat_map(|o| bad_pair(o)));
            }
            placed(&bad)
        }
        Step::Safepoint { inst, slots } => {
            let mut bad = vec![bad_inst(*inst)];
            bad.extend(slots.iter().map(|slot| bad_slot(*slot)));
            placed(&bad)
        }
    }
}

fn repeated_or_not_ascending(record: &Record, seen: &Seen) -> Shown {
    match record {
        Record::Reftyped(n) => placed(&[seen.sheet.reftyped.last().map_or(false, |last| n <= last)]),
        Record::Step(Step::Safepoint { slots, .. }) => {
            let mut bad = vec![false];
            bad.extend((0..slots.len()).map(|i| i > 0 && slots[i] <= slots[i - 1]));
            placed(&bad)
        }
        Record::Step(Step::Op { uses, defs, .. }) => {
            let mut bad = vec![false, false];
            for (i, o) in uses.iter().enumerate() {
                bad.extend([uses[..i].iter().any(|before| before.name == o.name), false]);
            }
            bad.push(false);
            for (i, o) in defs.iter().enumerate() {
                bad.push(defs[..i].iter().any(|before| before.name == o.name));
                bad.push(o.reg.is_some() && defs[..i].iter().any(|before| before.reg == o.reg));
            }
            placed(&bad)
        }
        _ => Vec::new(),
    }
}

fn real_name_elsewhere(record: &Record, _seen: &Seen) -> Shown {
    let elsewhere = |o: &Operand| match o.name {
        Name::Real(n) => o.reg != Some(n),
        Name::Virtual(_) => false,
    };
    match record {
        Record::Step(Step::Op { uses, defs, .. }) => {
            let mut bad = vec![false];
            for list in &[uses, defs] {
                bad.push(false);
                bad.extend(list.iter().flat_map(|o| [false, elsewhere(o)]));
            }
            placed(&bad)
        }
        _ => Vec::new(),
    }
}

fn mixed_change(record: &Record, seen: &Seen) -> Shown {
    match record {
        Record::Step(Step::Change { from, to, .. }) => {
            let mixed = seen.sheet.is_reftyped(*from) != seen.sheet.is_reftyped(*to);
            placed(&[false, false, false, mixed])
        }
        _ => Vec::new(),
    }
}

fn step_too_many(record: &Record, seen: &Seen) -> Shown {
    unplaced(match record {
        Record::Step(_) => seen.steps == STEPS_LIMIT,
        _ => false,
    })
}
