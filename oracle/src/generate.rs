//! The generator of well-formed sheets: small, tangled, knotted, ordered, large, allocated, repaired, allocated with one wrong step, with
//! many unreached blocks, and with many blocks. While it writes steps it keeps a guess of the cells, so that checks often pass.

use crate::columns::columns;
use crate::damage;
use crate::house::{house_effect, house_faults};
use crate::plain::{old_effect, old_faults, Cell, State, Wrong};
use crate::random::Random;
use crate::report::Fault;
use crate::sheet::{
    read, Block, Name, Operand, Sheet, Step, BLOCKS_LIMIT, INST_LIMIT, OPERANDS_LIMIT, REGS_LIMIT, SLOTS_LIMIT, STEPS_LIMIT, SUCCS_LIMIT, VREGS_LIMIT,
};

pub const KINDS: [&str; 14] = [
    "small", "tangled", "knotted", "ordered", "large", "allocated", "repaired", "wrong-step",
    "limits", "damaged", "several", "columns", "unreached",
    "many",
];
const WEIGHTS: [usize; 14] = [210, 78, 88, 70, 4, 53, 70, 79, 38, 100, 100, 110, 220, 110];

/// The sheet of a seed and an index, with its kind.
pub fn generate(seed: u64, index: u64) -> (usize, Vec<u8>) {
    let random = &mut Random::of(seed, index);
    let kind = random.weighted(&WEIGHTS);
    let sheet = match KINDS[kind] {
        "small" => small(random),
        "tangled" => tangled(random),
        "knotted" => knotted(random),
        "ordered" => ordered(random),
        "large" => large(random),
        "allocated" => allocated(random),
        "repaired" => repaired(random),
        "wrong-step" => wrong_step(random),
        "unreached" => unreached(random),
        "many" => many(random),
        "limits" => return (kind, damage::limits(random)),
        "damaged" => return (kind, damage::damaged(random)),
        "several" => return (kind, damage::several(random)),
        _ => return (kind, columns(random)),
    };
    (kind, numbered(random, sheet).text())
}

/// The sheet with its insts numbered anew: in eighteen of twenty sheets they never fall, in one they fall once, and one keeps those
/// that it has, which mostly fall. The choices come from a copy of the source, which goes on as if there were none.
pub fn numbered(random: &Random, mut sheet: Sheet) -> Sheet {
    let random = &mut random.clone();
    let way = random.below(20);
    if way > 0 {
        let first = any_inst(random);
        rise(random, &mut sheet, first, true);
    }
    if way == 1 {
        fall_once(random, &mut sheet);
    }
    sheet
}

fn insts(sheet: &mut Sheet) -> Vec<&mut u32> {
    sheet.blocks.iter_mut().flat_map(|block| &mut block.steps).filter_map(Step::inst_mut).collect()
}

/// Insts from a first one on, which rise by a little, stay at times and, where asked, now and then leap.
fn rise(random: &mut Random, sheet: &mut Sheet, first: u32, leaps: bool) {
    let mut next = first;
    for inst in insts(sheet) {
        *inst = next;
        next = match random.below(40) {
            0 if leaps => random.within(next as usize, INST_LIMIT as usize) as u32,
            1..=8 => next,
            _ => INST_LIMIT.min(next + 1 + random.number(3)),
        };
    }
}

/// Lowers the insts from one place on, so that the first of them falls by a little.
fn fall_once(random: &mut Random, sheet: &mut Sheet) {
    let mut insts = insts(sheet);
    let places: Vec<usize> = (1..insts.len()).filter(|at| *insts[at - 1] > 0).collect();
    if places.is_empty() {
        return;
    }
    let at = *random.pick(&places);
    let least = *insts[at - 1] - 1;
    let less = *insts[at] - least.saturating_sub(*random.pick(&[0, 0, 1, 7]));
    for inst in &mut insts[at..] {
        **inst -= less;
    }
}

/// How the steps of a sheet are chosen.
struct Shape {
    /// Weights of `O`, `S`, `L`, `M`, `C`, `P`.
    letters: [usize; 6],
    /// Most steps in a block.
    steps: usize,
    /// Most operands in a list.
    operands: usize,
    /// Percent of choices that follow the guess.
    follow: usize,
    /// Percent of virtual operands without a register.
    missing: usize,
}

pub fn small(random: &mut Random) -> Sheet {
    let mut sheet = Sheet {
        regs: random.weighted(&[4, 20, 30, 26, 20]) as u32,
        slots: random.weighted(&[12, 40, 30, 18]) as u32,
        vregs: random.weighted(&[4, 20, 26, 26, 14, 10]) as u32,
        ..Sheet::default()
    };
    choose_reftyped(random, &mut sheet);
    let blocks = random.within(1, 6);
    graph(random, &mut sheet, blocks, &[15, 40, 33, 12]);
    let missing = if random.percent(6) { 15 } else { 0 };
    let shape = Shape {
        letters: [34, 20, 12, 8, 12, 14],
        steps: 5,
        operands: if random.percent(10) { OPERANDS_LIMIT } else { 2 },
        follow: *random.pick(&[30, 60, 85, 95]),
        missing,
    };
    fill(random, &mut sheet, &shape);
    sheet
}

/// The least and the most of each count of a sheet, the weights of 0, 1, .. successors, and how much a
/// block does at most.
struct Size {
    regs: (usize, usize),
    slots: (usize, usize),
    names: (usize, usize),
    blocks: (usize, usize),
    succs: &'static [usize],
    acts: usize,
}

const TANGLED: Size = Size {
    regs: (0, 3),
    slots: (1, 3),
    names: (1, 4),
    blocks: (2, 10),
    succs: &[4, 16, 36, 24, 12, 8],
    acts: 1,
};

/// More than half as many blocks as there may be.
pub const MANY: (usize, usize) = (BLOCKS_LIMIT as usize / 2 + 1, BLOCKS_LIMIT as usize);

/// The names are as many as their home slots.
const ALLOCATED: Size = Size {
    regs: (1, 5),
    slots: (1, 6),
    names: (1, 6),
    blocks: (1, 8),
    succs: &[10, 40, 35, 15],
    acts: 6,
};

/// The functions that bench/ times, but for their successors.
const TIMED: Size = Size {
    regs: (8, REGS_LIMIT as usize),
    slots: (8, SLOTS_LIMIT as usize),
    names: (8, 64),
    blocks: (60, BLOCKS_LIMIT as usize),
    succs: &[3, 40, 45, 12],
    acts: 8,
};

fn some(random: &mut Random, (low, high): (usize, usize)) -> usize {
    random.within(low, high)
}

/// Dense graphs, few cells, many ownership changes and safepoints.
pub fn tangled(random: &mut Random) -> Sheet {
    tangled_of(random, &TANGLED)
}

fn tangled_of(random: &mut Random, size: &Size) -> Sheet {
    let mut sheet = Sheet {
        regs: some(random, size.regs) as u32,
        slots: some(random, size.slots) as u32,
        vregs: some(random, size.names) as u32,
        ..Sheet::default()
    };
    choose_reftyped(random, &mut sheet);
    let blocks = some(random, size.blocks);
    graph(random, &mut sheet, blocks, size.succs);
    let shape = Shape {
        letters: *random.pick(&[[12, 16, 10, 6, 36, 20], [20, 20, 14, 6, 20, 20]]),
        steps: *random.pick(&[1, 2, 3]) * size.acts,
        operands: 2,
        follow: *random.pick(&[20, 50, 80]),
        missing: 0,
    };
    fill(random, &mut sheet, &shape);
    sheet
}

/// Many blocks: as tangled or as knotted, or a correct allocation, with or without a wrong step.
pub fn many(random: &mut Random) -> Sheet {
    match random.below(5) {
        0 | 1 => tangled_of(random, &Size { blocks: MANY, ..TANGLED }),
        2 => knotted_of(random, MANY),
        3 => allocated_of(random, &Size { blocks: MANY, ..ALLOCATED }),
        _ => {
            let sheet = allocated_of(random, &Size { blocks: MANY, ..ALLOCATED });
            changed(random, sheet)
        }
    }
}

/// Blocks of short phrases on one or two slots: names are set marked and unmarked, passed on, copied,
/// forgotten and asked for, so that what a block hands on depends on when it is visited.
pub fn knotted(random: &mut Random) -> Sheet {
    knotted_of(random, (3, 11))
}

fn knotted_of(random: &mut Random, blocks: (usize, usize)) -> Sheet {
    let mut sheet = Sheet {
        regs: random.weighted(&[0, 70, 30]) as u32,
        slots: random.weighted(&[0, 70, 30]) as u32,
        vregs: random.within(1, 3) as u32,
        ..Sheet::default()
    };
    let chance = *random.pick(&[60, 100, 100]);
    sheet.reftyped = (0..sheet.vregs).filter(|_| random.percent(chance)).collect();
    let blocks = some(random, blocks);
    graph(random, &mut sheet, blocks, &[1, 20, 42, 25, 10, 2]);
    let asked = *random.pick(&[20, 50]);
    for block in 0..blocks {
        let mut steps = Vec::new();
        if random.percent(asked) {
            let slot = random.number(sheet.slots);
            steps.push(Step::Safepoint { inst: any_inst(random), slots: vec![slot] });
        }
        for _ in 0..*random.pick(&[0, 1, 1, 1, 2]) {
            phrase(random, &sheet, &mut steps);
        }
        sheet.blocks[block].steps = steps;
    }
    sheet
}

/// A knotted sheet whose old report changes with the order of the run, if one is found soon.
pub fn ordered(random: &mut Random) -> Sheet {
    let (order, tries) = *random.pick(&[
        (Wrong::LastIn, 40),
        (Wrong::LastIn, 40),
        (Wrong::Backwards, 80),
        (Wrong::Recomputed, 120),
        (Wrong::NotTwice, 120),
    ]);
    let mut sheet = knotted(random);
    for _ in 0..tries {
        if old_faults(&sheet, order).0 != old_faults(&sheet, Wrong::Nothing).0 {
            break;
        }
        sheet = knotted(random);
    }
    sheet
}

fn phrase(random: &mut Random, sheet: &Sheet, steps: &mut Vec<Step>) {
    let inst = any_inst(random);
    let reg = random.number(sheet.regs);
    let slot = random.number(sheet.slots);
    let name = Name::Virtual(random.number(sheet.vregs));
    let other = Name::Virtual(random.number(sheet.vregs));
    let to = if sheet.is_reftyped(name) == sheet.is_reftyped(other) { other } else { name };
    let operand = Operand { name, reg: Some(reg) };
    match random.below(10) {
        0 | 1 => {
            steps.push(Step::Op { inst, uses: Vec::new(), defs: vec![operand] });
            steps.push(Step::Spill { slot, reg });
        }
        2..=5 => steps.push(Step::Change { inst, slot, from: name, to }),
        6 | 7 => steps.push(Step::Safepoint { inst, slots: Vec::new() }),
        8 => {
            steps.push(Step::Reload { reg, slot });
            steps.push(Step::Op { inst, uses: vec![operand], defs: Vec::new() });
        }
        _ => {
            steps.push(Step::Reload { reg, slot });
            steps.push(Step::Spill { slot: random.number(sheet.slots), reg });
        }
    }
}

pub fn large(random: &mut Random) -> Sheet {
    let mut sheet = Sheet {
        regs: random.within(8, REGS_LIMIT as usize) as u32,
        slots: random.within(8, SLOTS_LIMIT as usize) as u32,
        vregs: random.within(32, VREGS_LIMIT as usize) as u32,
        ..Sheet::default()
    };
    choose_reftyped(random, &mut sheet);
    let blocks = random.within(16, BLOCKS_LIMIT as usize);
    graph(random, &mut sheet, blocks, &[5, 30, 40, 15, 4, 2, 2, 1, 1]);
    let shape = Shape {
        letters: [40, 14, 14, 10, 12, 10],
        steps: 24,
        operands: OPERANDS_LIMIT,
        follow: *random.pick(&[50, 90]),
        missing: 0,
    };
    fill(random, &mut sheet, &shape);
    sheet
}

fn choose_reftyped(random: &mut Random, sheet: &mut Sheet) {
    let chance = *random.pick(&[0, 50, 50, 80, 100]);
    sheet.reftyped = (0..sheet.vregs).filter(|_| random.percent(chance)).collect();
}

/// Blocks with successors: how many by weight, where to at random, the next block preferred.
fn graph(random: &mut Random, sheet: &mut Sheet, blocks: usize, counts: &[usize]) {
    for block in 0..blocks {
        let mut succs = Vec::new();
        for place in 0..random.weighted(counts) {
            let next = place == 0 && block + 1 < blocks && random.percent(60);
            succs.push(if next { block + 1 } else { random.below(blocks) } as u32);
        }
        sheet.blocks.push(Block { succs, steps: Vec::new() });
    }
    sheet.entry = if random.percent(75) { 0 } else { random.number(blocks as u32) };
}

fn fill(random: &mut Random, sheet: &mut Sheet, shape: &Shape) {
    let house = random.percent(60);
    let mut guess = State::entry(sheet, Cell::Unknown);
    let mut total = 0;
    for block in 0..sheet.blocks.len() {
        if random.percent(15) {
            guess = State::entry(sheet, Cell::Unknown);
        }
        for _ in 0..random.within(0, shape.steps) {
            if total == STEPS_LIMIT {
                return;
            }
            let step = any_step(random, sheet, shape, &guess);
            if no_missing(&step) && house {
                house_effect(sheet, &step, &mut guess, Wrong::Nothing);
            } else if no_missing(&step) {
                old_effect(sheet, &step, &mut guess, Wrong::Nothing);
            }
            sheet.blocks[block].steps.push(step);
            total += 1;
        }
    }
}

fn no_missing(step: &Step) -> bool {
    match step {
        Step::Op { uses, defs, .. } => uses.iter().chain(defs).all(|o| o.reg.is_some()),
        _ => true,
    }
}

fn any_step(random: &mut Random, sheet: &Sheet, shape: &Shape, guess: &State) -> Step {
    let inst = any_inst(random);
    let no_regs = sheet.regs == 0;
    let no_slots = sheet.slots == 0;
    match random.weighted(&shape.letters) {
        1 if !no_regs && !no_slots => Step::Spill {
            slot: random.number(sheet.slots),
            reg: random.number(sheet.regs),
        },
        2 if !no_regs && !no_slots => Step::Reload {
            reg: random.number(sheet.regs),
            slot: random.number(sheet.slots),
        },
        3 if !no_regs => Step::Move {
            into: random.number(sheet.regs),
            from: random.number(sheet.regs),
        },
        4 if !no_slots && (!no_regs || sheet.vregs > 0) => {
            change(random, sheet, shape, guess, inst)
        }
        5 => safepoint(random, sheet, shape, guess, inst),
        _ => Step::Op {
            inst,
            uses: use_list(random, sheet, shape, guess),
            defs: def_list(random, sheet, shape),
        },
    }
}

pub fn any_inst(random: &mut Random) -> u32 {
    match random.below(12) {
        0 => random.number(INST_LIMIT + 1),
        1 => INST_LIMIT,
        _ => random.number(30),
    }
}

/// A name within the counts, of which there must be one.
pub fn any_name(random: &mut Random, sheet: &Sheet) -> Name {
    if sheet.regs == 0 || (sheet.vregs > 0 && random.percent(85)) {
        Name::Virtual(random.number(sheet.vregs))
    } else {
        Name::Real(random.number(sheet.regs))
    }
}

fn use_list(random: &mut Random, sheet: &Sheet, shape: &Shape, guess: &State) -> Vec<Operand> {
    let mut list: Vec<Operand> = Vec::new();
    if sheet.regs == 0 && sheet.vregs == 0 {
        return list;
    }
    for _ in 0..random.within(0, shape.operands) {
        let mut operand = any_operand(random, sheet, shape);
        if sheet.regs > 0 && operand.reg.is_some() && random.percent(shape.follow) {
            let reg = random.number(sheet.regs);
            match guess.regs[reg as usize] {
                Cell::Holds(Name::Real(n), _) if n != reg => {}
                Cell::Holds(name, _) => operand = Operand { name, reg: Some(reg) },
                _ => continue,
            }
        }
        if list.iter().all(|o| o.name != operand.name) {
            list.push(operand);
        }
    }
    list
}

fn def_list(random: &mut Random, sheet: &Sheet, shape: &Shape) -> Vec<Operand> {
    let mut list: Vec<Operand> = Vec::new();
    if sheet.regs == 0 && sheet.vregs == 0 {
        return list;
    }
    for _ in 0..random.within(0, shape.operands) {
        let operand = any_operand(random, sheet, shape);
        let fresh = |o: &Operand| {
            o.name != operand.name && (o.reg.is_none() || o.reg != operand.reg)
        };
        if list.iter().all(fresh) {
            list.push(operand);
        }
    }
    list
}

fn any_operand(random: &mut Random, sheet: &Sheet, shape: &Shape) -> Operand {
    let name = any_name(random, sheet);
    let reg = match name {
        Name::Real(n) => Some(n),
        Name::Virtual(_) if sheet.regs == 0 || random.percent(shape.missing) => None,
        Name::Virtual(_) => Some(random.number(sheet.regs)),
    };
    Operand { name, reg }
}

fn change(
    random: &mut Random,
    sheet: &Sheet,
    shape: &Shape,
    guess: &State,
    inst: u32,
) -> Step {
    let mut slot = random.number(sheet.slots);
    let filled: Vec<usize> = (0..guess.slots.len()).filter(|s| holds(guess.slots[*s])).collect();
    if !filled.is_empty() && random.percent(70) {
        slot = *random.pick(&filled) as u32;
    }
    let mut from = any_name(random, sheet);
    if let Cell::Holds(name, _) = guess.slots[slot as usize] {
        if random.percent(shape.follow) {
            from = name;
        }
    }
    let mut to = from;
    for _ in 0..4 {
        let name = any_name(random, sheet);
        if sheet.is_reftyped(name) == sheet.is_reftyped(from) {
            to = name;
            break;
        }
    }
    Step::Change { inst, slot, from, to }
}

fn safepoint(
    random: &mut Random,
    sheet: &Sheet,
    shape: &Shape,
    guess: &State,
    inst: u32,
) -> Step {
    let follow = random.percent(shape.follow);
    let slots = (0..sheet.slots)
        .filter(|&slot| match guess.slots[slot as usize] {
            Cell::Holds(_, true) => random.percent(70),
            Cell::Holds(_, false) if !follow => random.percent(70),
            _ if follow => random.percent(4),
            _ => random.percent(25),
        })
        .collect();
    Step::Safepoint { inst, slots }
}

fn holds(cell: Cell) -> bool {
    matches!(cell, Cell::Holds(_, _))
}

/// A correct allocation: every name has a home slot, is spilled there whenever it is defined, and is
/// reloaded when a block wants it.
pub fn allocated(random: &mut Random) -> Sheet {
    allocated_of(random, &ALLOCATED)
}

fn allocated_of(random: &mut Random, size: &Size) -> Sheet {
    let names = some(random, size.slots) as u32;
    let mut sheet = Sheet {
        regs: some(random, size.regs) as u32,
        slots: names,
        vregs: names,
        ..Sheet::default()
    };
    choose_reftyped(random, &mut sheet);
    let blocks = some(random, size.blocks);
    graph(random, &mut sheet, blocks, size.succs);
    let entry = sheet.entry as usize;
    for block in 0..blocks {
        let mut maker = Maker { sheet: &sheet, steps: Vec::new(), cache: Vec::new() };
        if block == entry {
            for name in 0..names {
                maker.define(random, name);
            }
        }
        for _ in 0..random.within(0, size.acts) {
            maker.act(random);
        }
        let steps = maker.steps;
        sheet.blocks[block].steps = steps;
    }
    // The entry defines every name; what no walk reaches must not use one.
    let reached = crate::plain::reached(&sheet);
    for block in 0..blocks {
        if !reached[block] {
            sheet.blocks[block].steps.clear();
        }
    }
    sheet
}

/// Writes the steps of one block of an allocated sheet.
struct Maker<'a> {
    sheet: &'a Sheet,
    steps: Vec<Step>,
    /// The names that this block knows to be in registers.
    cache: Vec<(u32, u32)>,
}

impl<'a> Maker<'a> {
    fn put(&mut self, reg: u32, name: u32) {
        self.cache.retain(|(r, _)| *r != reg);
        self.cache.push((reg, name));
    }

    fn define(&mut self, random: &mut Random, name: u32) {
        let reg = random.number(self.sheet.regs);
        self.cache.retain(|(_, n)| *n != name);
        self.put(reg, name);
        let defs = vec![Operand { name: Name::Virtual(name), reg: Some(reg) }];
        self.steps.push(Step::Op { inst: any_inst(random), uses: Vec::new(), defs });
        self.steps.push(Step::Spill { slot: name, reg });
    }

    /// A register that holds the name, which is reloaded if need be.
    fn fetch(&mut self, random: &mut Random, name: u32) -> u32 {
        if let Some((reg, _)) = self.cache.iter().find(|(_, n)| *n == name) {
            return *reg;
        }
        let reg = random.number(self.sheet.regs);
        self.steps.push(Step::Reload { reg, slot: name });
        self.put(reg, name);
        reg
    }

    fn act(&mut self, random: &mut Random) {
        let name = random.number(self.sheet.vregs);
        match random.below(8) {
            0 | 1 => self.define(random, name),
            2 => {
                let from = self.fetch(random, name);
                let into = random.number(self.sheet.regs);
                self.steps.push(Step::Move { into, from });
                self.put(into, name);
            }
            3 => {
                let inst = any_inst(random);
                self.steps.push(Step::Safepoint { inst, slots: self.sheet.reftyped.clone() });
                let sheet = self.sheet;
                self.cache.retain(|(_, n)| !sheet.is_reftyped(Name::Virtual(*n)));
            }
            4 => self.pass_on(random, name),
            _ => self.use_one(random, name),
        }
    }

    fn use_one(&mut self, random: &mut Random, name: u32) {
        let reg = self.fetch(random, name);
        let mut uses = vec![Operand { name: Name::Virtual(name), reg: Some(reg) }];
        for &(reg, other) in &self.cache {
            if uses.len() == OPERANDS_LIMIT {
                break;
            }
            if random.percent(40) && uses.iter().all(|o| o.name != Name::Virtual(other)) {
                uses.push(Operand { name: Name::Virtual(other), reg: Some(reg) });
            }
        }
        self.steps.push(Step::Op { inst: any_inst(random), uses, defs: Vec::new() });
    }

    /// An ownership change in a home slot; then both names are brought home again.
    fn pass_on(&mut self, random: &mut Random, from: u32) {
        let to = random.number(self.sheet.vregs);
        let (a, b) = (Name::Virtual(from), Name::Virtual(to));
        if from == to || self.sheet.is_reftyped(a) != self.sheet.is_reftyped(b) {
            return;
        }
        self.steps.push(Step::Change { inst: any_inst(random), slot: from, from: a, to: b });
        self.cache.retain(|(_, n)| *n != to);
        let reg = random.number(self.sheet.regs);
        self.steps.push(Step::Reload { reg, slot: from });
        self.put(reg, to);
        self.steps.push(Step::Spill { slot: to, reg });
        self.define(random, from);
    }
}

/// A random sheet whose faulty steps are mended until one of the rules accepts it.
pub fn repaired(random: &mut Random) -> Sheet {
    let mut sheet = if random.percent(50) { small(random) } else { tangled(random) };
    for block in &mut sheet.blocks {
        block.steps.retain(no_missing);
    }
    let house = random.percent(75);
    let mut rounds = 0;
    loop {
        let faults = if house {
            house_faults(&sheet, Wrong::Nothing).0
        } else {
            old_faults(&sheet, Wrong::Nothing).0
        };
        if faults.is_empty() {
            return sheet;
        }
        rounds += 1;
        for fault in faults.iter().rev() {
            if rounds < 12 {
                mend(&mut sheet, fault);
            } else {
                sheet.blocks[fault.block].steps.remove(fault.place);
            }
        }
    }
}

fn number_of(place: &str) -> u32 {
    place[1..].parse().unwrap()
}

fn name_of(text: &str) -> Name {
    let n = number_of(text);
    if text.starts_with('r') {
        Name::Real(n)
    } else {
        Name::Virtual(n)
    }
}

/// Changes a faulty step so that its check passes in the state that it was found in.
fn mend(sheet: &mut Sheet, fault: &Fault) {
    let whole = sheet.clone();
    let step = &mut sheet.blocks[fault.block].steps[fault.place];
    let place = number_of(&fault.at);
    match step {
        Step::Op { uses, .. } => {
            let held = if fault.kind == 3 { Some(name_of(&fault.actual)) } else { None };
            let legal = match held {
                Some(Name::Real(n)) => n == place,
                Some(_) => true,
                None => false,
            };
            let repeated = uses.iter().any(|o| Some(o.name) == held);
            if legal && !repeated {
                let first = uses.iter_mut().find(|o| {
                    o.reg == Some(place) && o.name.text() == fault.expected
                });
                first.unwrap().name = held.unwrap();
            } else {
                uses.retain(|o| o.reg != Some(place));
            }
        }
        Step::Change { inst, from, to, .. } => {
            let held = if fault.kind == 5 { Some(name_of(&fault.actual)) } else { None };
            match held {
                Some(name) if whole.is_reftyped(name) == whole.is_reftyped(*to) => *from = name,
                _ if whole.regs > 0 => *step = Step::Spill { slot: place, reg: 0 },
                _ => *step = Step::Safepoint { inst: *inst, slots: Vec::new() },
            }
        }
        Step::Safepoint { slots, .. } => slots.retain(|slot| *slot != place),
        _ => {}
    }
}

/// An accepted sheet with one thing changed.
pub fn wrong_step(random: &mut Random) -> Sheet {
    let sheet = if random.percent(50) { allocated(random) } else { repaired(random) };
    changed(random, sheet)
}

/// A sheet of another kind with edges cut, so that walks come to few of its blocks. Of the others many lose their steps.
pub fn unreached(random: &mut Random) -> Sheet {
    let mut sheet = match random.below(6) {
        0 => small(random),
        1 => tangled(random),
        2 => allocated(random),
        3 => wrong_step(random),
        4 => many(random),
        _ => repaired(random),
    };
    let (cut, emptied) = (*random.pick(&[20, 50, 80, 100]), *random.pick(&[0, 30, 70]));
    for block in &mut sheet.blocks {
        block.succs.retain(|_| !random.percent(cut));
    }
    for block in crate::plain::unreached(&sheet) {
        if random.percent(emptied) {
            sheet.blocks[block].steps.clear();
        }
    }
    sheet
}

/// The sheet with one thing changed.
fn changed(random: &mut Random, mut sheet: Sheet) -> Sheet {
    let block = random.below(sheet.blocks.len());
    let blocks = sheet.blocks.len() as u32;
    let counts = (sheet.regs, sheet.slots, sheet.vregs);
    let other = any_operand_number(random, counts);
    let b = &mut sheet.blocks[block];
    if b.steps.is_empty() || random.percent(8) {
        match random.below(3) {
            0 if !b.succs.is_empty() => *b.succs.last_mut().unwrap() = random.number(blocks),
            1 if b.succs.len() < SUCCS_LIMIT => b.succs.push(random.number(blocks)),
            _ => b.succs.reverse(),
        }
        return sheet;
    }
    let at = random.below(b.steps.len());
    match random.below(6) {
        0 => {
            b.steps.remove(at);
        }
        1 if at + 1 < b.steps.len() => b.steps.swap(at, at + 1),
        2 => {
            let copy = b.steps[at].clone();
            let to = random.below(b.steps.len());
            b.steps.insert(to, copy);
        }
        _ => disturb(random, &mut b.steps[at], other),
    }
    sheet
}

/// The kinds of the functions that bench/ times.
pub const TIMED_KINDS: [&str; 3] = ["allocated", "wrong-step", "tangled"];

/// A function that bench/ times, of the kinds in turn; its insts never fall. A wrong step is one that the old rule reports.
pub fn timed(seed: u64, index: u64) -> Sheet {
    let random = &mut Random::of(seed, index);
    let kind = TIMED_KINDS[index as usize % TIMED_KINDS.len()];
    loop {
        let mut sheet = match kind {
            "tangled" => tangled_of(random, &Size { succs: TANGLED.succs, ..TIMED }),
            "allocated" => allocated_of(random, &TIMED),
            _ => {
                let sheet = allocated_of(random, &TIMED);
                changed(random, sheet)
            }
        };
        rise(&mut random.clone(), &mut sheet, 0, false);
        let harmless = |sheet| old_faults(sheet, Wrong::Nothing).0.is_empty();
        if is_timed(&sheet) && (kind != "wrong-step" || !harmless(&sheet)) {
            return sheet;
        }
    }
}

/// The bytes that a long function's sheet has at least; 65,536 are the most.
const LONG: usize = 60_000;

/// A function that bench/ times, whose sheet is nearly as long as a sheet may be: operations of many operands. A block uses what it
/// defined itself, so both rules accept it. Its insts never fall.
pub fn long(seed: u64, index: u64) -> Sheet {
    let random = &mut Random::of(seed, index);
    loop {
        let mut sheet = Sheet { regs: REGS_LIMIT, vregs: VREGS_LIMIT, ..Sheet::default() };
        choose_reftyped(random, &mut sheet);
        graph(random, &mut sheet, BLOCKS_LIMIT as usize, TIMED.succs);
        for block in &mut sheet.blocks {
            block.steps = wide_operations(random);
        }
        rise(&mut random.clone(), &mut sheet, 0, false);
        if sheet.text().len() >= LONG && is_timed(&sheet) {
            return sheet;
        }
    }
}

/// Operations of one block: each uses some of the names that stand where this block put them, and defines others.
fn wide_operations(random: &mut Random) -> Vec<Step> {
    let mut known: Vec<Operand> = Vec::new();
    let mut steps = Vec::new();
    for _ in 0..random.within(4, 10) {
        let mut uses = known.clone();
        let most = random.within(0, OPERANDS_LIMIT);
        while uses.len() > most {
            uses.swap_remove(random.below(uses.len()));
        }
        let mut defs: Vec<Operand> = Vec::new();
        for _ in 0..random.within(2, OPERANDS_LIMIT) {
            let name = Name::Virtual(random.number(VREGS_LIMIT));
            let reg = Some(random.number(REGS_LIMIT));
            defs.retain(|o| o.name != name && o.reg != reg);
            known.retain(|o| o.name != name && o.reg != reg);
            defs.push(Operand { name, reg });
        }
        known.extend_from_slice(&defs);
        steps.push(Step::Op { inst: 0, uses, defs });
    }
    steps
}

/// Are 60 blocks or more reached, is the sheet not refused, and does no step lack an allocation? At one
/// that does either side would stop before it checks.
fn is_timed(sheet: &Sheet) -> bool {
    let reached = crate::plain::reached(sheet).into_iter().filter(|reached| *reached).count();
    let mut steps = sheet.blocks.iter().flat_map(|block| &block.steps);
    reached >= TIMED.blocks.0 && steps.all(no_missing) && read(&sheet.text()).is_ok()
}

/// A register, a slot and a virtual name within the counts (0 where there is none).
fn any_operand_number(random: &mut Random, counts: (u32, u32, u32)) -> (u32, u32, u32) {
    let mut one = |count: u32| if count == 0 { 0 } else { random.number(count) };
    (one(counts.0), one(counts.1), one(counts.2))
}

fn disturb(random: &mut Random, step: &mut Step, other: (u32, u32, u32)) {
    let (a_reg, a_slot, a_name) = other;
    let one = random.percent(50);
    match step {
        Step::Spill { slot, reg } | Step::Reload { reg, slot } => {
            *(if one { slot } else { reg }) = if one { a_slot } else { a_reg };
        }
        Step::Move { into, from } => *(if one { into } else { from }) = a_reg,
        Step::Change { slot, from, to, .. } => match random.below(3) {
            0 => *slot = a_slot,
            1 => std::mem::swap(from, to),
            _ => *from = *to,
        },
        Step::Op { uses, defs, .. } => {
            let list = if (one && !uses.is_empty()) || defs.is_empty() { uses } else { defs };
            if list.is_empty() {
                return;
            }
            let at = random.below(list.len());
            match random.below(4) {
                0 => list[at].name = Name::Virtual(a_name),
                1 if random.percent(10) => list[at].reg = None,
                _ => list[at].reg = Some(a_reg),
            }
        }
        Step::Safepoint { slots, .. } => {
            if slots.contains(&a_slot) {
                slots.retain(|slot| *slot != a_slot);
            } else {
                slots.push(a_slot);
                slots.sort();
            }
        }
    }
}
