//! Makes a sheet on which two sides differ smaller, as long as they still differ.

use crate::sheet::{read, Sheet, Step};

/// How many candidates are asked about at once, and how many bytes of them.
const GROUP: usize = 250;
const GROUP_BYTES: usize = 4_000_000;
/// How many bytes of candidates one round asks about; behind them a long sheet is left as it is.
const ROUND_BYTES: usize = 100_000_000;

/// Gives the first of some sheets on which the sides differ.
type Differs<'a> = &'a mut dyn FnMut(&[Vec<u8>]) -> Option<usize>;

/// The smallest differing sheet found.
pub fn shrink(start: &[u8], differs: Differs) -> Vec<u8> {
    let mut current = start.to_vec();
    loop {
        let mut round = Round { current: &current, differs, group: Vec::new(), bytes: 0, asked: 0, found: None };
        round.run();
        match round.found {
            Some(smaller) => current = smaller,
            None => return current,
        }
    }
}

/// One search for a smaller differing sheet. Candidates are made and asked about group by group.
struct Round<'a> {
    current: &'a [u8],
    differs: Differs<'a>,
    group: Vec<Vec<u8>>,
    /// Bytes in the group, and in all groups before it.
    bytes: usize,
    asked: usize,
    found: Option<Vec<u8>>,
}

impl<'a> Round<'a> {
    fn run(&mut self) {
        if let Ok(sheet) = read(self.current) {
            structured(&sheet, self);
        }
        fewer_lines(self.current, self);
        fewer_fields(self.current, self);
        self.ask();
    }

    fn over(&self) -> bool {
        self.found.is_some() || self.asked > ROUND_BYTES
    }

    fn put(&mut self, candidate: Vec<u8>) {
        if self.over() || (candidate.len(), &candidate[..]) >= (self.current.len(), self.current) {
            return;
        }
        self.bytes += candidate.len();
        self.group.push(candidate);
        if self.group.len() == GROUP || self.bytes > GROUP_BYTES {
            self.ask();
        }
    }

    fn ask(&mut self) {
        if self.found.is_none() && !self.group.is_empty() {
            self.found = (self.differs)(&self.group).map(|at| self.group[at].clone());
        }
        self.asked += self.bytes;
        self.bytes = 0;
        self.group.clear();
    }
}

/// Well-formed neighbours with less in them.
fn structured(sheet: &Sheet, round: &mut Round) {
    let mut with = |change: &dyn Fn(&mut Sheet)| {
        if !round.over() {
            let mut copy = sheet.clone();
            change(&mut copy);
            round.put(copy.text());
        }
    };
    for block in 0..sheet.blocks.len() {
        with(&|s| s.blocks[block].steps.clear());
        with(&|s| s.blocks[block].succs.clear());
        if sheet.blocks.len() > 1 {
            with(&|s| drop_block(s, block as u32));
            with(&|s| bridge_block(s, block as u32));
        }
    }
    for block in 0..sheet.blocks.len() {
        for place in 0..sheet.blocks[block].steps.len() {
            with(&|s| {
                s.blocks[block].steps.remove(place);
            });
        }
        for place in 0..sheet.blocks[block].succs.len() {
            with(&|s| {
                s.blocks[block].succs.remove(place);
            });
        }
    }
    for place in 0..sheet.reftyped.len() {
        with(&|s| {
            s.reftyped.remove(place);
        });
    }
    for block in 0..sheet.blocks.len() {
        for place in 0..sheet.blocks[block].steps.len() {
            for part in 0..parts(&sheet.blocks[block].steps[place]) {
                with(&|s| drop_part(&mut s.blocks[block].steps[place], part));
            }
        }
    }
    with(&|s| s.entry = 0);
}

/// Takes a block out; the others are counted anew.
fn drop_block(sheet: &mut Sheet, block: u32) {
    sheet.blocks.remove(block as usize);
    let lower = |n: u32| if n > block { n - 1 } else { n };
    for b in &mut sheet.blocks {
        b.succs.retain(|succ| *succ != block);
        for succ in &mut b.succs {
            *succ = lower(*succ);
        }
    }
    sheet.entry = lower(sheet.entry).min(sheet.blocks.len() as u32 - 1);
}

/// Takes a block out; what led to it leads to its first successor instead.
fn bridge_block(sheet: &mut Sheet, block: u32) {
    let next = sheet.blocks[block as usize].succs.iter().cloned().find(|succ| *succ != block);
    if let Some(next) = next {
        let beyond = |n: u32| if n == block { next } else { n };
        for b in &mut sheet.blocks {
            for succ in &mut b.succs {
                *succ = beyond(*succ);
            }
        }
        sheet.entry = beyond(sheet.entry);
    }
    drop_block(sheet, block);
}

/// How many operands or slots a step lists.
fn parts(step: &Step) -> usize {
    match step {
        Step::Op { uses, defs, .. } => uses.len() + defs.len(),
        Step::Safepoint { slots, .. } => slots.len(),
        _ => 0,
    }
}

fn drop_part(step: &mut Step, part: usize) {
    match step {
        Step::Op { uses, .. } if part < uses.len() => {
            uses.remove(part);
        }
        Step::Op { uses, defs, .. } => {
            defs.remove(part - uses.len());
        }
        Step::Safepoint { slots, .. } => {
            slots.remove(part);
        }
        _ => {}
    }
}

/// Runs of lines left out, long runs first.
fn fewer_lines(bytes: &[u8], round: &mut Round) {
    let lines: Vec<&[u8]> = bytes.split_inclusive(|&byte| byte == b'\n').collect();
    let mut run = lines.len() / 2;
    while run > 0 && !round.over() {
        for start in (0..lines.len()).step_by(run) {
            let end = (start + run).min(lines.len());
            round.put([&lines[..start], &lines[end..]].concat().concat());
        }
        run /= 2;
    }
    if !bytes.is_empty() {
        round.put(bytes[..bytes.len() - 1].to_vec());
    }
}

/// One field left out, emptied, or with a lower number.
fn fewer_fields(bytes: &[u8], round: &mut Round) {
    let lines: Vec<&[u8]> = bytes.split(|&byte| byte == b'\n').collect();
    for (at, line) in lines.iter().enumerate() {
        if round.over() {
            return;
        }
        let fields: Vec<&[u8]> = line.split(|&byte| byte == b'\t').collect();
        let mut put = |changed: Vec<&[u8]>| {
            let mut copy: Vec<Vec<u8>> = lines.iter().map(|line| line.to_vec()).collect();
            copy[at] = changed.join(&b'\t');
            round.put(copy.join(&b'\n'));
        };
        for place in 0..fields.len() {
            let mut without = fields.clone();
            without.remove(place);
            put(without);
            for lower in lower_values(fields[place]) {
                let mut changed = fields.clone();
                changed[place] = &lower;
                put(changed);
            }
        }
    }
}

/// A number, or a name's number, made lower; other text made shorter.
fn lower_values(field: &[u8]) -> Vec<Vec<u8>> {
    let text = String::from_utf8_lossy(field).to_string();
    let digits = text.trim_start_matches(|c| c == 'r' || c == 'v');
    let letter = &text[..text.len() - digits.len()];
    match digits.parse::<u32>() {
        Ok(n) if n > 0 => [0, 1, n / 2, n - 1]
            .iter()
            .filter(|lower| **lower < n)
            .map(|lower| format!("{}{}", letter, lower).into_bytes())
            .collect(),
        _ if field.len() > 1 => vec![field[1..].to_vec(), field[..field.len() - 1].to_vec()],
        _ => Vec::new(),
    }
}
