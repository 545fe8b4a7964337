//! Forms: loaded words packed, unpacked and written a second time, a generator of words that a sheet gives and of words that none gives,
//! and the comparison with a product that writes words in frames.

use crate::damage;
use crate::generate::{generate, long};
use crate::pairs::answered;
use crate::random::Random;
use crate::sheet::{read, Block, Name, Operand, Sheet, Step, BLOCKS_LIMIT, SHEET_LIMIT, STEPS_LIMIT};
use std::collections::BTreeMap;

const BATCH: u64 = 500;
const WORDS: usize = 32_768;
const TYPED: usize = 16;
const BLOCKS: usize = 272;
const BLOCK: usize = 11;
const STEPS: usize = BLOCKS + BLOCKS_LIMIT as usize * BLOCK;
const OPERANDS: usize = STEPS + STEPS_LIMIT * 4;
const STATES: usize = OPERANDS + STEPS_LIMIT * 16;

// ---- the second implementation

fn name_word(name: Name) -> u16 {
    match name {
        Name::Virtual(n) => n as u16,
        Name::Real(n) => 256 + n as u16,
    }
}

fn name_of(word: u16) -> Name {
    match u32::from(word % 512) {
        n if n < 256 => Name::Virtual(n),
        n => Name::Real(n - 256),
    }
}

/// The words of a sheet, all others 0.
pub fn packed(sheet: &Sheet) -> Vec<u16> {
    let mut words = vec![0; WORDS];
    let steps: usize = sheet.blocks.iter().map(|block| block.steps.len()).sum();
    let least = sheet.reftyped.last().map_or(0, |n| n + 1);
    let header = [sheet.regs, sheet.slots, sheet.vregs, sheet.blocks.len() as u32, sheet.entry, sheet.blocks.len() as u32, steps as u32, least, 1];
    for (at, number) in header.iter().enumerate() {
        words[at] = *number as u16;
    }
    for n in &sheet.reftyped {
        words[TYPED + *n as usize] = 1;
    }
    let mut k = 0;
    for (b, block) in sheet.blocks.iter().enumerate() {
        let at = BLOCKS + b * BLOCK;
        words[at] = k as u16;
        words[at + 1] = block.steps.len() as u16;
        words[at + 2] = block.succs.len() as u16;
        for (i, succ) in block.succs.iter().enumerate() {
            words[at + 3 + i] = *succ as u16;
        }
        for step in &block.steps {
            pack_step(sheet, step, k, &mut words);
            k += 1;
        }
    }
    words
}

fn pack_step(sheet: &Sheet, step: &Step, k: usize, words: &mut [u16]) {
    let first = |tag: u32, a: u32, b: u32| (tag + 8 * a + 512 * b) as u16;
    let four = match step {
        Step::Spill { slot, reg } => [first(0, *slot, *reg), 0, 0, 0],
        Step::Reload { reg, slot } => [first(1, *reg, *slot), 0, 0, 0],
        Step::Move { into, from } => [first(2, *into, *from), 0, 0, 0],
        Step::Change { inst, slot, from, to } => [first(3, *slot, 0), *inst as u16, name_word(*from), name_word(*to)],
        Step::Op { inst, uses, defs } => {
            for (list, at) in [(uses, 0), (defs, 8)].iter() {
                for (i, operand) in list.iter().enumerate() {
                    let mark = if sheet.is_reftyped(operand.name) { 512 } else { 0 };
                    words[OPERANDS + 16 * k + at + i] = operand.reg.unwrap_or(63) as u16 * 1024 + mark + name_word(operand.name);
                }
            }
            [first(4, uses.len() as u32, defs.len() as u32), *inst as u16, 0, 0]
        }
        Step::Safepoint { inst, slots } => {
            let mask: u32 = slots.iter().map(|slot| 1 << slot).sum();
            [first(5, 0, 0), *inst as u16, mask as u16, (mask >> 16) as u16]
        }
    };
    words[STEPS + 4 * k..STEPS + 4 * k + 4].copy_from_slice(&four);
}

fn operands(words: &[u16], at: usize, count: usize) -> Vec<Operand> {
    let operand = |word: &u16| Operand { name: name_of(*word), reg: Some(u32::from(word / 1024)).filter(|reg| *reg != 63) };
    words[at..at + count].iter().map(operand).collect()
}

fn step_of(words: &[u16], k: usize) -> Step {
    let word = |at: usize| u32::from(words[STEPS + 4 * k + at]);
    let (first, inst) = (word(0), word(1));
    let (a, b) = (first / 8 % 64, first / 512 % 64);
    match first % 8 {
        0 => Step::Spill { slot: a, reg: b },
        1 => Step::Reload { reg: a, slot: b },
        2 => Step::Move { into: a, from: b },
        3 => Step::Change { inst, slot: a, from: name_of(word(2) as u16), to: name_of(word(3) as u16) },
        4 => {
            let at = OPERANDS + 16 * k;
            Step::Op { inst, uses: operands(words, at, a as usize), defs: operands(words, at + 8, b as usize) }
        }
        5 => {
            let mask = word(2) + (word(3) << 16);
            Step::Safepoint { inst, slots: (0..32).filter(|slot| mask >> slot & 1 == 1).collect() }
        }
        _ => Step::Move { into: 63, from: 63 },
    }
}

/// The sheet that stands in the words and how many blocks its `F` counts; none where a count goes beyond the room that there is for it.
fn form(words: &[u16]) -> Option<(Sheet, u32)> {
    if words.len() < WORDS || u32::from(words[5]) > BLOCKS_LIMIT {
        return None;
    }
    let mut blocks = Vec::new();
    for b in 0..words[5] as usize {
        let at = BLOCKS + b * BLOCK;
        let (first, steps, succs) = (words[at] as usize, words[at + 1] as usize, words[at + 2] as usize);
        if succs > 8 || first + steps > STEPS_LIMIT {
            return None;
        }
        blocks.push(Block {
            succs: words[at + 3..at + 3 + succs].iter().map(|succ| u32::from(*succ)).collect(),
            steps: (first..first + steps).map(|k| step_of(words, k)).collect(),
        });
    }
    let number = |at: usize| u32::from(words[at]);
    let reftyped = (0..256).filter(|n| words[TYPED + *n as usize] != 0).collect();
    let sheet = Sheet { regs: number(0), slots: number(1), vregs: number(2), entry: number(4), reftyped, blocks };
    Some((sheet, number(3)))
}

/// The text of the form that the words hold, where some sheet gives it.
fn text(words: &[u16]) -> Option<Vec<u8>> {
    let (sheet, counted) = form(words)?;
    if counted != sheet.blocks.len() as u32 {
        return None;
    }
    let text = sheet.text();
    if text.len() > SHEET_LIMIT || read(&text) != Ok(sheet) {
        return None;
    }
    Some(text)
}

/// What writing the words to a room of dots comes to: the letter, the text, and the room afterwards.
fn expected(words: &[u16], size: usize) -> [Vec<u8>; 3] {
    let mut room = vec![b'.'; size];
    match text(words) {
        None => [b"S".to_vec(), Vec::new(), room],
        Some(text) if text.len() > size => [b"R".to_vec(), Vec::new(), room],
        Some(text) => {
            room[..text.len()].copy_from_slice(&text);
            [b"T".to_vec(), text, room]
        }
    }
}

// ---- the generator

const KINDS: [&str; 20] = [
    "as it is", "junk elsewhere", "a count", "a typed name", "a block's word", "a step's word", "an operand", "a step's tag", "a mask", "too few blocks",
    "too many blocks", "short", "nothing", "any words", "blocks that share steps", "a count beyond the room", "a long text", "a real name elsewhere",
    "a differently typed change", "a bit",
];

fn any(random: &mut Random) -> u16 {
    match random.below(4) {
        0 => random.below(70) as u16,
        1 => *random.pick(&[0, 1, 8, 9, 31, 32, 33, 63, 64, 65, 255, 256, 257, 511, 512, 1_023, 1_024, 1_025, 65_535]),
        _ => random.next() as u16,
    }
}

/// A sheet that is read.
fn some_sheet(random: &mut Random, seed: u64, index: u64) -> Sheet {
    for more in 0.. {
        if let Ok(sheet) = read(&generate(seed, index + more * 1_000_003).1) {
            return sheet;
        }
        random.next();
    }
    unreachable!()
}

/// Words whose text has so many bytes: of a long sheet the last steps are made operations without operands, and the operations' insts fill
/// it up, and then successors.
fn of_length(length: usize) -> Vec<u16> {
    let mut whole = packed(&long(1, 6)); // of some 64,400 bytes
    let steps = whole[6] as usize;
    for k in 0..steps {
        if whole[STEPS + 4 * k] % 8 == 4 {
            whole[STEPS + 4 * k + 1] = 0;
        }
    }
    let shortened = |from: usize| {
        let mut words = whole.clone();
        for k in from..steps {
            words[STEPS + 4 * k..STEPS + 4 * k + 2].copy_from_slice(&[4, 0]);
        }
        words
    };
    let (mut low, mut high) = (0, steps);
    while low < high {
        let middle = (low + high + 1) / 2;
        if sheet_length(&shortened(middle)) <= length {
            low = middle;
        } else {
            high = middle - 1;
        }
    }
    let mut words = shortened(low);
    let mut short = length.saturating_sub(sheet_length(&words));
    for k in 0..steps {
        if words[STEPS + 4 * k] % 8 == 4 {
            let more = short.min(4);
            words[STEPS + 4 * k + 1] = [0, 10, 100, 1_000, 10_000][more];
            short -= more;
        }
    }
    for b in 0..words[5] as usize {
        let at = BLOCKS + b * BLOCK;
        let more = (8 - words[at + 2] as usize).min(short / 2);
        words[at + 2] += more as u16;
        short -= 2 * more;
    }
    words
}

fn sheet_length(words: &[u16]) -> usize {
    form(words).map_or(0, |(sheet, _)| sheet.text().len())
}

/// A kind of words, and the words.
fn words_of(random: &mut Random, seed: u64, index: u64) -> (usize, Vec<u16>) {
    let kind = random.below(KINDS.len());
    let sheet = some_sheet(random, seed, index);
    let mut words = packed(&sheet);
    let steps = (words[6] as usize).max(1);
    let blocks = (words[5] as usize).max(1);
    let step = STEPS + 4 * random.below(steps);
    let block = BLOCKS + BLOCK * random.below(blocks);
    match KINDS[kind] {
        "as it is" => (),
        "junk elsewhere" => junk(random, &mut words),
        "a count" => words[random.below(7)] = any(random),
        "a typed name" => words[TYPED + random.below(256)] = random.below(3) as u16,
        "a block's word" => words[block + random.below(BLOCK)] = any(random),
        "a step's word" => words[step + random.below(4)] = any(random),
        "an operand" => words[OPERANDS + random.below(16 * steps)] = any(random),
        "a step's tag" => words[step] = words[step] / 8 * 8 + random.below(8) as u16,
        "a mask" => words[step + 2 + random.below(2)] = random.next() as u16,
        "too few blocks" => words[5] = words[5].saturating_sub(1),
        "too many blocks" => words[5] += 1,
        "short" => words.truncate(*random.pick(&[0, 1, 100, STATES, 25_616, WORDS - 1])),
        "nothing" => words = vec![*random.pick(&[0, 65_535]); WORDS],
        "any words" => words = (0..WORDS).map(|_| any(random)).collect(),
        "blocks that share steps" => words[block] = random.below(steps) as u16,
        "a count beyond the room" => words[block + random.below(3)] = *random.pick(&[8, 9, 1_023, 1_024, 1_025, 65_535]),
        "a long text" => words = of_length(*random.pick(&[65_534, 65_535, 65_536, 65_537, 65_538, 70_000])),
        "a real name elsewhere" => {
            let at = OPERANDS + random.below(16 * steps);
            words[at] = words[at] / 512 * 512 + 256 + random.below(32) as u16;
        }
        "a differently typed change" => words[step + 2 + random.below(2)] = random.below(300) as u16,
        _ => words[random.below(STATES)] ^= 1 << random.below(16),
    }
    (kind, words)
}

/// Words that play no part in the form: behind the counts, in the states and behind them.
fn junk(random: &mut Random, words: &mut [u16]) {
    let (opened, steps) = (words[5] as usize, words[6] as usize);
    for at in 6..TYPED {
        words[at] = any(random);
    }
    for range in [BLOCKS + BLOCK * opened..STEPS, STEPS + 4 * steps..OPERANDS, OPERANDS + 16 * steps..WORDS].iter() {
        for at in range.clone() {
            words[at] = random.next() as u16;
        }
    }
}

/// A kind, the words, and a room: large enough, just so, a byte too small, or any.
fn made(seed: u64, index: u64) -> (usize, Vec<u16>, usize) {
    let mut random = Random::of(seed, index);
    let (kind, words) = words_of(&mut random, seed, index);
    let length = text(&words).map_or(0, |text| text.len());
    let size = match random.below(5) {
        0 => length,
        1 => length.saturating_sub(1),
        2 => length.saturating_sub(random.below(100)),
        3 => random.below(2_000),
        _ => length + random.below(100),
    };
    (kind, words, size.min(66_000))
}

fn request(words: &[u16], size: usize) -> Vec<u8> {
    let mut bytes = (size as u32).to_le_bytes()[..3].to_vec();
    bytes.extend(words.iter().flat_map(|word| word.to_le_bytes().to_vec()));
    bytes
}

// ---- the comparison

/// Compares a command with the second implementation on generated words.
pub fn drive(count: u64, seed: u64, command: &str) -> Result<(), String> {
    let read_again = read(&damage::of_length(SHEET_LIMIT)).map_err(|refusal| format!("{:?}", refusal))?;
    assert_eq!(text(&packed(&read_again)), Some(damage::of_length(SHEET_LIMIT)));
    let mut told: BTreeMap<String, usize> = BTreeMap::new();
    let mut start = 0;
    while start < count {
        let end = count.min(start + BATCH);
        let forms: Vec<_> = (start..end).map(|index| made(seed, index)).collect();
        let requests: Vec<Vec<u8>> = forms.iter().map(|(_, words, size)| request(words, *size)).collect();
        let given = answered(command, &requests.iter().map(|bytes| &bytes[..]).collect::<Vec<_>>())?;
        if given.len() != 3 * forms.len() {
            return Err(format!("{} frames for {} forms", given.len(), forms.len()));
        }
        for (at, (kind, words, size)) in forms.iter().enumerate() {
            let ours = expected(words, *size);
            if given[3 * at..3 * at + 3] != ours[..] {
                let shown = |frames: &[Vec<u8>]| format!("{} and {} bytes in a room of {}", String::from_utf8_lossy(&frames[0]), frames[1].len(), frames[2].len());
                return Err(format!("form {} ({}): a difference\n  oracle  {}\n  product {}", start + at as u64, KINDS[*kind], shown(&ours), shown(&given[3 * at..3 * at + 3])));
            }
            *told.entry(format!("{} {}", KINDS[*kind], String::from_utf8_lossy(&ours[0]))).or_insert(0) += 1;
        }
        start = end;
    }
    let parts: Vec<String> = told.iter().map(|(what, n)| format!("{} {}", what, n)).collect();
    println!("{} forms, seed {} ({}): 0 differences", count, seed, parts.join(", "));
    Ok(())
}
