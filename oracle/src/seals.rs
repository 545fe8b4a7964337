//! Seals: a second CRC-32, a second reader, a generator of sealed, damaged and unsealed texts, and the comparison with a product that
//! verifies texts in frames.

use crate::pairs::{answered, byte, some_report};
use crate::random::Random;
use std::collections::BTreeMap;

const BATCH: u64 = 2_000;
const LINE: usize = 11;

// ---- the second implementation

/// The CRC-32 of ITU-T V.42 with the polynomial as V.42 prints it: the register's highest bit falls out first, so a byte goes in by its
/// lowest bit first and the register is turned round at the end.
fn crc(text: &[u8]) -> u32 {
    let mut register = !0u32;
    for byte in text {
        for at in 0..8 {
            let falls = (register >> 31) ^ u32::from(byte >> at & 1);
            register <<= 1;
            if falls == 1 {
                register ^= 0x04c1_1db7;
            }
        }
    }
    !register.reverse_bits()
}

fn line(word: u32) -> Vec<u8> {
    format!("K\t{:08x}\n", word).into_bytes()
}

/// A text with its seal behind it.
pub fn sealed(text: &[u8]) -> Vec<u8> {
    [text, &line(crc(text))].concat()
}

/// The word of a line of the shape of a seal's.
fn word(line: &[u8]) -> Option<u32> {
    let digits = line.strip_prefix(b"K\t")?.strip_suffix(b"\n")?;
    if !digits.iter().all(|digit| b"0123456789abcdef".contains(digit)) {
        return None;
    }
    u32::from_str_radix(std::str::from_utf8(digits).ok()?, 16).ok()
}

/// What is written of a text's seal.
pub fn verified(text: &[u8]) -> &'static str {
    if text.len() < LINE {
        return "none\n";
    }
    let (report, line) = text.split_at(text.len() - LINE);
    let begins = report.last().map_or(true, |&last| last == b'\n');
    match word(line) {
        Some(word) if begins => if word == crc(report) { "good\n" } else { "wrong\n" },
        _ => "none\n",
    }
}

// ---- the generator

const KINDS: [&str; 22] = [
    "sealed", "unsealed", "a byte changed", "a bit changed", "four bytes changed", "a digit changed", "upper case", "no line feed",
    "behind another byte", "short", "two seal lines", "sealed twice", "a seal alone", "another text's seal", "a byte put in",
    "a byte taken out", "cut", "no tab", "another letter", "a line behind", "any bytes", "the last line feed changed",
];

fn any_bytes(random: &mut Random) -> Vec<u8> {
    let length = *random.pick(&[0, 1, 5, 10, 11, 12, 30, 255, 256, 257, 1_000]);
    (0..length).map(|_| random.below(256) as u8).collect()
}

/// A text that can be sealed: a report, or any bytes and a line feed.
fn text(random: &mut Random) -> Vec<u8> {
    if random.percent(80) {
        return some_report(random);
    }
    let mut bytes = any_bytes(random);
    bytes.push(b'\n');
    bytes
}

/// Another byte than this.
fn other(random: &mut Random, byte: u8) -> u8 {
    byte ^ random.within(1, 255) as u8
}

/// A kind of text, and the text.
fn generate(seed: u64, index: u64) -> (usize, Vec<u8>) {
    let mut random = Random::of(seed, index);
    let kind = random.below(KINDS.len());
    let report = text(&mut random);
    (kind, made(&mut random, KINDS[kind], &report))
}

fn made(random: &mut Random, kind: &str, report: &[u8]) -> Vec<u8> {
    let mut bytes = sealed(report);
    let size = report.len();
    let at = random.below(size);
    match kind {
        "sealed" => (),
        "unsealed" => bytes.truncate(size),
        "a byte changed" => bytes[at] = other(random, bytes[at]),
        "a bit changed" => bytes[at] ^= 1 << random.below(8),
        "four bytes changed" => bytes[at..size.min(at + 4)].iter_mut().for_each(|b| *b = other(random, *b)),
        "a digit changed" => bytes[size + 2 + random.below(8)] = *random.pick(b"0123456789abcdefABg-"),
        "upper case" => bytes[size + 2..].make_ascii_uppercase(),
        "no line feed" => {
            bytes.pop();
        }
        "behind another byte" => bytes[size - 1] = byte(random),
        "short" => {
            let short = random.within(1, 4);
            bytes.drain(size + 2..size + 2 + short);
        }
        "two seal lines" => bytes.extend(line(crc(report))),
        "sealed twice" => bytes = sealed(&bytes),
        "a seal alone" => bytes = if random.percent(50) { sealed(b"") } else { line(random.next() as u32) },
        "another text's seal" => bytes.splice(size.., line(crc(&text(random)))).for_each(drop),
        "a byte put in" => bytes.insert(random.below(size + LINE + 1), byte(random)),
        "a byte taken out" => {
            bytes.remove(random.below(size + LINE));
        }
        "cut" => bytes.truncate(random.below(size + LINE)),
        "no tab" => bytes[size + 1] = *random.pick(b" \t\n0"),
        "another letter" => bytes[size] = *random.pick(b"kKERX\n"),
        "a line behind" => bytes.extend(if random.percent(50) { &b"\n"[..] } else { &b"R\told\t0\n"[..] }),
        "the last line feed changed" => bytes[size + LINE - 1] = *random.pick(b"\r \x00\n"),
        _ => bytes = any_bytes(random),
    }
    bytes
}

// ---- the comparison

/// Is this a kind that can never be good, being a change inside 32 bits before the line?
fn never_good(kind: &str) -> bool {
    ["a byte changed", "a bit changed", "four bytes changed"].contains(&kind)
}

fn difference(index: u64, text: &[u8], ours: &str, given: &[u8]) -> String {
    let shown = |bytes: &[u8]| String::from_utf8_lossy(bytes).escape_debug().to_string();
    format!("text {}: a difference\n  text    {}\n  oracle  {}\n  product {}", index, shown(text), shown(ours.as_bytes()), shown(given))
}

/// Compares a command with the second implementation on generated texts.
pub fn drive(count: u64, seed: u64, command: &str) -> Result<(), String> {
    assert_eq!(crc(b"123456789"), 0xcbf4_3926);
    let mut told: BTreeMap<String, usize> = BTreeMap::new();
    let mut start = 0;
    while start < count {
        let end = count.min(start + BATCH);
        let texts: Vec<_> = (start..end).map(|index| generate(seed, index)).collect();
        let given = answered(command, &texts.iter().map(|(_, text)| &text[..]).collect::<Vec<_>>())?;
        if given.len() != texts.len() {
            return Err(format!("{} answers to {} texts", given.len(), texts.len()));
        }
        for (at, (kind, text)) in texts.iter().enumerate() {
            let ours = verified(text);
            if given[at] != ours.as_bytes() {
                return Err(difference(start + at as u64, text, ours, &given[at]));
            }
            if never_good(KINDS[*kind]) && ours == "good\n" {
                return Err(format!("text {} is good though it was changed: {}", start + at as u64, KINDS[*kind]));
            }
            *told.entry(ours.trim_end().to_string()).or_insert(0) += 1;
        }
        start = end;
    }
    let parts: Vec<String> = told.iter().map(|(what, n)| format!("{} {}", n, what)).collect();
    println!("{} texts with and without seals, seed {} ({}): 0 differences", count, seed, parts.join(", "));
    Ok(())
}
