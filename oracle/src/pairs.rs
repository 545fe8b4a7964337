//! Two reports compared: a second implementation, a generator of pairs, and the comparison with a product that answers pairs in frames.

use crate::frames::{read_frame, write_frame};
use crate::random::Random;
use std::collections::BTreeMap;
use std::io::{Cursor, Read, Write};
use std::process::{Command, Stdio};

const BATCH: u64 = 2_000;

// ---- the second implementation

fn is_number(field: &str) -> bool {
    let plain = !field.is_empty() && field.len() <= 5 && field.bytes().all(|b| b.is_ascii_digit());
    plain && (field == "0" || !field.starts_with('0'))
}

fn is_lettered(letters: &str, field: &str) -> bool {
    let mut bytes = field.chars();
    matches!(bytes.next(), Some(letter) if letters.contains(letter)) && is_number(bytes.as_str())
}

fn is_fault(fields: &[&str]) -> bool {
    if fields.len() != 8 || fields[0] != "E" || !fields[1..4].iter().all(|field| is_number(field)) {
        return false;
    }
    let name = |field: &str| is_lettered("rv", field);
    let (place, expected, actual) = (fields[5], fields[6], fields[7]);
    match fields[4] {
        "1" => place == "-" && name(expected) && actual == "-",
        "2" => is_lettered("r", place) && expected == "-" && actual == "-",
        "3" => is_lettered("r", place) && name(expected) && name(actual),
        "4" => is_lettered("s", place) && name(expected) && actual == "-",
        "5" => is_lettered("s", place) && name(expected) && name(actual),
        "6" | "7" => is_lettered("s", place) && expected == "-" && actual == "-",
        _ => false,
    }
}

fn is_unreached(fields: &[&str]) -> bool {
    fields.len() == 2 && fields[0] == "N" && is_number(fields[1])
}

/// The first bad line, if there is one. A byte beyond ASCII stands in no good field, whatever it is taken for.
fn bad_line(report: &[u8]) -> Option<usize> {
    let text: String = report.iter().map(|&b| b as char).collect();
    let lines: Vec<&str> = text.split('\n').collect();
    let (last, closed) = lines.split_last().unwrap();
    for (index, line) in closed.iter().enumerate() {
        let fields: Vec<&str> = line.split('\t').collect();
        let good = match index {
            0 => fields.len() == 3 && fields[0] == "R" && (fields[1] == "old" || fields[1] == "house") && is_number(fields[2]),
            _ => is_fault(&fields) || is_unreached(&fields),
        };
        if !good {
            return Some(index + 1);
        }
    }
    if closed.is_empty() || !last.is_empty() {
        return Some(closed.len() + 1);
    }
    let count: usize = closed[0].split('\t').nth(2).unwrap().parse().unwrap();
    let faults = closed.iter().filter(|line| line.starts_with('E')).count();
    if count != faults { Some(1) } else { None }
}

/// What is written of two reports.
pub fn compared(first: &[u8], second: &[u8]) -> Vec<u8> {
    for (side, report) in [first, second].iter().enumerate() {
        if let Some(line) = bad_line(report) {
            return format!("M\t{}\t{}\n", side + 1, line).into_bytes();
        }
    }
    if first == second {
        return b"D\t0\n".to_vec();
    }
    let mut place = 0;
    let mut line = 1;
    let mut left = first.split_inclusive(|&b| b == b'\n');
    let mut right = second.split_inclusive(|&b| b == b'\n');
    loop {
        match (left.next(), right.next()) {
            (Some(one), Some(other)) if one == other => {
                place += one.len();
                line += 1;
            }
            _ => break,
        }
    }
    let longer = if second.len() > first.len() { second } else { first };
    let mut text = format!("D\t{}\n", line).into_bytes();
    text.extend_from_slice(&longer[place..]);
    text
}

// ---- the generator

pub const KINDS: [&str; 14] = [
    "equal", "a byte changed", "a byte put in", "a byte taken out", "a line dropped", "a line repeated", "cut", "two lines swapped",
    "a wrong count", "a field changed", "no line feed", "empty", "two others", "lines behind",
];

fn number(random: &mut Random) -> String {
    let bound = *random.pick(&[2, 10, 100, 1_000, 65_536, 100_000]);
    random.number(bound).to_string()
}

fn name(random: &mut Random) -> String {
    format!("{}{}", random.pick(&["r", "v"]), number(random))
}

fn fault(random: &mut Random) -> String {
    let start = format!("E\t{}\t{}\t{}", number(random), number(random), number(random));
    let kind = random.within(1, 7);
    let slot = format!("s{}", number(random));
    let register = format!("r{}", number(random));
    let rest = match kind {
        1 => format!("-\t{}\t-", name(random)),
        2 => format!("{}\t-\t-", register),
        3 => format!("{}\t{}\t{}", register, name(random), name(random)),
        4 => format!("{}\t{}\t-", slot, name(random)),
        5 => format!("{}\t{}\t{}", slot, name(random), name(random)),
        _ => format!("{}\t-\t-", slot),
    };
    format!("{}\t{}\t{}", start, kind, rest)
}

fn some_line(random: &mut Random) -> String {
    if random.percent(30) { format!("N\t{}", number(random)) } else { fault(random) }
}

/// How many of the lines behind the header are faults.
fn faults_in(lines: &[String]) -> usize {
    lines.iter().skip(1).filter(|line| line.starts_with('E')).count()
}

fn joined(lines: &[String]) -> Vec<u8> {
    lines.iter().flat_map(|line| line.bytes().chain(std::iter::once(b'\n'))).collect()
}

fn header(random: &mut Random, count: usize) -> String {
    format!("R\t{}\t{}", random.pick(&["old", "house"]), count)
}

fn report(random: &mut Random) -> Vec<String> {
    let count = *random.pick(&[0, 0, 1, 1, 2, 3, 5, 9, 11]);
    let mut lines = vec![String::new()];
    lines.extend((0..count).map(|_| some_line(random)));
    lines[0] = header(random, faults_in(&lines));
    lines
}

/// The header counts the faults behind it.
fn recounted(random: &mut Random, mut lines: Vec<String>) -> Vec<String> {
    if !lines.is_empty() && random.percent(70) {
        let rule = if lines[0].contains("old") { "old" } else { "house" };
        lines[0] = format!("R\t{}\t{}", rule, faults_in(&lines));
    }
    lines
}

const ODD: [&str; 18] =
    ["", "-", "0", "00", "01", "8", "9", "100000", "99999", "r", "v0", "r00", "s1", "x1", "R", "E", "N", "house"];

fn field_changed(random: &mut Random, lines: &mut [String]) {
    let line = random.below(lines.len());
    let mut fields: Vec<String> = lines[line].split('\t').map(str::to_string).collect();
    let field = random.below(fields.len());
    match random.below(4) {
        0 => {
            fields.remove(field);
        }
        1 => fields.insert(field, random.pick(&ODD).to_string()),
        _ => fields[field] = random.pick(&ODD).to_string(),
    }
    lines[line] = fields.join("\t");
}

/// A report's bytes.
pub fn some_report(random: &mut Random) -> Vec<u8> {
    joined(&report(random))
}

pub fn byte(random: &mut Random) -> u8 {
    let odd = random.below(256) as u8;
    *random.pick(&[b'\t', b'\n', b'\r', b' ', b'0', b'1', b'8', b'-', b'r', b'v', b's', b'E', b'N', 0, odd])
}

/// A kind of pair, and the pair.
pub fn generate(seed: u64, index: u64) -> (usize, Vec<u8>, Vec<u8>) {
    let mut random = Random::of(seed, index);
    let kind = random.below(KINDS.len());
    let lines = report(&mut random);
    let first = joined(&lines);
    let second = changed(&mut random, kind, lines, &first);
    if random.percent(50) { (kind, first, second) } else { (kind, second, first) }
}

fn changed(random: &mut Random, kind: usize, mut lines: Vec<String>, first: &[u8]) -> Vec<u8> {
    let at = random.below(first.len());
    let line = random.below(lines.len());
    let mut bytes = first.to_vec();
    match KINDS[kind] {
        "equal" => return bytes,
        "a byte changed" => bytes[at] = byte(random),
        "a byte put in" => bytes.insert(at, byte(random)),
        "a byte taken out" => {
            bytes.remove(at);
        }
        "cut" => bytes.truncate(at),
        "no line feed" => {
            bytes.pop();
        }
        "empty" => bytes.clear(),
        "two others" => return joined(&report(random)),
        "a line dropped" => {
            lines.remove(line);
            return joined(&recounted(random, lines));
        }
        "a line repeated" => {
            lines.insert(line, lines[line].clone());
            return joined(&recounted(random, lines));
        }
        "two lines swapped" => {
            let other = random.below(lines.len());
            lines.swap(line, other);
            return joined(&lines);
        }
        "a wrong count" => {
            lines[0] = header(random, line);
            return joined(&lines);
        }
        "lines behind" => {
            lines.extend((0..2).map(|_| some_line(random)));
            return joined(&recounted(random, lines));
        }
        _ => {
            field_changed(random, &mut lines);
            return joined(&lines);
        }
    }
    bytes
}

// ---- the comparison

/// What a command writes of a batch of pairs, an answer each.
fn answers(command: &str, pairs: &[(usize, Vec<u8>, Vec<u8>)]) -> Result<Vec<Vec<u8>>, String> {
    let texts: Vec<&[u8]> = pairs.iter().flat_map(|(_, first, second)| vec![&first[..], &second[..]]).collect();
    answered(command, &texts)
}

/// The frames that a command writes of texts in frames.
pub fn answered(command: &str, texts: &[&[u8]]) -> Result<Vec<Vec<u8>>, String> {
    let mut child = Command::new("sh")
        .arg("-c")
        .arg(format!("exec {}", command))
        .stdin(Stdio::piped())
        .stdout(Stdio::piped())
        .spawn()
        .map_err(|e| format!("cannot start {}: {}", command, e))?;
    let mut input = Vec::new();
    for text in texts {
        write_frame(&mut input, text).map_err(|e| e.to_string())?;
    }
    let mut stdin = child.stdin.take().unwrap();
    let feeder = std::thread::spawn(move || {
        let _ = stdin.write_all(&input);
    });
    let mut bytes = Vec::new();
    child.stdout.take().unwrap().read_to_end(&mut bytes).map_err(|e| e.to_string())?;
    let _ = feeder.join();
    child.wait().map_err(|e| e.to_string())?;
    let mut output = Cursor::new(bytes);
    let mut list = Vec::new();
    while let Some(answer) = read_frame(&mut output)? {
        list.push(answer);
    }
    Ok(list)
}

fn difference(index: u64, pair: &(usize, Vec<u8>, Vec<u8>), ours: &[u8], given: &[u8]) -> String {
    let shown = |bytes: &[u8]| String::from_utf8_lossy(bytes).escape_debug().to_string();
    format!(
        "pair {}: a difference\n  first  {}\n  second {}\n  oracle {}\n  product {}",
        index, shown(&pair.1), shown(&pair.2), shown(ours), shown(given)
    )
}

/// Compares a command with the second implementation on generated pairs.
pub fn drive(count: u64, seed: u64, command: &str) -> Result<(), String> {
    let mut told: BTreeMap<&str, usize> = BTreeMap::new();
    let mut start = 0;
    while start < count {
        let end = count.min(start + BATCH);
        let pairs: Vec<_> = (start..end).map(|index| generate(seed, index)).collect();
        let given = answers(command, &pairs)?;
        for (at, pair) in pairs.iter().enumerate() {
            let ours = compared(&pair.1, &pair.2);
            let answer = given.get(at).ok_or(format!("only {} of {} pairs were answered", given.len(), pairs.len()))?;
            if *answer != ours {
                return Err(difference(start + at as u64, pair, &ours, answer));
            }
            let answer = match (ours[0], ours.as_slice()) {
                (b'M', _) => "malformed",
                (_, b"D\t0\n") => "equal",
                _ => "parting",
            };
            *told.entry(answer).or_insert(0) += 1;
        }
        if given.len() != pairs.len() {
            return Err(format!("{} answers to {} pairs", given.len(), pairs.len()));
        }
        start = end;
    }
    let parts: Vec<String> = told.iter().map(|(what, n)| format!("{} {}", n, what)).collect();
    println!("{} pairs of reports, seed {} ({}): 0 differences", count, seed, parts.join(", "));
    Ok(())
}
