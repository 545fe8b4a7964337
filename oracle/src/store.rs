//! The stored lists: small sheets chosen so that every feature of an answer occurs a few times.

use crate::columns::at_every_target;
use crate::damage::{boundaries, most_visits};
use crate::drive::{fault_kinds, refused_as, refused_at, sensitive, ORDERS};
use crate::frames::{answers, read_frame, write_frame, Answers, Old, STORED};
use crate::generate::{generate, KINDS};
use crate::plain::{reached, Wrong, WRONGS};
use crate::report::refusal;
use crate::selftest::{as_text, CASES};
use crate::sheet::{broken, falls, read};
use std::collections::{BTreeMap, HashMap};
use std::fs::File;
use std::io::{BufReader, BufWriter, Write};

/// Of the generated sheets the reader's list takes only those shorter than this.
const SHORT_SHEET: usize = 1_000;
/// Reports longer than this are near the longest.
const LONG_REPORT: usize = 31_000;

/// A sheet that may be stored, with its features: a name, and how often it is wanted.
struct Candidate {
    sheet: Vec<u8>,
    features: Vec<(String, usize)>,
}

impl Candidate {
    /// One in which an inst falls counts for that alone, so that the others bring every feature.
    fn of(sheet: Vec<u8>, mut features: Vec<(String, usize)>) -> Candidate {
        if falls(&sheet) {
            let judged = if read(&sheet).is_ok() { "read" } else { "refused" };
            features = vec![(format!("an inst falls, {}", judged), 12)];
        }
        Candidate { sheet, features }
    }
}

/// Takes the smallest sheets first, as long as they bring a feature that is still wanted. Gives the
/// sheets and how many of them have each feature.
fn choose(mut candidates: Vec<Candidate>) -> (Vec<Vec<u8>>, BTreeMap<String, usize>) {
    candidates.sort_by(|a, b| (a.sheet.len(), &a.sheet).cmp(&(b.sheet.len(), &b.sheet)));
    candidates.dedup_by(|a, b| a.sheet == b.sheet);
    let mut counts: BTreeMap<String, usize> = BTreeMap::new();
    let mut chosen = Vec::new();
    for mut candidate in candidates {
        candidate.features.sort();
        candidate.features.dedup();
        let count = |name: &String| counts.get(name).cloned().unwrap_or(0);
        if candidate.features.iter().any(|(name, wanted)| count(name) < *wanted) {
            for (name, _) in candidate.features {
                *counts.entry(name).or_insert(0) += 1;
            }
            chosen.push(candidate.sheet);
        }
    }
    (chosen, counts)
}

/// Writes both lists into a folder, and what the first one covers.
pub fn store(folder: &str, sheets: u64, seed: u64) -> Result<(), String> {
    let mut stored = File::create(format!("{}/answers.frames", folder)).map_err(text)?;
    let (chosen, covered) = choose(answer_candidates(sheets, seed));
    write_answers(&mut stored, &chosen).map_err(text)?;
    let lines: String =
        covered.iter().map(|(name, count)| format!("{:>5}  {}\n", count, name)).collect();
    std::fs::write(format!("{}/coverage.txt", folder), lines).map_err(text)?;
    println!("answers.frames: {} sheets", chosen.len());

    let mut stored = File::create(format!("{}/reader.frames", folder)).map_err(text)?;
    let mut list = boundaries();
    list.extend(at_every_target().into_iter().map(|(_, sheet)| sheet));
    list.sort_by(|a, b| (a.len(), a).cmp(&(b.len(), b)));
    list.dedup();
    let (more, _) = choose(reader_candidates(sheets, seed));
    let more: Vec<Vec<u8>> = more.into_iter().filter(|sheet| !list.contains(sheet)).collect();
    list.extend(more);
    write_reader(&mut stored, &list).map_err(text)?;
    println!("reader.frames: {} sheets", list.len());
    Ok(())
}

fn text<T: ToString>(error: T) -> String {
    error.to_string()
}

fn write_answers(file: &mut File, sheets: &[Vec<u8>]) -> std::io::Result<()> {
    let mut out = BufWriter::new(file);
    for sheet in sheets {
        write_frame(&mut out, sheet)?;
        for answer in answers(sheet, Old::Rust, Wrong::Nothing).iter().take(STORED) {
            write_frame(&mut out, answer)?;
        }
    }
    out.flush()
}

fn write_reader(file: &mut File, sheets: &[Vec<u8>]) -> std::io::Result<()> {
    let mut out = BufWriter::new(file);
    for sheet in sheets {
        write_frame(&mut out, sheet)?;
        write_frame(&mut out, &reader_answer(sheet))?;
    }
    out.flush()
}

fn reader_answer(sheet: &[u8]) -> Vec<u8> {
    match read(sheet) {
        Ok(_) => b"ok\n".to_vec(),
        Err(refused) => refusal(refused),
    }
}

fn answer_candidates(sheets: u64, seed: u64) -> Vec<Candidate> {
    let mut list = Vec::new();
    for index in 0..sheets {
        let (kind, sheet) = generate(seed, index);
        let wanted = if KINDS[kind] == "large" { 1 } else { 8 };
        let mut features = answer_features(&sheet);
        features.push((format!("kind {}", KINDS[kind]), wanted));
        list.push(Candidate::of(sheet, features));
    }
    for (number, (case, _, _)) in CASES.iter().enumerate() {
        let features = vec![(format!("case {} of document 01", number), 1)];
        list.push(Candidate { sheet: as_text(case), features });
    }
    for sheet in boundaries() {
        let mut features = answer_features(&sheet);
        let report = answers(&sheet, Old::Plain, Wrong::Nothing)[1].len();
        if report > LONG_REPORT {
            features.push(("a long report".to_string(), 1));
        }
        if most_visits().contains(&sheet) {
            features.push(("the most visits".to_string(), 2));
        }
        list.push(Candidate { sheet, features });
    }
    list
}

/// What an answer shows.
fn answer_features(sheet: &[u8]) -> Vec<(String, usize)> {
    let given = answers(sheet, Old::Rust, Wrong::Nothing);
    let mut list = Vec::new();
    for (name, wrong) in WRONGS.iter() {
        if answers(sheet, Old::Plain, *wrong) != given {
            list.push((format!("finds {}", name), 6));
        }
    }
    if let Some(number) = refused_as(&given[0]) {
        list.push((format!("refused {}", number), 6));
        return list;
    }
    for (rule, name) in ["old", "house"].iter().enumerate() {
        let kinds = fault_kinds(&given[rule]);
        if kinds.is_empty() {
            list.push((format!("{} accepted", name), 6));
        }
        for kind in &kinds {
            list.push((format!("{} kind {}", name, kind), 8));
        }
        let class = size_class(kinds.len());
        list.push((format!("{} faults {}", name, class), if class > 5 { 1 } else { 3 }));
    }
    for (name, wrong) in ORDERS.iter() {
        let [report, states] = sensitive(sheet, &given, *wrong);
        if report {
            list.push((format!("report {}", name), 12));
        }
        if states {
            list.push((format!("states {}", name), 12));
        }
    }
    list.extend(fault_pairs(&given));
    list.extend(cell_pairs(&given));
    list.extend(shape_features(sheet, &given));
    list
}

fn size_class(count: usize) -> u32 {
    (count as u32 + 1).next_power_of_two().trailing_zeros()
}

/// Steps of one sheet that the rules judge differently.
fn fault_pairs(given: &Answers) -> Vec<(String, usize)> {
    let faults = |answer: &[u8]| -> HashMap<String, String> {
        let text = String::from_utf8_lossy(answer).to_string();
        let lines = text.lines().filter(|line| line.starts_with('E'));
        lines
            .map(|line| {
                let fields: Vec<&str> = line.split('\t').collect();
                (format!("{} {}", fields[1], fields[2]), fields[4].to_string())
            })
            .collect()
    };
    let (old, house) = (faults(&given[0]), faults(&given[1]));
    let mut list = Vec::new();
    for (step, kind) in &old {
        let other = house.get(step).map_or("none", |kind| kind.as_str());
        list.push((format!("step old {} house {}", kind, other), 3));
    }
    for (step, kind) in &house {
        if !old.contains_key(step) {
            list.push((format!("step old none house {}", kind), 3));
        }
    }
    list
}

/// Cells of one entry state that the rules fill differently.
fn cell_pairs(given: &Answers) -> Vec<(String, usize)> {
    let cells = |answer: &[u8]| -> Vec<String> {
        let text = String::from_utf8_lossy(answer).to_string();
        let kind = |field: &str| match field.chars().next() {
            Some('r') | Some('v') if field.ends_with('*') => "marked".to_string(),
            Some('r') | Some('v') => "name".to_string(),
            _ => field.to_string(),
        };
        text.lines().flat_map(|line| line.split('\t').skip(3).map(kind)).collect()
    };
    let (old, house) = (cells(&given[2]), cells(&given[3]));
    old.iter().zip(&house).map(|(a, b)| (format!("cell {} {}", a, b), 2)).collect()
}

/// Graphs: unreached blocks with faults under the old rule, with steps and without, loops, repeats, the entry.
fn shape_features(sheet: &[u8], given: &Answers) -> Vec<(String, usize)> {
    let mut list = Vec::new();
    let sheet = match read(sheet) {
        Ok(sheet) => sheet,
        Err(_) => return list,
    };
    let mut add = |name: &str, holds: bool| {
        if holds {
            list.push((name.to_string(), 4));
        }
    };
    let text = String::from_utf8_lossy(&given[0]).to_string();
    let reached = reached(&sheet);
    let accepted = fault_kinds(&given[1]).is_empty();
    add("accepted with an unreached block", accepted && reached.contains(&false));
    for (at, block) in sheet.blocks.iter().enumerate() {
        let succs = &block.succs;
        let faulty = text.contains(&format!("E\t{}\t", at));
        add("unreached and faulty", !reached[at] && faulty);
        add("unreached and empty", !reached[at] && block.steps.is_empty());
        add("unreached, with a fault behind it", !reached[at] && String::from_utf8_lossy(&given[1]).contains(&format!("N\t{}\nE", at)));
        add("a block its own successor", succs.contains(&(at as u32)));
        add("repeated successors", (1..succs.len()).any(|i| succs[..i].contains(&succs[i])));
        add("the entry a successor", reached[at] && succs.contains(&sheet.entry));
        add("eight successors", succs.len() == 8);
    }
    add("entry not 0", sheet.entry > 0);
    add("no registers", sheet.regs == 0);
    add("no slots", sheet.slots == 0);
    add("no virtual names", sheet.vregs == 0);
    list.push((format!("blocks {}", size_class(sheet.blocks.len())), 3));
    list
}

fn reader_candidates(sheets: u64, seed: u64) -> Vec<Candidate> {
    let mut list = Vec::new();
    for index in 0..sheets {
        let (kind, sheet) = generate(seed, index);
        let wanted = ["damaged", "several", "limits", "columns"].contains(&KINDS[kind]);
        if wanted && sheet.len() < SHORT_SHEET {
            let answer = String::from_utf8_lossy(&reader_answer(&sheet)).to_string();
            let number: String = answer.chars().take(3).collect();
            let mut features = vec![(format!("{} {:?}", number, broken(&sheet)), 4)];
            features.extend(refused_at(&sheet).map(|target| (format!("{:?}", target), 1)));
            list.push(Candidate::of(sheet, features));
        }
    }
    list
}

/// Holds both stored lists against the oracle.
pub fn check(folder: &str) -> Result<(), String> {
    let mut input = BufReader::new(File::open(format!("{}/answers.frames", folder)).map_err(text)?);
    let mut count = 0;
    while let Some(sheet) = read_frame(&mut input)? {
        for answer in answers(&sheet, Old::Rust, Wrong::Nothing).iter().take(STORED) {
            if read_frame(&mut input)?.as_ref() != Some(answer) {
                return Err(format!("answers.frames: sheet {} has another answer now", count));
            }
        }
        count += 1;
    }
    println!("answers.frames: {} sheets as stored", count);
    let mut input = BufReader::new(File::open(format!("{}/reader.frames", folder)).map_err(text)?);
    count = 0;
    while let Some(sheet) = read_frame(&mut input)? {
        if read_frame(&mut input)? != Some(reader_answer(&sheet)) {
            return Err(format!("reader.frames: sheet {} has another answer now", count));
        }
        count += 1;
    }
    println!("reader.frames: {} sheets as stored", count);
    Ok(())
}
