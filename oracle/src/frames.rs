//! Frames (a line `#` and a decimal length, then that many bytes) and the six answers to a sheet.

use crate::house::{house_faults, named};
use crate::old;
use crate::plain::{missing, old_faults, unreached, State, Wrong};
use crate::report::{refusal, report, states};
use crate::seals::sealed;
use crate::sheet::{read_with, Sheet};
use std::io::{self, BufRead, Write};

pub const FRAME_LIMIT: usize = 70_000;

/// Old answer, house answer, old entry states, house entry states, the sealed house answer, empty where it is a refusal, and the sheet
/// written back, empty where it is refused.
pub type Answers = [Vec<u8>; 6];

/// How many of them the stored lists hold: all but the sealed one and the sheet itself.
pub const STORED: usize = 4;

/// Who answers for the old rule.
#[derive(Clone, Copy, PartialEq, Eq)]
pub enum Old {
    /// The Rust, its entry states too.
    Rust,
    /// The Rust for the report, the plain implementation for the entry states.
    RustReport,
    /// The plain implementation.
    Plain,
}

/// The answers to a sheet.
pub fn answers(sheet: &[u8], old: Old, wrong: Wrong) -> Answers {
    match read_with(sheet, wrong) {
        Ok(sheet) => read_answers(&sheet, old, wrong),
        Err(refused) => {
            let line = refusal(refused);
            [line.clone(), line, Vec::new(), Vec::new(), Vec::new(), Vec::new()]
        }
    }
}

fn read_answers(sheet: &Sheet, old: Old, wrong: Wrong) -> Answers {
    let missing = missing(sheet);
    let (old_answer, old_states) = match old {
        Old::Plain => plain_old_answer(sheet, wrong),
        _ => rust_old_answer(sheet, old),
    };
    let (house_answer, house_states) = match missing {
        Some(faults) => {
            let beside = if wrong == Wrong::NamedBesideMissing { unreached(sheet) } else { Vec::new() };
            (report("house", &faults, &beside, wrong), Vec::new())
        }
        None => {
            let (faults, list) = house_faults(sheet, wrong);
            let answer = report("house", &faults, &named(sheet, &list, wrong), wrong);
            let marked: Vec<(char, State)> =
                list.into_iter().map(|(v, s)| (if v { '1' } else { '0' }, s)).collect();
            (answer, states(&marked))
        }
    };
    let sealed_answer = sealed(&house_answer);
    [old_answer, house_answer, old_states, house_states, sealed_answer, sheet.text()]
}

fn old_state_lines(list: Vec<State>) -> Vec<u8> {
    let marked: Vec<(char, State)> = list.into_iter().map(|state| ('-', state)).collect();
    states(&marked)
}

/// The old report and entry states of a read sheet by the plain implementation.
pub fn plain_old_answer(sheet: &Sheet, wrong: Wrong) -> (Vec<u8>, Vec<u8>) {
    match missing(sheet) {
        Some(faults) => (report("old", &faults, &[], wrong), Vec::new()),
        None => {
            let (faults, list) = old_faults(sheet, wrong);
            let named = if wrong == Wrong::OldNamed { unreached(sheet) } else { Vec::new() };
            (report("old", &faults, &named, wrong), old_state_lines(list))
        }
    }
}

fn rust_old_answer(sheet: &Sheet, old: Old) -> (Vec<u8>, Vec<u8>) {
    let outcome = old::check(sheet, old == Old::Rust);
    let lines = match outcome.states {
        Some(list) => old_state_lines(list),
        None if outcome.missing => Vec::new(),
        None => old_state_lines(old_faults(sheet, Wrong::Nothing).1),
    };
    (report("old", &outcome.faults, &[], Wrong::Nothing), lines)
}

pub fn write_frame(out: &mut dyn Write, bytes: &[u8]) -> io::Result<()> {
    write!(out, "#{}\n", bytes.len())?;
    out.write_all(bytes)
}

/// The next frame; none at the end of input.
pub fn read_frame(input: &mut dyn BufRead) -> Result<Option<Vec<u8>>, String> {
    let mut line = Vec::new();
    input.read_until(b'\n', &mut line).map_err(|e| e.to_string())?;
    if line.is_empty() {
        return Ok(None);
    }
    let length = frame_length(&line).ok_or("malformed frame: no line `#` and a length")?;
    let mut bytes = vec![0; length];
    input.read_exact(&mut bytes).map_err(|_| "malformed frame: fewer bytes than its length")?;
    Ok(Some(bytes))
}

fn frame_length(line: &[u8]) -> Option<usize> {
    let text = std::str::from_utf8(line).ok()?.strip_prefix('#')?.strip_suffix('\n')?;
    if text.is_empty() || text.len() > 9 || !text.bytes().all(|byte| byte.is_ascii_digit()) {
        return None;
    }
    text.parse().ok()
}

/// Answers every sheet of the input with six frames.
pub fn speak(
    input: &mut dyn BufRead,
    out: &mut dyn Write,
    old: Old,
    wrong: Wrong,
) -> Result<(), String> {
    loop {
        let sheet = match read_frame(input)? {
            None => return out.flush().map_err(|e| e.to_string()),
            Some(sheet) if sheet.len() > FRAME_LIMIT => {
                return Err("malformed frame: longer than 70000 bytes".to_string())
            }
            Some(sheet) => sheet,
        };
        for answer in answers(&sheet, old, wrong).iter() {
            write_frame(out, answer).map_err(|e| e.to_string())?;
        }
    }
}
