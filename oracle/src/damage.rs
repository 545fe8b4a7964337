//! Sheets around the limits, damaged sheets, and lines that break several refusals at once. Most are
//! to be turned away; each has a near neighbour that is read.

use crate::columns::at_every_target;
use crate::generate::{allocated, any_inst, numbered, small, tangled};
use crate::random::Random;
use crate::sheet::{
    Sheet, BLOCKS_LIMIT, INST_LIMIT, OPERANDS_LIMIT, REGS_LIMIT, SHEET_LIMIT, SLOTS_LIMIT, STEPS_LIMIT, SUCCS_LIMIT, VREGS_LIMIT,
};

/// The limits as the texts below name them: `<blocks>`, and near it `<blocks-2>`, `<blocks-1>`, `<blocks+1>`.
const LIMITS: [(&str, u32); 6] = [
    ("regs", REGS_LIMIT),
    ("slots", SLOTS_LIMIT),
    ("vregs", VREGS_LIMIT),
    ("blocks", BLOCKS_LIMIT),
    ("inst", INST_LIMIT),
    ("operands", OPERANDS_LIMIT as u32),
];

/// Text with numbers for the limits that it names.
fn limited(text: &str) -> String {
    let mut text = text.to_string();
    for &(name, limit) in LIMITS.iter().filter(|_| text.contains('<')).collect::<Vec<_>>() {
        for (sign, value) in &[("", limit), ("-2", limit - 2), ("-1", limit - 1), ("+1", limit + 1)] {
            text = text.replace(&format!("<{}{}>", name, sign), &value.to_string());
        }
    }
    text
}

/// Text with limits by name, and with blanks for tabs, to a sheet's bytes.
pub fn sheet(text: &str) -> Vec<u8> {
    limited(text).replace(' ', "\t").into_bytes()
}

const HEAD: &str = "F 2 2 2 1 0\nB\n";
const HEAD_T: &str = "F 2 2 3 1 0\nT 1\nB\n";

/// Lines behind `HEAD`: both sides of each limit of a step, each form and each rule of a line.
const STEP_LINES: &[&str] = &[
    "S 0 0", "S 1 1", "S 2 0", "S 0 2", "S 2 2", "S 0", "S", "S 0 0 0", "S 0 r0", "S 0 -", "S v0 0",
    "L 0 0", "L 1 1", "L 2 0", "L 0 2", "L 2 2", "L 0", "L", "L 0 0 0", "L r0 0", "L 0 s0",
    "M 0 0", "M 1 1", "M 2 0", "M 0 2", "M 2 2", "M 0", "M", "M 0 0 0", "M r0 r1", "M 1 -",
    "C 0 0 v0 v1", "C <inst> 1 v1 v0", "C <inst+1> 0 v0 v1", "C 99999 0 v0 v1", "C 100000 0 v0 v1",
    "C 0 2 v0 v1", "C 0 0 v2 v1", "C 0 0 v0 v2", "C 0 0 r1 v1", "C 0 0 r2 v1", "C 0 0 v1 r1",
    "C 0 0 v1 r2", "C 0 0 r0 r0", "C 0 0 v0", "C 0 0 v0 v1 v0", "C 0 0 0 v1", "C 0 0 v0 1",
    "C 0 0 - v1", "C 0 0 r v1", "C 0 0 v v1", "C 0 0 r00 v1", "C 0 0 v01 v1", "C 0 0 V0 v1",
    "C 0 0 R0 v1", "C 0 0 x0 v1", "C 0 0 s0 v1", "C 0 0 v99999 v1", "C 0 0 v100000 v1",
    "C 0 0 v-1 v1", "C 0 0 v0* v1", "C", "C 0", "C 0 0", "C v0 v1 0 0", "C 0 99999 v0 v1",
    "O", "O 0", "O 0 0", "O 0 0 0", "O 0 0 0 0", "O <inst> 0 0", "O <inst+1> 0 0", "O 99999 0 0",
    "O 100000 0 0", "O 00 0 0", "O 0 00 0", "O 0 0 00", "O - 0 0", "O 0 - 0", "O 0 0 -",
    "O 0 1 v0 0 0", "O 0 1 v1 1 0", "O 0 1 v2 0 0", "O 0 1 v0 2 0", "O 0 1 v0 - 0", "O 0 1 r0 0 0",
    "O 0 1 r1 1 0", "O 0 1 r2 2 0", "O 0 1 r0 1 0", "O 0 1 r0 - 0", "O 0 1 r0 2 0", "O 0 1 r2 - 0",
    "O 0 1 v0 r0 0", "O 0 1 0 v0 0", "O 0 1 v0 -- 0", "O 0 1 v0 0", "O 0 2 v0 0 0", "O 0 0 v0 0 0",
    "O 0 1 v0 0 0 0", "O 0 1 v0 0 1", "O 0 0 1", "O 0 0 1 v0", "O 0 0 1 v0 0", "O 0 0 1 v1 1",
    "O 0 0 1 v2 0", "O 0 0 1 v0 2", "O 0 0 1 v0 -", "O 0 0 1 r0 0", "O 0 0 1 r2 2", "O 0 0 1 r0 1",
    "O 0 0 1 r0 -", "O 0 0 2 v0 0", "O 0 0 1 v0 0 v1 1", "O 0 2 v0 0 v1 1 0", "O 0 2 v0 0 v0 1 0",
    "O 0 2 v0 0 v0 0 0", "O 0 2 v0 0 v1 0 0", "O 0 2 v0 - v0 - 0", "O 0 2 v0 - v1 - 0",
    "O 0 2 r0 0 r0 0 0", "O 0 2 r0 0 v0 0 0", "O 0 2 v0 0 r0 0 0", "O 0 0 2 v0 0 v1 1",
    "O 0 0 2 v0 0 v0 1", "O 0 0 2 v0 0 v1 0", "O 0 0 2 v0 0 v0 0", "O 0 0 2 v0 - v1 -",
    "O 0 0 2 v0 - v0 -", "O 0 0 2 v0 - v1 0", "O 0 0 2 r0 0 v0 0", "O 0 0 2 r0 0 v0 -",
    "O 0 0 2 r0 0 r1 1", "O 0 0 2 r0 0 r0 0", "O 0 0 2 r0 0 r0 1", "O 0 0 2 r0 - v1 0",
    "O 0 0 2 r0 - r1 -", "O 0 0 2 r0 1 v1 1", "O 0 0 2 r0 1 v1 0", "O 0 0 2 r0 1 r1 0",
    "O 0 1 v0 0 1 v0 0", "O 0 1 r0 0 1 r0 0", "O 0 1 v0 - 1 v1 -", "O 0 <operands+1> 0", "O 0 0 <operands+1>",
    "O 0 99999 0", "O 0 100000 0", "O 0 0 99999", "O 0 1 v0 0 99999", "O 0 <operands> 0", "O 0 0 <operands>",
    "O 0 2 v0 0 v0 2 0", "O 0 2 v2 0 v2 1 0", "O 0 2 r0 1 r0 1 0", "O 0 2 r0 2 r0 2 0",
    "O 0 1 r0 1 1 v0 2", "O <inst+1> 1 r0 1 0", "O <inst+1> 2 v0 0 v0 0 0", "O <inst+1> 0 x",
    "P 0", "P <inst>", "P <inst+1>", "P 99999", "P 100000", "P", "P 0 0", "P 0 1", "P 0 2", "P 0 0 1",
    "P 0 1 0", "P 0 0 0", "P 0 1 1", "P 0 0 1 2", "P 0 2 1", "P 0 2 2", "P 0 0 r0", "P 0 s0",
    "P 0 -", "P v0", "P 0 0 1 1", "P <inst+1> 1 0", "P <inst+1> 0 0 x", "P 00 0", "P 0 00", "P 0 01",
    "P 0 0 1 0",
    "F 2 2 2 1 0", "F 0 0 0 1 0", "F 99 99 999 99 99", "F 2 2 2 1", "F", "F 2 2 2 1 x",
    "T 0", "T 1", "T 2", "T", "T 0 0", "T v0", "T -", "B", "B 0", "B 1", "B 0 0 0 0 0 0 0 0 0",
    "", " ", "  ", "X 0", "s 0 0", "o 0 0 0", "p 0", "SS 0 0", "S0 0 0", "E 0 0 0 1 - - -",
    "R old 0", "#", "# S 0 0", "-", "0", "v0", "S 0 0 ", " S 0 0", "S  0 0", "S 0  0", "P 0 ",
    "B ", "B 0 ", "O 0 0 0 ", "M +0 0", "M -0 0", "M 0x0 0", "M 1e0 0", "M 00000 0", "M 000000 0",
    "M 00001 0", "M 99999 0", "M 100000 0", "M 4294967296 0", "M 18446744073709551616 0",
    "M <inst+1> 0", "M <vregs> 0", "M 0.0 0", "M \u{0661} 0", "S 0 0\r", "B\r", "\r", "P 0\r",
    "S x", "S 0 x", "S 0 x 0", "S 0 0 0 0", "L x 2", "Q 0 x", "B 0 x", "B 0 0 0 0 0 0 0 0 x", "B 0 x 0 0 0 0 0 0 0 0", "C 0 x v0", "P 0 1 0 2", "P 0 1 0 1 0",
    "O 0 4 v0 0 v1 0 v1 0 v0 0 0", "O 0 4 v0 0 v1 0 r1 1 v0 0 0", "O 0 0 3 v0 0 v1 0 v0 1", "O 0 2 v0 0 v0 0 2 v0 0 v0 0",
    "O 0 99999 v0 0 v1 -", "O 0 9 v0", "O 0 9 v0 x", "O 0 1 v0 0 1 v0", "O 0 2 v0 0 v0 0 1 r1 2", "O 0 2 r0 0 r1 0 1 r0 1",
    "S\u{a0}0 0", "S 0 0\u{0}", "\u{0}", "S 0 \u{0}", "\u{feff}S 0 0", "\u{00e9}",
];

/// Lines behind `HEAD_T`, where v1 alone is reference-typed.
const CHANGE_LINES: &[&str] = &[
    "C 0 0 v0 v1", "C 0 0 v1 v0", "C 0 0 v1 v1", "C 0 0 v0 v2", "C 0 0 r0 v1", "C 0 0 v1 r0",
    "C 0 0 r0 v0", "C 0 0 v1 v3", "C 0 0 v3 v1", "C 0 2 v0 v1", "C <inst+1> 0 v0 v1", "C <inst> 0 v0 v1",
    "C 0 0 v0 v1 v1", "C 0 0 v0 v01", "C 0 0 r2 v1", "C 0 0 r1 v1", "T 2", "T 1", "T 0", "T 3",
];

/// What may stand between the counts and the first block of `F 2 2 3 1 0`.
const T_LINES: &[&str] = &[
    "T 0", "T 2", "T 3", "T 0\nT 1", "T 0\nT 2", "T 0\nT 1\nT 2", "T 1\nT 0", "T 1\nT 1",
    "T 2\nT 3", "T 3\nT 3", "T 2\nT 2", "T 1\nT 2\nT 0", "T 99999", "T 100000", "T 00", "T", "T 0 1",
    "T v0", "T r0", "T -", "T ", "T 2\nT 1\nT 9", "S 0 0", "L 0 0", "M 0 0", "C 0 0 v0 v1", "O 0 0 0",
    "P 0", "S 9 9", "S 0", "T 0\nS 0 0", "T 1\nF 2 2 3 1 0", "F 2 2 3 1 0", "F", "",
];

/// First lines.
const F_LINES: &[&str] = &[
    "F <regs> 0 0 1 0", "F <regs+1> 0 0 1 0", "F 0 <slots> 0 1 0", "F 0 <slots+1> 0 1 0", "F 0 0 <vregs> 1 0",
    "F 0 0 <vregs+1> 1 0", "F 0 0 0 0 0", "F 0 0 0 1 0", "F 0 0 0 1 1", "F 0 0 0 2 1", "F 0 0 0 2 2",
    "F 0 0 0 <blocks+1> 0", "F 0 0 0 <blocks+1> <blocks>", "F 0 0 0 <blocks> <blocks-1>", "F 0 0 0 <blocks> <blocks>",
    "F <regs> <slots> <vregs> 1 0",
    "F <regs+1> <slots+1> <vregs+1> <blocks+1> <blocks+1>", "F 99999 0 0 1 0", "F 100000 0 0 1 0", "F 0 0 0 1 99999", "F 0 0 0 1 00",
    "F 00 0 0 1 0", "F 01 0 0 1 0", "F 0 0 0 01 0", "F 0 0 0 1", "F 0 0 0 1 0 0", "F", "F ",
    "F 0 0 0 1 ", "F 0 0 0 1 0 ", "F r0 0 0 1 0", "F - 0 0 1 0", "f 0 0 0 1 0", "FF 0 0 0 1 0",
    "F  0 0 1 0", " F 0 0 0 1 0", "F 0 0 0 1 0\r", "T 0", "B", "B 0", "S 0 0", "L 0 0", "M 0 0",
    "C 0 0 v0 v1", "O 0 0 0", "P 0", "S 0", "S 99 99", "T", "", "X 3 1", "R old 0", "F <regs> <slots> <vregs> <blocks> 0",
    "F 2 2 2 1 0\nF 2 2 2 1 0", "F 2 2 2 1 0\nF 99 2 2 1 0", "F 2 2 2 1 0\nF 2 2 2 1",
    "F 0 0 1 1 0\nT 0", "F 0 0 0 1 0\nT 0", "F 0 0 1 1 0\nT 1",
];

/// Whole sheets.
const WHOLE: &[&str] = &[
    "", "\n", "\n\n", "F", "F\n", "F 2 2 2 1 0", "F 2 2 2 1 0\n", "F 2 2 2 1 0\nB",
    "F 2 2 2 1 0\nB\n", "F 2 2 2 1 0\nB\n\n", "\nF 2 2 2 1 0\nB\n", "F 2 2 2 1 0\n\nB\n",
    "F 2 2 2 2 0\nB\n", "F 2 2 2 2 0\nB\nB\n", "F 2 2 2 2 0\nB\nB\nB\n", "F 2 2 2 2 0\n",
    "F 2 2 2 2 0\nB\nS 0 0\n", "F 2 2 2 2 0\nB 1\nB 0\n", "F 2 2 2 2 0\nB 2\nB 0\n",
    "F 2 2 2 2 0\nB 0 1 0 1 0 1 0 1\nB\n", "F 2 2 2 2 0\nB 0 1 0 1 0 1 0 1 0\nB\n",
    "F 2 2 2 2 0\nB 0 1 0 1 0 1 0 2\nB\n", "F 2 2 2 2 0\nB 0 1 0 1 0 1 0 2 0\nB\n",
    "F 2 2 2 2 0\nB 9\nB 1\n", "F 2 2 2 1 0\nB\nB 9\n", "F 2 2 2 1 0\nB\nB 0 0 0 0 0 0 0 0 9 9\n",
    "F 2 2 2 1 0\nB\nS 0 0", "F 2 2 2 1 0\nB\nS 9 9", "F 2 2 2 1 0\nB\nS 0 0\nQ", "Q", "Q\n",
    "F 2 2 2 1 0\r\nB\r\n", "F 2 2 2 1 0\rB\r", "F,2,2,2,1,0\nB\n", "F 2 2 2 1 0\nB\nT 0\n",
    "F 2 2 2 2 0\nB\nT 0\n", "F 2 2 2 2 0\nB\nT 1\nT 0\n", "F 2 2 2 2 0\nB\nF 2 2 2 2 0\n",
    "F 2 2 2 2 1\nB\nO 0 1 v0 0 0\nB\n", "F 2 2 2 1 0\nB\nO 1 1 v0 - 0\n",
    "B\nF 2 2 2 1 0\n", "T 0\nF 2 2 2 1 0\nB\n", "S 0 0\nF 2 2 2 1 0\nB\n",
];

fn line_sheets(head: &str, lines: &[&str], tail: &str) -> Vec<Vec<u8>> {
    lines.iter().map(|line| sheet(&format!("{}{}\n{}", head, line, tail))).collect()
}

/// What every run compares behind its generated sheets: those at the limits, each set of numbers that the
/// 1,025th step can break at once, and a sheet for each letter, number and field that a refusal can name.
pub fn always() -> Vec<Vec<u8>> {
    let full = format!("{}{}", HEAD_T, "M 0 0\n".repeat(STEPS_LIMIT));
    let mut list = boundaries();
    for last in &[
        "S 2 0", "P 0 1 0", "O 0 1 r0 1 0", "C 0 0 v0 v1", "P 0 2 1", "O 0 1 r0 2 0", "C 0 2 v0 v1",
        "O 0 2 r0 1 r0 1 0", "O 0 2 r0 2 r0 2 0",
    ] {
        list.push(sheet(&format!("{}{}\n", full, last)));
    }
    list.extend(at_every_target().into_iter().map(|(_, sheet)| sheet));
    list
}

/// Every sheet of the tables, and the sheets at the large limits.
pub fn boundaries() -> Vec<Vec<u8>> {
    let mut list = line_sheets(HEAD, STEP_LINES, "");
    list.extend(line_sheets(HEAD_T, CHANGE_LINES, ""));
    list.extend(line_sheets("F 2 2 3 1 0\n", T_LINES, "B\n"));
    list.extend(line_sheets("", F_LINES, "B\n"));
    list.extend(WHOLE.iter().map(|text| sheet(text)));
    list.extend(operand_counts());
    list.extend(byte_values());
    list.extend(large_limits());
    list
}

/// Operations with around as many uses and defs as there may be, and safepoints with around as many slots.
fn operand_counts() -> Vec<Vec<u8>> {
    let mut list = Vec::new();
    let head = "F <regs> <slots> <vregs> 1 0\nB\n";
    let pairs = |letter: char, count: usize, first: usize| -> String {
        (0..count).map(|i| format!(" {}{} {}", letter, first + i, first + i)).collect()
    };
    for count in OPERANDS_LIMIT - 1..OPERANDS_LIMIT + 3 {
        for letter in &['r', 'v'] {
            let many = pairs(*letter, count, 0);
            list.push(sheet(&format!("{}O 0 {}{} 0\n", head, count, many)));
            list.push(sheet(&format!("{}O 0 0 {}{}\n", head, count, many)));
            list.push(sheet(&format!("{}O 0 {}{} {}{}\n", head, count, many, count, many)));
            list.push(sheet(&format!("{}O 0 {}{} 0\n", head, count - 1, many)));
            list.push(sheet(&format!("{}O 0 0 {}{}\n", head, count + 1, many)));
        }
        // Too many operands, the last a repeat or out of range.
        list.push(sheet(&format!("{}O 0 {}{} v0 0 0\n", head, count, pairs('v', count - 1, 0))));
        list.push(sheet(&format!("{}O 0 0 {}{} v0 0\n", head, count, pairs('v', count - 1, 0))));
        list.push(sheet(&format!("{}O 0 {}{} r9 0 0\n", head, count, pairs('r', count - 1, 0))));
        list.push(sheet(&format!("{}O 0 {}{} v<vregs> 0 0\n", head, count, pairs('v', count - 1, 0))));
    }
    for count in SLOTS_LIMIT - 1..SLOTS_LIMIT + 3 {
        let slots: String = (0..count).map(|slot| format!(" {}", slot)).collect();
        let zeros: String = (0..count).map(|_| " 0".to_string()).collect();
        list.push(sheet(&format!("{}P 0{}\n", head, slots)));
        list.push(sheet(&format!("{}P 0{}\n", head, zeros)));
        list.push(sheet(&format!("{}P <inst+1>{}\n", head, zeros)));
    }
    for name in &["v<vregs-1>", "v<vregs>", "r<regs-1>", "r<regs>"] {
        list.push(sheet(&format!("{}C 0 <slots-1> {} v0\n", head, name)));
        list.push(sheet(&format!("{}C 0 <slots> v0 {}\n", head, name)));
        list.push(sheet(&format!("{}O 0 0 1 {} <regs-1>\n", head, name)));
        list.push(sheet(&format!("{}O 0 1 {} <regs> 0\n", head, name)));
    }
    list
}

/// A byte that is none of the sheet's, at the start, inside and at the end of a line.
fn byte_values() -> Vec<Vec<u8>> {
    let mut list = Vec::new();
    for &byte in &[0u8, 7, 11, 13, 32, 47, 58, 64, 91, 127, 128, 141, 160, 176, 255] {
        for &at in &[0usize, 1, 2, 3, 12, 13, 14, 15, 17, 20] {
            let mut bytes = sheet("F 2 2 2 1 0\nB\nS 0 0\n");
            if at % 2 == 0 && at < bytes.len() {
                bytes[at] = byte;
            } else {
                bytes.insert(at.min(bytes.len()), byte);
            }
            list.push(bytes);
        }
    }
    list
}

/// As many blocks, steps and bytes as there may be, and one more.
fn large_limits() -> Vec<Vec<u8>> {
    let mut list = Vec::new();
    let blocks = BLOCKS_LIMIT as usize;
    for &(said, lines) in &[(blocks, blocks - 1), (blocks, blocks), (blocks, blocks + 1), (blocks + 1, blocks + 1), (blocks - 1, blocks)] {
        list.push(sheet(&format!("F 1 1 1 {} {}\n{}", said, said - 1, "B 0\n".repeat(lines))));
    }
    for last in &["B <blocks-1>\n", "B <blocks>\n"] {
        list.push(sheet(&format!("F 1 1 1 <blocks> <blocks-1>\n{}{}", "B <blocks-1>\n".repeat(blocks - 1), last)));
    }
    for &count in &[STEPS_LIMIT - 1, STEPS_LIMIT, STEPS_LIMIT + 1] {
        list.push(sheet(&format!("{}{}", HEAD, "S 0 0\n".repeat(count))));
    }
    let full = format!("{}{}", HEAD_T, "M 0 0\n".repeat(STEPS_LIMIT));
    for last in &[
        "", "L 0 0", "M 0 0", "O 0 0 0", "O 0 1 v0 - 0", "P 0", "C 0 0 v0 v2", "C 0 0 v0 v1", "S 2 0",
        "S 0", "O 0 1 r0 1 0", "O 0 2 v0 0 v0 0 0", "P 0 1 0", "P <inst+1>", "T 2", "B", "F 2 2 3 1 0",
        "O 0 1 r0 2 0", "C 0 0 v3 v1",
    ] {
        list.push(sheet(&format!("{}{}\n", full, last)));
    }
    list.push(sheet(&format!("F 1 1 1 2 0\nB\n{}B\n", "S 0 0\n".repeat(STEPS_LIMIT))));
    list.push(sheet(&format!("F 1 1 1 2 0\nB\n{}B\nS 0 0\n", "S 0 0\n".repeat(STEPS_LIMIT))));
    list.push(sheet(&format!("F 1 1 1 2 0\nB\n{}", "S 0 0\n".repeat(STEPS_LIMIT))));
    list.push(sheet(&format!("F 1 1 1 2 0\nB\n{}", "S 0 0\n".repeat(STEPS_LIMIT + 1))));
    list.push(longest_report());
    list.extend(most_visits());
    list.push(of_length(SHEET_LIMIT));
    list.push(of_length(SHEET_LIMIT + 1));
    let mut open = of_length(SHEET_LIMIT);
    open[SHEET_LIMIT - 1] = b'0';
    list.push(open);
    let mut bad = of_length(SHEET_LIMIT);
    bad[SHEET_LIMIT - 2] = b'x';
    list.push(bad);
    list.push(widest("P 0", "0", "2"));
    list.push(widest("O 0 99999", "v0 0", "v0 x"));
    list
}

/// A sheet of nearly the greatest length whose last line has as many fields as find room; the last of them is what is bad.
fn widest(first: &str, each: &str, last: &str) -> Vec<u8> {
    let left = SHEET_LIMIT - HEAD.len() - first.len() - last.len() - 2;
    sheet(&format!("{}{}{} {}\n", HEAD, first, format!(" {}", each).repeat(left / (each.len() + 1)), last))
}

/// The longest report that there is: in the last block, the entry, each step uses the last name in the last register, which the first
/// one gives the last name but one; no walk comes to the other blocks.
pub fn longest_report() -> Vec<u8> {
    let blocks = "B\n".repeat(BLOCKS_LIMIT as usize);
    let steps = "O <inst> 1 v<vregs-1> <regs-1> 0\n".repeat(STEPS_LIMIT - 1);
    let first = "O <inst> 1 v<vregs-1> <regs-1> 1 v<vregs-2> <regs-1>\n";
    sheet(&format!("F <regs> <slots> <vregs> <blocks> <blocks-1>\n{}{}{}", blocks, first, steps))
}

/// Sheets whose old and whose house run make the most visits that were found. The blocks but a few form a ring, of which the last copies
/// each cell to the next, so that what a cell holds comes one cell further each time round. Under the old rule an unmarked name, a marked
/// one and a conflict follow each other through cells that begin Unknown, under the house rule a conflict and Unknown through cells that
/// begin with a name, each as far behind the one before as the ring allows.
pub fn most_visits() -> [Vec<u8>; 2] {
    let (regs, slots) = (REGS_LIMIT, SLOTS_LIMIT);
    let unknown: String = (0..regs).map(|reg| format!("L {} 0\n", reg)).collect();
    let old = ring(
        &format!("F {} {} 2 {} 0\nT 0\n", regs, slots, BLOCKS_LIMIT),
        &unknown,
        &["O 0 0 1 v1 0\n", "O 0 0 1 v0 0\n", "C 0 0 v0 v0\nL 0 0\nS 0 1\n"],
    );
    let named: String = (1..regs).map(|reg| format!("M {} 0\n", reg)).chain((0..slots - 1).map(|slot| format!("S {} 0\n", slot))).collect();
    let house = ring(
        &format!("F {} {} 2 {} 0\n", regs, slots, BLOCKS_LIMIT),
        &format!("O 0 0 1 v0 0\n{}", named),
        &["L 0 <slots-1>\nS <slots-1> 1\n", "S <slots-1> 1\nO 0 0 1 v1 0\nM <regs-1> 0\nO 0 0 1 v1 <regs-1>\n"],
    );
    [old, house]
}

/// The entry, a block for each of those that enter the ring, evenly apart, and the ring.
fn ring(head: &str, entry: &str, starts: &[&str]) -> Vec<u8> {
    let first = 1 + starts.len();
    let length = BLOCKS_LIMIT as usize - first;
    let all: String = (1..first).map(|start| format!(" {}", start)).collect();
    let mut text = format!("{}B{}\n{}", head, all, entry);
    for (at, steps) in starts.iter().enumerate() {
        text += &format!("B {}\n{}", first + at * length / starts.len(), steps);
    }
    for block in first..first + length - 1 {
        text += &format!("B {}\n", block + 1);
    }
    let (reg, slot) = (REGS_LIMIT - 1, SLOTS_LIMIT - 1);
    let slots: String = (0..slot).rev().map(|s| format!("L {} {}\nS {} {}\n", reg, s, s + 1, reg)).collect();
    let regs: String = (0..reg - 1).rev().map(|r| format!("M {} {}\n", r + 1, r)).collect();
    sheet(&format!("{}B {}\n{}S 0 {}\n{}", text, first, slots, reg - 1, regs))
}

/// A good sheet of exactly the given length: long operations behind two short lines, trimmed by their inst, so that no inst falls.
pub fn of_length(length: usize) -> Vec<u8> {
    let (names, regs) = (VREGS_LIMIT as usize - OPERANDS_LIMIT, REGS_LIMIT as usize - OPERANDS_LIMIT);
    let operands: String = (0..OPERANDS_LIMIT).map(|i| format!(" v{} {}", names + i, regs + i)).collect();
    let long = |inst: &str| format!("O {} {}{} {}{}\n", inst, OPERANDS_LIMIT, operands, OPERANDS_LIMIT, operands);
    let line = long("10000").len();
    let mut text = String::new();
    let head = limited("F <regs> <slots> <vregs> 1 0\nB\n");
    while head.len() + text.len() + 3 * line < length {
        text += &long("10000");
    }
    // What is left is filled by short lines of 4 to 8 bytes.
    while length - head.len() - text.len() > 16 {
        text += "P 65535\n";
    }
    let left = length - head.len() - text.len();
    let short = |size: usize| format!("P {}\n", &"10000"[..size - 3]);
    sheet(&format!("{}{}{}{}", head, short(left / 2), short(left - left / 2), text))
}

/// A sheet at a limit; the long ones are rare.
pub fn limits(random: &mut Random) -> Vec<u8> {
    if random.percent(12) {
        return random_limit(random);
    }
    BOUNDARIES.with(|list| loop {
        let chosen = random.pick(list);
        if chosen.len() < 3_000 || random.percent(3) {
            return chosen.clone();
        }
    })
}

thread_local! {
    static BOUNDARIES: Vec<Vec<u8>> = boundaries();
}

/// Many faults, many steps, many bytes or many blocks.
fn random_limit(random: &mut Random) -> Vec<u8> {
    match random.below(6) {
        0 => {
            let limit = BLOCKS_LIMIT as usize;
            let blocks = random.within(limit - 2, limit + 2);
            let said = random.within(limit - 1, limit + 1);
            let lines: String =
                (0..blocks).map(|_| format!("B {}\n", random.below(said))).collect();
            sheet(&format!("F 3 2 2 {} {}\n{}", said, random.below(said), lines))
        }
        1 => {
            let count = random.within(STEPS_LIMIT - 2, STEPS_LIMIT + 2);
            let last = *random.pick(&["S 0 0", "S 9 9", "P 0", "O 0 0 0", "Q"]);
            sheet(&format!("{}{}{}\n", HEAD, "L 0 0\n".repeat(count - 1), last))
        }
        2 => of_length(random.within(SHEET_LIMIT - 3, SHEET_LIMIT + 3)),
        3 => {
            // The longest reports: a fault in every step.
            let inst = *random.pick(&[0, INST_LIMIT]);
            let line = *random.pick(&["O {} 1 v<vregs-1> <regs-1> 0", "C {} <slots-1> v<vregs-2> v<vregs-1>", "P {} <slots-1>"]);
            let line = line.replace("{}", &inst.to_string());
            let steps = (line + "\n").repeat(random.within(STEPS_LIMIT - 4, STEPS_LIMIT));
            sheet(&format!("F <regs> <slots> <vregs> 2 0\nB\nB\n{}", steps))
        }
        4 => {
            // Every register wrong in another way, at the far end of the names.
            let base = random.number(VREGS_LIMIT - OPERANDS_LIMIT as u32);
            let uses: String = (0..OPERANDS_LIMIT as u32).map(|i| format!(" v{} {}", base + i, i)).collect();
            let defs: String = (0..OPERANDS_LIMIT as u32).map(|i| format!(" v{} {}", base + i, REGS_LIMIT - 1 - i)).collect();
            let inst = any_inst(random);
            sheet(&format!("F <regs> <slots> <vregs> 1 0\nB 0\nO {} <operands>{} <operands>{}\n", inst, uses, defs))
        }
        _ => {
            let count = random.within(SUCCS_LIMIT - 1, SUCCS_LIMIT + 2);
            let blocks = random.within(1, 4);
            let succs: String = (0..count).map(|_| format!(" {}", random.below(blocks))).collect();
            let lines = format!("B{}\n", succs).repeat(blocks);
            sheet(&format!("F 1 1 1 {} 0\n{}", blocks, lines))
        }
    }
}

fn base(random: &mut Random) -> Sheet {
    let sheet = match random.below(3) {
        0 => small(random),
        1 => tangled(random),
        _ => allocated(random),
    };
    numbered(random, sheet)
}

const TOKENS: &[&str] = &[
    "", "0", "1", "2", "3", "4", "<operands-1>", "<operands>", "<operands+1>", "<regs-1>", "<regs>", "<regs+1>", "<blocks-1>", "<blocks>",
    "<blocks+1>", "<vregs-1>", "<vregs>", "<vregs+1>", "<inst>", "<inst+1>", "99999", "100000", "00", "01", "-", "-1", "+1", "r0", "r1", "r2", "v0",
    "v1", "v2", "v3", "r", "v", "r00", "v01", "r<regs>", "v<vregs>", "x", "F", "T", "B", "S", "L", "M", "C",
    "O", "P", "0 ", " ", "\r", "0\r",
];

const BYTES: &[u8] = b"\0\t\n\r 0123456789-+rvFTBSLMCOPX\x7f\x80\xff";

/// A good sheet with one to three damages of bytes, fields or lines.
pub fn damaged(random: &mut Random) -> Vec<u8> {
    let mut bytes = base(random).text();
    for _ in 0..*random.pick(&[1, 1, 1, 2, 3]) {
        match random.below(10) {
            0 | 1 => damage_bytes(random, &mut bytes),
            2..=6 => damage_field(random, &mut bytes),
            _ => damage_lines(random, &mut bytes),
        }
    }
    if random.percent(2) {
        let keep = random.below(bytes.len() + 1);
        bytes.truncate(keep);
    }
    bytes
}

fn damage_bytes(random: &mut Random, bytes: &mut Vec<u8>) {
    if bytes.is_empty() {
        return;
    }
    let at = random.below(bytes.len());
    let byte = *random.pick(BYTES);
    match random.below(5) {
        0 => {
            bytes.remove(at);
        }
        1 => bytes.insert(at, byte),
        2 if at + 1 < bytes.len() => bytes.swap(at, at + 1),
        3 => bytes[at] = random.below(256) as u8,
        _ => bytes[at] = byte,
    }
}

fn lines_of(bytes: &[u8]) -> Vec<Vec<u8>> {
    bytes.split(|&byte| byte == b'\n').map(|line| line.to_vec()).collect()
}

fn damage_field(random: &mut Random, bytes: &mut Vec<u8>) {
    let mut lines = lines_of(bytes);
    let at = random.below(lines.len());
    let mut fields: Vec<Vec<u8>> =
        lines[at].split(|&byte| byte == b'\t').map(|field| field.to_vec()).collect();
    let place = random.below(fields.len());
    match random.below(8) {
        0 => {
            fields.remove(place);
        }
        1 => {
            let copy = fields[place].clone();
            fields.insert(place, copy);
        }
        2 => {
            let other = random.below(fields.len());
            fields.swap(place, other);
        }
        3 => {
            let other = random.below(fields.len());
            fields[place] = fields[other].clone();
        }
        4 => fields[place].insert(0, b'0'),
        _ => fields[place] = limited(random.pick::<&str>(TOKENS)).into_bytes(),
    }
    lines[at] = fields.join(&b'\t');
    *bytes = lines.join(&b'\n');
}

fn damage_lines(random: &mut Random, bytes: &mut Vec<u8>) {
    let mut lines = lines_of(bytes);
    let at = random.below(lines.len());
    let other = random.below(lines.len());
    match random.below(7) {
        0 | 1 => {
            lines.remove(at);
        }
        2 => {
            let copy = lines[at].clone();
            lines.insert(other, copy);
        }
        3 => lines.swap(at, other),
        4 => {
            let line = sheet(random.pick::<&str>(STEP_LINES));
            lines.insert(at, line);
        }
        5 => {
            let line = sheet(random.pick::<&str>(T_LINES));
            lines.insert(at, line);
        }
        _ => {
            let line = sheet(random.pick::<&str>(F_LINES));
            lines[at] = line;
        }
    }
    *bytes = lines.join(&b'\n');
}

/// One or two lines that may break several refusals at once, at any place in a sheet.
pub fn several(random: &mut Random) -> Vec<u8> {
    let regs = random.within(1, 4);
    let slots = random.within(1, 4);
    let vregs = random.within(2, 5);
    let blocks = random.within(1, 3);
    let mut lines = vec![format!("F {} {} {} {} 0", regs, slots, vregs, blocks)];
    let marked: Vec<usize> = (0..vregs).filter(|_| random.percent(50)).collect();
    lines.extend(marked.iter().map(|n| format!("T {}", n)));
    // One more or one fewer block than said, at times.
    let opened = match random.below(8) {
        0 => blocks + 1,
        1 => blocks - 1,
        _ => blocks,
    };
    let full = random.percent(8);
    for block in 0..opened {
        lines.push("B".to_string());
        if full && block == 0 {
            for _ in 0..*random.pick(&[1_022, 1_023, 1_024, 1_024, 1_024, 1_025]) {
                lines.push("M 0 0".to_string());
            }
        }
    }
    for _ in 0..random.within(1, 2) {
        let line = Bounds { regs, slots, vregs, wild: random.percent(35) }.line(random);
        let from_end = if full || random.percent(70) { 0 } else { random.below(lines.len()) };
        let at = lines.len() - from_end;
        lines.insert(at, line);
    }
    if !random.clone().percent(10) {
        raise(&mut lines);
    }
    lines.push(String::new());
    let mut bytes = sheet(&lines.join("\n"));
    if random.percent(3) {
        bytes.pop();
    }
    bytes
}

/// Gives a line whose inst falls the last one before it.
fn raise(lines: &mut [String]) {
    let mut last = "0".to_string();
    for line in lines.iter_mut().filter(|line| line.starts_with(&['C', 'O', 'P'][..])) {
        let mut fields: Vec<&str> = line.split(' ').collect();
        let number = |text: &str| text.parse::<u32>().ok().filter(|inst| *inst <= INST_LIMIT);
        let inst = fields.get(1).and_then(|field| number(field));
        if inst.is_some() && inst < number(&last) {
            fields[1] = &last;
            *line = fields.join(" ");
        } else if inst.is_some() {
            last = fields[1].to_string();
        }
    }
}

/// The counts of a sheet that a line is held against, and whether the line may go beyond them.
struct Bounds {
    regs: usize,
    slots: usize,
    vregs: usize,
    wild: bool,
}

impl Bounds {
    /// A number within a limit; in a wild line also at it, beyond it or ill-formed.
    fn near(&self, random: &mut Random, limit: usize) -> String {
        match random.below(12) {
            0 if self.wild => limit.to_string(),
            1 if self.wild => (limit + 1).to_string(),
            2 if self.wild && random.percent(30) => "99999".to_string(),
            3 if self.wild && random.percent(20) => "100000".to_string(),
            4 if self.wild && random.percent(20) => "00".to_string(),
            _ => random.below(limit.max(1)).to_string(),
        }
    }

    fn name(&self, random: &mut Random) -> String {
        if random.percent(30) {
            format!("r{}", self.near(random, self.regs))
        } else {
            format!("v{}", self.near(random, self.vregs))
        }
    }

    fn inst(&self, random: &mut Random) -> String {
        match random.below(8) {
            0 if self.wild => "65536".to_string(),
            1 => "65535".to_string(),
            _ => random.below(20).to_string(),
        }
    }

    /// Distinct names on distinct registers, a real name often on another one or on none.
    fn tidy_operands(&self, random: &mut Random) -> String {
        let mut text = String::new();
        let mut count = 0;
        let turn = random.below(self.regs);
        for i in 0..self.regs.min(self.vregs) {
            if random.percent(50) {
                continue;
            }
            let reg = (i + turn) % self.regs;
            let name = match random.below(4) {
                0 => format!("r{}", i),
                1 => format!("r{}", reg),
                _ => format!("v{}", i),
            };
            let reg = if random.percent(10) { "-".to_string() } else { reg.to_string() };
            text += &format!(" {} {}", name, reg);
            count += 1;
        }
        format!(" {}{}", count, text)
    }

    fn operands(&self, random: &mut Random) -> String {
        if !self.wild && random.percent(60) {
            return self.tidy_operands(random);
        }
        let count = *random.pick(if self.wild { &[0, 1, 2, 3, 8, 9] } else { &[0, 1, 2, 2, 3, 8] });
        let said = if self.wild && random.percent(8) { count + 1 } else { count };
        let mut text = format!(" {}", said);
        for _ in 0..count {
            let mut name = self.name(random);
            let mut reg = self.near(random, self.regs);
            if random.percent(10) {
                reg = "-".to_string();
            } else if name.starts_with('r') && random.percent(60) {
                name = format!("r{}", reg);
            }
            text += &format!(" {} {}", name, reg);
        }
        text
    }

    /// A line that often breaks one, two or three numbers above 4 at once; before the first block also 4, behind
    /// 1,024 steps also 9.
    fn pair_line(&self, random: &mut Random) -> String {
        let (r, s, v) = (random.below(self.regs), random.below(self.slots), random.below(self.vregs));
        let w = random.below(self.vregs);
        let far = self.regs.max(self.slots).max(self.vregs) + random.below(3);
        let inst = *random.pick(&[0, 9, 65_535]);
        match random.below(24) {
            0 => format!("P {} {} {}", inst, far, s),
            1 => format!("P 65536 {} {}", s, s),
            2 => format!("P {} {} {}", inst, s, s),
            3 => format!("O {} 2 v{} {} v{} {} 0", inst, v, r, v, far),
            4 => format!("O {} 0 2 v{} {} v{} {}", inst, v, far, w, far),
            5 => format!("O 65536 0 2 v{} {} v{} {}", v, r, w, r),
            6 => format!("O {} 2 v{} {} v{} {} 0", inst, far, r, far, r),
            7 => format!("O 65536 1 r{} - 0", r),
            8 => format!("O {} 1 r{} {} 0", inst, r, far),
            9 => format!("O {} 1 r{} {} 1 v{} 0", inst, far, r, v),
            10 => format!("O {} 1 r{} - 2 v{} {} v{} {}", inst, r, v, r, w, r),
            11 => format!("O {} 2 r{} - r{} - 0", inst, r, r),
            12 => format!("O {} 2 r{} - r{} {} 0", inst, r, r, far),
            13 => format!("C 65536 {} v{} v{}", s, v, w),
            14 => format!("C {} {} v{} v{}", inst, far, v, w),
            15 => format!("C {} {} v{} v{}", inst, s, far, v),
            16 => format!("T {}", far),
            17 | 18 => format!("O {} 1 r{} - 0", inst, r),
            19 => format!("O {} 0 1 r{} {}", inst, r, (r + 1) % self.regs),
            20 | 21 => format!("C {} {} v{} v{}", inst, s, v, w),
            22 => format!("C {} {} r{} v{}", inst, s, r, w),
            _ => format!("T {}", v),
        }
    }

    fn line(&self, random: &mut Random) -> String {
        if random.percent(30) {
            return self.pair_line(random);
        }
        let mut line = match random.below(12) {
            0..=3 => {
                let uses = self.operands(random);
                let defs = self.operands(random);
                format!("O {}{}{}", self.inst(random), uses, defs)
            }
            4..=6 => {
                let from = self.name(random);
                let to = self.name(random);
                format!("C {} {} {} {}", self.inst(random), self.near(random, self.slots), from, to)
            }
            7 => {
                let count = random.within(0, 3);
                let listed: String =
                    (0..count).map(|_| format!(" {}", self.near(random, self.slots))).collect();
                format!("P {}{}", self.inst(random), listed)
            }
            8 => format!("T {}", self.near(random, self.vregs)),
            9 => {
                let count = random.within(0, 9);
                let succs: String =
                    (0..count).map(|_| format!(" {}", self.near(random, 2))).collect();
                format!("B{}", succs)
            }
            10 => {
                let letter = *random.pick(&["S", "L", "M"]);
                let (a, b) = (self.near(random, self.slots), self.near(random, self.regs));
                format!("{} {} {}", letter, a, b)
            }
            _ => format!("F {} 2 2 1 {}", self.near(random, 32), self.near(random, 1)),
        };
        if self.wild && random.percent(15) {
            line += *random.pick(&[" 0", " ", "x", " -", "\r"]);
        }
        line
    }
}
