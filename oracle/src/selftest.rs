//! The tests of the tests: known cases, the plain old implementation against the Rust, the driver against the
//! oracle itself, and the driver against each slip.

use crate::columns::{at_every_target, by_trying};
use crate::damage::{boundaries, longest_report, most_visits};
use crate::drive::{compare, print_difference, refused_at, shrink_difference, visible, Counts, Plan, Product};
use crate::frames::{answers, Old};
use crate::generate::generate;
use crate::house;
use crate::old;
use crate::plain::{missing, old_run, Wrong, WRONGS};
use crate::sheet::read;

/// Cases of document 01 and of its readings: a sheet, the old report and the house report without their
/// headers. Lines are parted by `/`, fields by blanks.
pub const CASES: &[(&str, &str, &str)] = &[
    // The whole example.
    (
        "F 2 1 1 1 0/B/O 7 0 1 v0 0/S 0 0/O 8 1 v0 1 0/",
        "E 0 2 8 3 r1 v0 r1/",
        "E 0 2 8 3 r1 v0 r1/",
    ),
    // One branch spills, the other does nothing.
    (
        "F 2 1 1 4 0/B 1 2/O 0 0 1 v0 0/B 3/S 0 0/B 3/B/L 1 0/O 1 1 v0 1 0/",
        "",
        "E 3 1 1 2 r1 - -/",
    ),
    // A stale copy.
    (
        "F 2 0 1 1 0/B/O 0 0 1 v0 0/M 1 0/O 1 0 1 v0 0/O 2 1 v0 1 0/",
        "",
        "E 0 3 2 2 r1 - -/",
    ),
    // An ownership change on an Unknown slot.
    (
        "F 0 1 2 1 0/B/C 0 0 v0 v1/C 1 0 v1 v0/",
        "E 0 0 0 4 s0 v0 -/",
        "E 0 0 0 4 s0 v0 -/E 0 1 1 4 s0 v1 -/",
    ),
    // A safepoint, then a use of a marked name in a register.
    (
        "F 1 0 1 1 0/T 0/B/O 0 0 1 v0 0/P 1/O 2 1 v0 0 0/",
        "E 0 2 2 2 r0 - -/",
        "E 0 2 2 2 r0 - -/",
    ),
    // Different names meet.
    (
        "F 1 0 2 4 0/B 1 2/B 3/O 0 0 1 v0 0/B 3/O 1 0 1 v1 0/B/O 2 1 v0 0 0/",
        "E 3 0 2 2 r0 - -/",
        "E 3 0 2 2 r0 - -/",
    ),
    // An unmarked name meets the same name marked.
    (
        "F 1 1 1 4 0/T 0/B 1 2/B 3/C 0 0 v0 v0/B 3/O 1 0 1 v0 0/S 0 0/B/P 2 0/",
        "E 1 0 0 4 s0 v0 -/",
        "E 1 0 0 4 s0 v0 -/E 3 0 2 7 s0 - -/",
    ),
    // No registers: the old rule never visits block 1.
    (
        "F 0 1 3 3 0/B 1/B 2/C 0 0 v0 v1/B/C 1 0 v1 v2/",
        "E 1 0 0 4 s0 v0 -/E 2 0 1 4 s0 v1 -/",
        "E 1 0 0 4 s0 v0 -/E 2 0 1 4 s0 v1 -/",
    ),
    // An unreached block: document 02, A5. Empty ones, one between two with a fault, one that misses an allocation.
    ("F 1 0 1 2 0/B/B/O 9 1 v0 0 0/", "E 1 0 9 2 r0 - -/", "N 1/"),
    ("F 0 0 0 3 1/B/B/B 1/", "", "N 0/N 2/"),
    (
        "F 1 0 1 3 0/B 2/O 0 1 v0 0 0/B/O 1 1 v0 0 0/B/O 2 1 v0 0 0/",
        "E 0 0 0 3 r0 v0 r0/E 1 0 1 2 r0 - -/E 2 0 2 3 r0 v0 r0/",
        "E 0 0 0 3 r0 v0 r0/N 1/E 2 0 2 3 r0 v0 r0/",
    ),
    ("F 1 0 1 3 0/B/B/B/O 0 1 v0 - 0/", "E 2 0 0 1 - v0 -/", "E 2 0 0 1 - v0 -/"),
    // Missing allocations: the first such step alone, its uses, or its defs when no use is missing.
    (
        "F 1 0 3 1 0/B/O 1 1 v0 0 0/O 2 3 v2 - v1 0 v0 - 1 v1 -/O 3 1 v0 - 0/",
        "E 0 1 2 1 - v2 -/E 0 1 2 1 - v0 -/",
        "E 0 1 2 1 - v2 -/E 0 1 2 1 - v0 -/",
    ),
    ("F 1 0 2 1 0/B/O 2 1 v1 0 1 v0 -/", "E 0 0 2 1 - v0 -/", "E 0 0 2 1 - v0 -/"),
];

/// Readings of the table of refusals and of request A4: lines behind `F 2 2 2 1 0` and `B`, the number and the field; 0 is read.
const READINGS: &[(&str, u32, usize)] = &[
    ("P 0", 0, 0),
    ("P 0 0 0 0 0 0 0 0 0 0 0 0 0 0 0 0 0 0 0 0 0 0 0 0 0 0 0 0 0 0 0 0 0 0", 6, 4),
    ("O 0 0 2 r0 - v1 0", 7, 6),
    ("O 0 0 2 r0 1 v1 1", 6, 8),
    ("O 0 0 2 r0 1 v1 0", 7, 6),
    ("O 0 1 r0 - 0", 7, 5),
    ("O 0 1 r0 2 0", 5, 5),
    ("O 0 9 0", 3, 4),
    ("O 0 9 r0 0 r1 1 r0 0 r1 1 r0 0 r1 1 r0 0 r1 1 r0 0 0", 5, 3),
    ("T v0", 3, 2),
    ("F 9 9 9 9 9", 4, 0),
    ("F 99 99 999 99 99", 4, 0),
    // An ill-formed field, or the first one missing or too many, whichever is first.
    ("", 3, 1),
    ("Q 0 x", 3, 1),
    ("SS 0 0", 3, 1),
    (" S 0 0", 3, 1),
    ("S", 3, 2),
    ("S x", 3, 2),
    ("S 0", 3, 3),
    ("S 0 x 0", 3, 3),
    ("S 0 0 0", 3, 4),
    ("S 0 0 0 0", 3, 4),
    ("S 0 0 ", 3, 4),
    ("S  0 0", 3, 2),
    ("M 9 00", 3, 3),
    ("F 2 2 2 1", 3, 6),
    ("F 2 2 2 1 0 0", 3, 7),
    ("T", 3, 2),
    ("T 0 0", 3, 3),
    ("B ", 3, 2),
    ("B 0 0 0 0 0 0 0 0 0", 3, 10),
    ("B 0 0 0 0 0 0 0 0 x y", 3, 10),
    ("B 0 x 0 0 0 0 0 0 0", 3, 3),
    ("C 0 0 v0", 3, 5),
    ("C 0 0 0 v0", 3, 4),
    ("C 0 0 v0 v1 v1", 3, 6),
    ("P", 3, 2),
    ("P 0 1 -", 3, 4),
    ("O", 3, 2),
    ("O 0", 3, 3),
    ("O 0 0", 3, 4),
    ("O 0 0 0 0", 3, 5),
    ("O 0 1 v0 0", 3, 6),
    ("O 0 0 99999", 3, 5),
    ("O 0 99999 v0 0 v1 -", 3, 8),
    ("O 0 9 v0", 3, 5),
    ("O 0 9 v0 x", 3, 5),
    ("O 0 1 v0 -- 0", 3, 5),
    ("O 0 1 v0 0 1 v0", 3, 8),
    // A value beyond its limit.
    ("S 2 2", 5, 2),
    ("S 1 2", 5, 3),
    ("L 1 2", 5, 3),
    ("C 65536 2 v2 v2", 5, 2),
    ("C 0 0 v1 r2", 5, 5),
    ("P 0 1 0 2", 5, 5),
    ("O 65536 9 v9 0 v9 0 v9 0 v9 0 v9 0 v9 0 v9 0 v9 0 v9 0 0", 5, 2),
    ("O 0 0 9 v0 0 v0 0 v0 0 v0 0 v0 0 v0 0 v0 0 v0 0 v0 0", 5, 4),
    ("O 0 1 v2 2 1 v0 0", 5, 4),
    ("O 0 1 v1 2 1 v2 0", 5, 5),
    ("O 0 2 v0 0 v0 0 1 r1 2", 5, 10),
    // Not rising, or there before.
    ("P 0 0 1 1", 6, 5),
    ("P 0 1 0 1 0", 6, 4),
    ("O 0 4 v0 0 v1 0 v1 0 v0 0 0", 6, 8),
    ("O 0 4 v0 0 v1 0 r1 1 v0 0 0", 6, 10),
    ("O 0 0 3 v0 0 v1 0 v0 1", 6, 8),
    ("O 0 0 2 v0 0 v0 0", 6, 7),
    ("O 0 2 v0 0 v0 0 2 v0 0 v0 0", 6, 6),
    ("O 0 1 v0 0 2 v0 - v0 -", 6, 9),
    // A real name elsewhere.
    ("O 0 2 r0 0 r1 0 1 r0 1", 7, 7),
    ("O 0 1 v0 - 1 r0 1", 7, 8),
];

/// The same of whole sheets: `F` lines, `T` lines, `C` between typed and untyped names; the number, the line and the field.
const WHOLE_READINGS: &[(&str, [usize; 3])] = &[
    ("", [2, 0, 0]),
    ("F 2 2 2 1 0", [2, 0, 0]),
    ("/", [3, 1, 1]),
    ("F 0 0 0 0 0/B/", [5, 1, 5]),
    ("F 0 0 0 1 1/B/", [5, 1, 6]),
    ("F 0 0 0 129 129/B/", [5, 1, 5]),
    ("F 33 33 0 1 9/B/", [5, 1, 2]),
    ("F 32 32 257 0 0/B/", [5, 1, 4]),
    ("F 0 0 0 1 0 0/B/", [3, 1, 7]),
    ("F 0 0 0 1/B/", [3, 1, 6]),
    ("S 0 0/", [4, 1, 0]),
    ("F 0 0 0 2 0/B/", [4, 3, 0]),
    ("F 0 0 3 1 0/T 1/T 3/B/", [5, 3, 2]),
    ("F 0 0 3 1 0/T 1/T 1/B/", [6, 3, 2]),
    ("F 0 0 3 2 0/B 0 1 2 0 2/B/", [5, 2, 4]),
    ("F 0 1 2 1 0/T 0/B/C 0 0 v0 v1/", [8, 4, 5]),
    ("F 0 1 2 1 0/T 0/B/C 0 1 v0 v1/", [5, 4, 3]),
    ("F 0 0 0 1 0/B/O 0 1 v0 0 0/", [5, 3, 4]),
];

fn cases() -> Result<(), String> {
    for (sheet, old, house) in CASES {
        let given = answers(&as_text(sheet), Old::Rust, Wrong::Nothing);
        for (answer, expected) in given.iter().zip(&[old, house]) {
            let lines = answer.splitn(2, |&byte| byte == b'\n').nth(1);
            if lines != Some(&as_text(expected)[..]) {
                return Err(format!("a case of document 01 is not met: {}", sheet));
            }
        }
    }
    Ok(())
}

fn readings() -> Result<(), String> {
    let mut list: Vec<(String, [usize; 3])> = WHOLE_READINGS.iter().map(|(sheet, wanted)| (sheet.to_string(), *wanted)).collect();
    for (line, number, field) in READINGS {
        let place = if *number == 0 { 0 } else { 3 };
        list.push((format!("F 2 2 2 1 0/B/{}/", line), [*number as usize, place, *field]));
    }
    for (sheet, wanted) in list {
        let given = read(&as_text(&sheet)).err().map_or([0; 3], |r| [r.number as usize, r.line, r.field]);
        if given != wanted {
            return Err(format!("{} is refused as {:?}", sheet, given));
        }
    }
    Ok(())
}

/// Each sheet that is made for a letter, a number and a field is refused so, and trying finds the same field of it and of every sheet
/// at a limit.
fn fields() -> Result<usize, String> {
    let mut tried = 0;
    for ((letter, number, field), sheet) in at_every_target() {
        if refused_at(&sheet) != Some((letter, number, field)) {
            return Err(format!("not refused as {} at field {}: {}", number, field, visible(&sheet)));
        }
        tried += try_field(&sheet)? as usize;
    }
    for sheet in boundaries().iter().filter(|sheet| sheet.len() < 1_000) {
        tried += try_field(sheet)? as usize;
    }
    Ok(tried)
}

/// Holds the field of a refused line against trying; false where there is none to try.
fn try_field(sheet: &[u8]) -> Result<bool, String> {
    let refused = match read(sheet) {
        Err(refused) if refused.field > 0 => refused,
        _ => return Ok(false),
    };
    let lines: Vec<&[u8]> = sheet.split(|&byte| byte == b'\n').collect();
    let mut before = lines[..refused.line - 1].join(&b'\n');
    if refused.line > 1 {
        before.push(b'\n');
    }
    // Where there are no registers, slots or names the letter itself shows that no good line can follow.
    if refused.line > 1 && lines[0].split(|&byte| byte == b'\t').skip(1).take(3).any(|count| count == b"0") {
        return Ok(false);
    }
    match by_trying(&before, lines[refused.line - 1], refused.number) {
        Some(field) if field != refused.field => Err(format!("field {}, and by trying {}: {}", refused.field, field, visible(sheet))),
        found => Ok(found.is_some()),
    }
}

/// Holds the fields of generated sheets against trying.
fn generated_fields(sheets: u64, seed: u64) -> Result<(), String> {
    let mut tried = 0;
    for index in 0..sheets {
        let sheet = generate(seed, index).1;
        tried += (sheet.len() < 1_000 && try_field(&sheet)?) as usize;
    }
    println!("fields of refusals: {} sheets, {} tried: 0 differences", sheets, tried);
    Ok(())
}

/// The cases, the readings, and the fields that refusals name.
pub fn known() -> Result<(), String> {
    cases()?;
    readings()?;
    let tried = fields()?;
    let read = READINGS.len() + WHOLE_READINGS.len();
    println!("{} cases and {} readings are met, {} fields of refusals are those that trying finds", CASES.len(), read, tried);
    Ok(())
}

/// The sheet of a case.
pub fn as_text(line: &str) -> Vec<u8> {
    line.replace('/', "\n").replace(' ', "\t").into_bytes()
}

pub fn run(sheets: u64, seed: u64) -> Result<(), String> {
    known()?;
    extremes()?;
    plain_and_rust(sheets, seed)?;
    itself(sheets / 10, seed)?;
    generated_fields(sheets / 10, seed)?;
    for (name, _) in WRONGS.iter() {
        slip(name, sheets, seed)?;
    }
    Ok(())
}

/// The longest report and the runs with the most visits, under both rules: how long they are, and that the visits stay within document
/// 01's counts.
pub fn extremes() -> Result<(), String> {
    let given = answers(&longest_report(), Old::Rust, Wrong::Nothing);
    println!("the longest report: {} bytes old, {} bytes house", given[0].len(), given[1].len());
    for bytes in &most_visits() {
        let sheet = read(bytes).map_err(|_| "a sheet of many visits is refused".to_string())?;
        let (blocks, cells) = (sheet.blocks.len(), (sheet.regs + sheet.slots) as usize);
        let bounds = [1 + blocks * 4 * cells, blocks * (1 + 3 * cells)];
        let visits = [old::check(&sheet, true).visits, house::visits(&sheet)];
        println!("most visits: {} of {} old, {} of {} house", visits[0], bounds[0], visits[1], bounds[1]);
        if visits[0] != old_run(&sheet, Wrong::Nothing).1 || visits[0] > bounds[0] || visits[1] > bounds[1] {
            return Err("the plain old run visits other blocks, or more than the bound".to_string());
        }
    }
    Ok(())
}

/// Reports, entry states and visits of the plain old implementation and of the Rust.
fn plain_and_rust(sheets: u64, seed: u64) -> Result<(), String> {
    let mut analysed = 0;
    let mut most = 0;
    for index in 0..sheets {
        let (_, bytes) = generate(seed, index);
        let rust = answers(&bytes, Old::Rust, Wrong::Nothing);
        if rust != answers(&bytes, Old::Plain, Wrong::Nothing) {
            return Err(format!("sheet {}: the plain old rule is not the Rust's", index));
        }
        let sheet = match read(&bytes) {
            Ok(sheet) if missing(&sheet).is_none() => sheet,
            _ => continue,
        };
        analysed += 1;
        let visits = old::check(&sheet, true).visits;
        let cells = (sheet.regs + sheet.slots) as usize;
        if visits != old_run(&sheet, Wrong::Nothing).1 {
            return Err(format!("sheet {}: the Rust visits {} blocks", index, visits));
        }
        if visits > 1 + sheet.blocks.len() * 4 * cells {
            return Err(format!("sheet {}: {} visits are beyond the bound", index, visits));
        }
        most = most.max(visits);
    }
    println!(
        "plain old rule and the Rust: {} sheets, {} analysed, at most {} visits: 0 differences",
        sheets, analysed, most
    );
    Ok(())
}

fn own_command(words: &str) -> Result<String, String> {
    let path = std::env::current_exe().map_err(|e| e.to_string())?;
    Ok(format!("'{}' {}", path.display(), words))
}

fn plan(command: String, sheets: u64, seed: u64) -> Plan {
    let product = Product { command, patience: 900 };
    Plan { product, sheets, seed, rust_states: 1, counts: false, quiet: true }
}

fn itself(sheets: u64, seed: u64) -> Result<(), String> {
    let plan = plan(own_command("speak")?, sheets, seed);
    match compare(&plan, &mut Counts::new())? {
        None => {
            println!("the oracle as the product: {} sheets: 0 differences", sheets);
            Ok(())
        }
        Some(found) => Err(format!("sheet {}: the oracle differs from itself", found.index)),
    }
}

fn slip(name: &str, sheets: u64, seed: u64) -> Result<(), String> {
    let plan = plan(own_command(&format!("speak wrong {}", name))?, sheets, seed);
    match compare(&plan, &mut Counts::new())? {
        None => Err(format!("{}: not found in {} sheets", name, sheets)),
        Some(found) => {
            println!("{}: found by sheet {}", name, found.index);
            let small = shrink_difference(&plan.product, &found.sheet);
            print_difference(&plan.product, &small)
        }
    }
}
