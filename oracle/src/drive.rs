//! Runs a product that speaks frames beside the oracle and compares all six answers.

use crate::columns::{targets, Target};
use crate::damage::always;
use crate::frames::{answers, plain_old_answer, read_frame, write_frame, Answers, Old};
use crate::generate::{generate, KINDS, MANY};
use crate::plain::Wrong;
use crate::sheet::{broken, falls, read};
use crate::shrink::shrink;
use std::collections::BTreeMap;
use std::io::{Cursor, Read};
use std::process::{Child, Command, Stdio};
use std::sync::mpsc::{channel, Receiver};
use std::time::{Duration, Instant};

const BATCH_SHEETS: usize = 1_000;
const BATCH_BYTES: usize = 4_000_000;
pub const NAMES: [&str; 6] =
    ["old answer", "house answer", "old entry states", "house entry states", "sealed house answer", "sheet written back"];

/// A command that speaks frames, started anew for each batch.
#[derive(Clone)]
pub struct Product {
    pub command: String,
    /// Seconds that a batch may take.
    pub patience: u64,
}

/// A product at work on a batch.
struct Running {
    child: Child,
    output: Receiver<Vec<u8>>,
    patience: u64,
}

impl Product {
    /// Starts the command; one thread feeds it, another takes what it writes.
    fn start(&self, sheets: &[Vec<u8>]) -> Result<Running, String> {
        let mut child = Command::new("sh")
            .arg("-c")
            .arg(format!("exec {}", self.command))
            .stdin(Stdio::piped())
            .stdout(Stdio::piped())
            .spawn()
            .map_err(|e| format!("cannot start {}: {}", self.command, e))?;
        let mut input = Vec::new();
        for sheet in sheets {
            write_frame(&mut input, sheet).map_err(|e| e.to_string())?;
        }
        let mut stdin = child.stdin.take().unwrap();
        std::thread::spawn(move || {
            // A product that ends early shows in its answers.
            let _ = std::io::Write::write_all(&mut stdin, &input);
        });
        let mut stdout = child.stdout.take().unwrap();
        let (sender, output) = channel();
        std::thread::spawn(move || {
            let mut bytes = Vec::new();
            let _ = stdout.read_to_end(&mut bytes);
            let _ = sender.send(bytes);
        });
        Ok(Running { child, output, patience: self.patience })
    }
}

impl Running {
    /// The complete answers that came, in order, and why there are no more if some are wanting.
    fn finish(mut self) -> (Vec<Answers>, String) {
        let bytes = match self.output.recv_timeout(Duration::from_secs(self.patience)) {
            Ok(bytes) => bytes,
            Err(_) => {
                let _ = self.child.kill();
                self.output.recv().unwrap_or_default()
            }
        };
        let ending = match self.child.wait() {
            Ok(status) => format!("{}", status),
            Err(e) => e.to_string(),
        };
        let mut input = Cursor::new(bytes);
        let mut list = Vec::new();
        loop {
            let mut six: Answers = Default::default();
            for answer in six.iter_mut() {
                match read_frame(&mut input) {
                    Ok(Some(bytes)) => *answer = bytes,
                    Ok(None) => return (list, ending),
                    Err(message) => return (list, format!("{}, {}", ending, message)),
                }
            }
            list.push(six);
        }
    }
}

/// What a run of sheets showed, by kind.
pub struct Counts {
    made: [usize; KINDS.len()],
    refused: [usize; 10],
    /// Refused lines by all the numbers that apply to them, where these are several.
    several: BTreeMap<String, usize>,
    /// Refused lines by letter, number and field.
    fields: BTreeMap<Target, usize>,
    /// For each rule: accepted sheets, then sheets with a fault of each kind.
    found: [[usize; 8]; 2],
    lines: [[usize; 8]; 2],
    house_only: usize,
    old_only: usize,
    /// Sheets whose house report names an unreached block: accepted, and with a fault; and the blocks named.
    named: [usize; 2],
    named_blocks: usize,
    /// Sheets that are read and in which an inst falls.
    falling: usize,
    /// Sheets that are read and have many blocks.
    many: usize,
    /// For each order of `ORDERS`: sheets whose old report changes, sheets whose old entry states do.
    orders: [[usize; 2]; 4],
}

/// The slips that show how much an old answer hangs on the run's order.
pub const ORDERS: [(&str, Wrong); 4] = [
    ("last in, first out", Wrong::LastIn),
    ("successors backwards", Wrong::Backwards),
    ("no block waiting twice", Wrong::NotTwice),
    ("run anew for each successor", Wrong::Recomputed),
];

/// Does the slip change the old report, and does it change the old entry states?
pub fn sensitive(sheet: &[u8], given: &Answers, wrong: Wrong) -> [bool; 2] {
    match read(sheet) {
        Ok(sheet) => {
            let (report, states) = plain_old_answer(&sheet, wrong);
            [report != given[0], states != given[2]]
        }
        Err(_) => [false; 2],
    }
}

/// The kinds of fault in a report, a line each; a report with none is accepted.
pub fn fault_kinds(answer: &[u8]) -> Vec<usize> {
    let text = String::from_utf8_lossy(answer);
    let lines = text.lines().filter(|line| line.starts_with('E'));
    lines.map(|line| line.split('\t').nth(4).unwrap().parse().unwrap()).collect()
}

/// A refusal's number, if the answer is one.
pub fn refused_as(answer: &[u8]) -> Option<usize> {
    let text = String::from_utf8_lossy(answer);
    let number = text.strip_prefix("X\t")?.split('\t').next()?;
    number.parse().ok()
}

/// The letter, number and field of a refused sheet, where a field is named.
pub fn refused_at(sheet: &[u8]) -> Option<Target> {
    let refused = read(sheet).err().filter(|refused| refused.field > 0)?;
    let line = sheet.split(|&byte| byte == b'\n').nth(refused.line - 1)?;
    let letter = if refused.field == 1 { '?' } else { line[0] as char };
    Some((letter, refused.number, refused.field))
}

impl Counts {
    pub fn new() -> Counts {
        Counts {
            made: [0; KINDS.len()],
            refused: [0; 10],
            several: BTreeMap::new(),
            fields: BTreeMap::new(),
            found: [[0; 8]; 2],
            lines: [[0; 8]; 2],
            house_only: 0,
            old_only: 0,
            named: [0; 2],
            named_blocks: 0,
            falling: 0,
            many: 0,
            orders: [[0; 2]; 4],
        }
    }

    pub fn add(&mut self, kind: usize, sheet: &[u8], answers: &Answers) {
        self.made[kind] += 1;
        if let Some(number) = refused_as(&answers[0]) {
            self.refused[number] += 1;
            let (_, numbers) = broken(sheet);
            if number > 2 && numbers.len() > 1 {
                *self.several.entry(numbers).or_insert(0) += 1;
            }
            if let Some(target) = refused_at(sheet) {
                *self.fields.entry(target).or_insert(0) += 1;
            }
            return;
        }
        self.falling += falls(sheet) as usize;
        self.many += read(sheet).map_or(false, |sheet| sheet.blocks.len() >= MANY.0) as usize;
        let mut accepted = [false; 2];
        for rule in 0..2 {
            let kinds = fault_kinds(&answers[rule]);
            accepted[rule] = kinds.is_empty();
            self.found[rule][0] += kinds.is_empty() as usize;
            for kind in 1..8 {
                let count = kinds.iter().filter(|k| **k == kind).count();
                self.found[rule][kind] += (count > 0) as usize;
                self.lines[rule][kind] += count;
            }
        }
        self.old_only += (accepted[0] && !accepted[1]) as usize;
        self.house_only += (!accepted[0] && accepted[1]) as usize;
        let named = String::from_utf8_lossy(&answers[1]).lines().filter(|line| line.starts_with('N')).count();
        self.named[!accepted[1] as usize] += (named > 0) as usize;
        self.named_blocks += named;
        for (at, (_, wrong)) in ORDERS.iter().enumerate() {
            let [report, states] = sensitive(sheet, answers, *wrong);
            self.orders[at][0] += report as usize;
            self.orders[at][1] += states as usize;
        }
    }

    /// How many of the letters, numbers and fields that refusals can name came, and how often the rarest of them did.
    fn print_fields(&self) {
        let targets = targets();
        let counts: Vec<usize> = targets.iter().map(|target| self.fields.get(target).cloned().unwrap_or(0)).collect();
        let came = counts.iter().filter(|count| **count > 0).count();
        println!("letters, numbers and fields of refusals: {} of {}, each {} times or more", came, targets.len(), counts.iter().min().unwrap_or(&0));
        let others = self.fields.len() - came;
        println!("  and {} behind the last field of the longest good line", others);
    }

    pub fn print(&self) {
        println!("sheets made, by kind:");
        for (name, count) in KINDS.iter().zip(&self.made) {
            println!("  {:<12} {}", name, count);
        }
        println!("refused (both rules):");
        for number in 2..10 {
            println!("  {:<12} {}", number, self.refused[number]);
        }
        println!("  {:<12} {}", "in all", self.refused.iter().sum::<usize>());
        self.print_fields();
        println!("refused lines to which several numbers apply:");
        for (numbers, count) in &self.several {
            println!("  {:<12} {}", numbers, count);
        }
        for (rule, name) in ["old", "house"].iter().enumerate() {
            println!("{} rule: accepted {}", name, self.found[rule][0]);
            for kind in 1..8 {
                println!(
                    "  kind {}: {} sheets, {} lines",
                    kind, self.found[rule][kind], self.lines[rule][kind]
                );
            }
        }
        println!("accepted by the old rule alone: {}", self.old_only);
        println!("accepted by the house rule alone: {}", self.house_only);
        println!("house reports that name an unreached block: {} accepted, {} faulty; {} blocks", self.named[0], self.named[1], self.named_blocks);
        println!("read, though an inst falls: {}", self.falling);
        println!("read, with {} blocks or more: {}", MANY.0, self.many);
        println!("old answers that change with the order of the run:");
        for (at, (name, _)) in ORDERS.iter().enumerate() {
            println!("  {}: {} reports, {} entry states", name, self.orders[at][0], self.orders[at][1]);
        }
    }
}

/// What is compared, and how much of it.
pub struct Plan {
    pub product: Product,
    pub sheets: u64,
    pub seed: u64,
    /// Of so many sheets one has its old entry states taken from the Rust; the others from the plain
    /// implementation.
    pub rust_states: u64,
    pub counts: bool,
    pub quiet: bool,
}

/// A sheet on which the sides differ; those that every run has are counted on behind the generated ones.
pub struct Difference {
    pub index: u64,
    pub sheet: Vec<u8>,
}

fn old_of(plan: &Plan, index: u64) -> Old {
    if index % plan.rust_states == 0 {
        Old::Rust
    } else {
        Old::RustReport
    }
}

/// Compares the generated sheets, then those that every run has, until the first difference or the end.
pub fn compare(plan: &Plan, counts: &mut Counts) -> Result<Option<Difference>, String> {
    let started = Instant::now();
    let mut told = Instant::now();
    let always = always();
    let total = plan.sheets + always.len() as u64;
    let mut done = 0;
    while done < total {
        let mut kinds = Vec::new();
        let mut sheets = Vec::new();
        let mut bytes = 0;
        while done + (sheets.len() as u64) < total
            && sheets.len() < BATCH_SHEETS
            && bytes < BATCH_BYTES
        {
            let index = done + sheets.len() as u64;
            let (kind, sheet) = if index < plan.sheets {
                let (kind, sheet) = generate(plan.seed, index);
                (Some(kind), sheet)
            } else {
                (None, always[(index - plan.sheets) as usize].clone())
            };
            bytes += sheet.len();
            kinds.push(kind);
            sheets.push(sheet);
        }
        let running = plan.product.start(&sheets)?;
        let mut expected = Vec::new();
        for (at, sheet) in sheets.iter().enumerate() {
            expected.push(answers(sheet, old_of(plan, done + at as u64), Wrong::Nothing));
            // What every run has is left out of its counts.
            if let (true, Some(kind)) = (plan.counts, kinds[at]) {
                counts.add(kind, sheet, &expected[at]);
            }
        }
        let (given, ending) = running.finish();
        for at in 0..sheets.len() {
            if given.get(at) != Some(&expected[at]) {
                if given.len() <= at {
                    eprintln!("the product gave no answer to this sheet ({})", ending);
                }
                let index = done + at as u64;
                return Ok(Some(Difference { index, sheet: sheets.swap_remove(at) }));
            }
        }
        if given.len() > sheets.len() {
            return Err("the product gave more answers than there were sheets".to_string());
        }
        done += sheets.len() as u64;
        if !plan.quiet && (told.elapsed().as_secs() >= 5 || done == total) {
            let rate = done as f64 / started.elapsed().as_secs_f64();
            eprintln!("{} of {} sheets, {:.0} a second, 0 differences", done, total, rate);
            told = Instant::now();
        }
    }
    Ok(None)
}

/// The product's answers to one sheet; none when it ended early.
fn ask_one(product: &Product, sheet: &[u8]) -> Result<(Vec<Answers>, String), String> {
    Ok(product.start(&[sheet.to_vec()])?.finish())
}

/// The first of the sheets on which the sides differ.
fn first_difference(product: &Product, sheets: &[Vec<u8>]) -> Option<usize> {
    let running = product.start(sheets).ok()?;
    let expected: Vec<Answers> =
        sheets.iter().map(|sheet| answers(sheet, Old::Rust, Wrong::Nothing)).collect();
    let (given, _) = running.finish();
    (0..sheets.len()).find(|&at| given.get(at) != Some(&expected[at]))
}

/// Do the sides differ on this sheet when no other goes before it?
pub fn differs_alone(product: &Product, sheet: &[u8]) -> bool {
    first_difference(product, &[sheet.to_vec()]).is_some()
}

/// Shrinks a sheet on which the sides differ when it stands alone.
pub fn shrink_difference(product: &Product, start: &[u8]) -> Vec<u8> {
    shrink(start, &mut |sheets| {
        let at = first_difference(product, sheets)?;
        if differs_alone(product, &sheets[at]) {
            Some(at)
        } else {
            None
        }
    })
}

/// Bytes for reading: a tab as `\t`, a line as a line.
pub fn visible(bytes: &[u8]) -> String {
    let mut text = String::from("  | ");
    for (at, &byte) in bytes.iter().enumerate() {
        match byte {
            b'\n' => {
                text.push('\n');
                if at + 1 < bytes.len() {
                    text += "  | ";
                }
            }
            b'\t' => text += "\\t",
            32..=126 => text.push(byte as char),
            _ => text += &format!("\\x{:02x}", byte),
        }
    }
    if bytes.last() != Some(&b'\n') {
        text += "(no line end)\n";
    }
    text
}

/// Prints a sheet and both sides' answers to it.
pub fn print_difference(product: &Product, sheet: &[u8]) -> Result<(), String> {
    print!("sheet ({} bytes):\n{}", sheet.len(), visible(sheet));
    let expected = answers(sheet, Old::Rust, Wrong::Nothing);
    let (given, ending) = ask_one(product, sheet)?;
    for (at, name) in NAMES.iter().enumerate() {
        match given.first() {
            None => println!("{}: the product gave none ({})", name, ending),
            Some(six) if six[at] == expected[at] => println!("{}: the same on both sides", name),
            Some(six) => {
                print!("{} of the oracle:\n{}", name, visible(&expected[at]));
                print!("{} of the product:\n{}", name, visible(&six[at]));
            }
        }
    }
    Ok(())
}
