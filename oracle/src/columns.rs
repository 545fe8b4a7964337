//! Sheets that are refused at a chosen field (request A4 of document 02): for each letter, number and field that a refusal can name,
//! a line that is good before that field. And a second way to a refused line's field, by trying.

use crate::random::Random;
use crate::sheet::{
    allocation, broken, name, number, BLOCKS_LIMIT, INST_LIMIT, OPERANDS_LIMIT, REGS_LIMIT, SLOTS_LIMIT, SUCCS_LIMIT, VREGS_LIMIT,
};

/// A line's letter, a refusal's number and the field that it names. The letter of a line without a known one is `?`.
pub type Target = (char, u32, usize);

/// The last field of an operation with as many operands, and of a safepoint with as many slots, as there may be.
const O_END: usize = 4 + 4 * OPERANDS_LIMIT;
const P_END: usize = 2 + SLOTS_LIMIT as usize;

const LETTERS: [char; 10] = ['?', 'F', 'T', 'B', 'S', 'L', 'M', 'C', 'O', 'P'];

/// The fields that a refusal of a letter's line can name. Lines of `O` and `P` can be longer than what counts here.
fn named(letter: char, number: u32) -> Vec<usize> {
    let fields = match (letter, number) {
        ('?', 3) => 1..=1,
        ('F', 3) => 2..=7,
        ('F', 5) => 2..=6,
        ('T', 3) => 2..=3,
        ('T', 5) | ('T', 6) => 2..=2,
        ('B', 3) => 2..=SUCCS_LIMIT + 2,
        ('B', 5) => 2..=SUCCS_LIMIT + 1,
        ('S', 3) | ('L', 3) | ('M', 3) => 2..=4,
        ('S', 5) | ('L', 5) | ('M', 5) => 2..=3,
        ('C', 3) => 2..=6,
        ('C', 5) => 2..=5,
        ('C', 8) => 5..=5,
        ('O', 3) => 2..=O_END + 1,
        ('O', 5) => 2..=O_END,
        ('O', 6) => 6..=O_END,
        // The registers: those of uses are the odd fields, those of defs the even ones.
        ('O', 7) => return (5..=O_END).filter(|field| field % 2 == 0 || *field <= 3 + 2 * OPERANDS_LIMIT).collect(),
        ('P', 3) => 2..=P_END + 2,
        ('P', 5) => 2..=P_END + 1,
        ('P', 6) => 4..=P_END + 1,
        _ => return Vec::new(),
    };
    fields.collect()
}

pub fn targets() -> Vec<Target> {
    let mut list = Vec::new();
    for letter in LETTERS {
        for number in 3..9 {
            list.extend(named(letter, number).into_iter().map(|field| (letter, number, field)));
        }
    }
    list
}

/// A sheet for each target, refused as it says.
pub fn at_every_target() -> Vec<(Target, Vec<u8>)> {
    let made = |(index, target): (usize, Target)| (target, Maker::of(Random::of(4, index as u64), target).sheet(false));
    targets().into_iter().enumerate().map(made).collect()
}

/// A sheet for some target, mostly refused as it says; the line may have other faults too.
pub fn columns(random: &mut Random) -> Vec<u8> {
    let target = *random.pick(&targets());
    Maker::of(random.clone(), target).sheet(true)
}

/// What a field of a line is. Uses are group 0 and defs group 1, and operands count from 0.
#[derive(Clone, Copy, PartialEq, Eq)]
enum Role {
    Letter,
    Inst,
    Register,
    Slot,
    Block,
    Typed,
    /// A number of `F`, from 0.
    Count(usize),
    Operands(usize),
    Name(usize, usize),
    Allocation(usize, usize),
}

/// What stands for no group: the names of a `C`.
const NO_GROUP: usize = 2;

#[derive(Clone)]
struct Field {
    role: Role,
    text: String,
}

/// Texts of which each is ill-formed in some role.
const BAD: &[&str] = &[
    "", "x", "-", "--", "00", "01", "007", "100000", "-1", "+1", "0x1", "1.", "1 ", " 1", "0\r", "r", "v", "r0", "v0", "r00", "v01", "v100000", "R0", "s0",
    "rv0", "v-", "\u{e9}", "0",
];

const BAD_LETTERS: &[&str] = &["", "X", "E", "R", "s", "o", "SS", "S0", " S", "S ", "0", "-", "v0", "#", "\r", "\u{feff}F", "S 0 0"];

/// Makes a sheet for one target.
struct Maker {
    random: Random,
    target: Target,
    counts: [usize; 5],
    typed: Vec<usize>,
    /// How many uses and defs an operation has; of another line how many successors or slots, and the first slot.
    sizes: [usize; 2],
}

impl Maker {
    fn of(random: Random, target: Target) -> Maker {
        let mut maker = Maker { random, target, counts: [0; 5], typed: Vec::new(), sizes: [0; 2] };
        // The slots of a `P` rise before the target's field.
        let most = SLOTS_LIMIT as usize;
        let least = if target.0 == 'P' { (target.2.max(4) - 3).min(most) } else { 1 };
        let slots = maker.random.within(least, most);
        let regs = maker.random.within(2 * OPERANDS_LIMIT, REGS_LIMIT as usize);
        let vregs = maker.random.within(4 * OPERANDS_LIMIT, VREGS_LIMIT as usize);
        let blocks = maker.random.within(1, 4);
        maker.counts = [regs, slots, vregs, blocks, maker.random.below(blocks)];
        maker.typed = (0..vregs - 1).filter(|n| *n == 1 || maker.random.percent(10)).collect();
        maker.sizes = maker.fitting_sizes();
        maker
    }

    /// Sizes of the line's lists at which the target's field is one that the number can be shown by.
    fn fitting_sizes(&mut self) -> [usize; 2] {
        let (letter, number, field) = self.target;
        match letter {
            'B' if field > SUCCS_LIMIT + 1 => [SUCCS_LIMIT, 0],
            'B' => [self.random.within(field.max(2) - 1, SUCCS_LIMIT), 0],
            'P' => {
                let size = self.random.within(field.max(3) - 2, P_END);
                [size, self.random.within(0, self.counts[1].saturating_sub(size))]
            }
            'O' => {
                let most = OPERANDS_LIMIT + 3;
                let pairs = (0..=most).flat_map(|uses| (0..=most).map(move |defs| [uses, defs]));
                let fitting: Vec<[usize; 2]> = pairs.filter(|sizes| fits(*sizes, number, field)).collect();
                *self.random.pick(&fitting)
            }
            _ => [0, 0],
        }
    }

    fn sheet(mut self, more_faults: bool) -> Vec<u8> {
        let letter = self.target.0;
        let mut line = match letter {
            '?' => {
                let any = *self.random.pick(&LETTERS[1..]);
                self.good(any)
            }
            _ => self.good(letter),
        };
        self.break_line(&mut line, more_faults);
        let line = line.iter().map(|field| field.text.as_str()).collect::<Vec<_>>().join("\t");
        let (before, behind) = self.around(letter);
        format!("{}{}\n{}", before.replace(' ', "\t"), line, behind.replace(' ', "\t")).into_bytes()
    }

    /// Lines before and behind a line of the letter, with blanks for tabs.
    fn around(&mut self, letter: char) -> (String, &'static str) {
        if letter == 'F' {
            return (String::new(), "B\n");
        }
        let mut text = self.head(letter);
        if letter == 'T' {
            return (text, "B\n");
        }
        let blocks = self.counts[3];
        let opened = if letter == 'B' { self.random.below(blocks) } else { self.random.within(1, blocks) };
        for _ in 0..opened {
            text += "B\n";
            for _ in 0..self.random.below(3) {
                text += *self.random.pick(&["M 0 0\n", "S 0 0\n", "L 1 0\n", "P 0\n", "O 0 0 0\n"]);
            }
        }
        (text, *self.random.pick(&["", "", "B\n", "M 0 0\n", "x\n", "S 99 99\n", "\n"]))
    }

    /// The lines before the first block. Those of `T` for a line of `T` end so that the line may be good, or may be too low.
    fn head(&mut self, letter: char) -> String {
        let [regs, slots, vregs, blocks, entry] = self.counts;
        let mut text = format!("F {} {} {} {} {}\n", regs, slots, vregs, blocks, entry);
        let kept = if letter == 'T' { 1 + self.random.below(self.typed.len()) } else { self.typed.len() };
        for n in &self.typed[..kept] {
            text += &format!("T {}\n", n);
        }
        text
    }

    /// A line of the letter that is not refused.
    fn good(&mut self, letter: char) -> Vec<Field> {
        let mut roles = vec![Role::Letter];
        match letter {
            'F' => roles.extend((0..5).map(Role::Count)),
            'T' => roles.push(Role::Typed),
            'B' => roles.extend(vec![Role::Block; self.sizes[0]]),
            'S' => roles.extend([Role::Slot, Role::Register]),
            'L' => roles.extend([Role::Register, Role::Slot]),
            'M' => roles.extend([Role::Register, Role::Register]),
            'C' => roles.extend([Role::Inst, Role::Slot, Role::Name(NO_GROUP, 0), Role::Name(NO_GROUP, 1)]),
            'P' => {
                roles.push(Role::Inst);
                roles.extend(vec![Role::Slot; self.sizes[0]]);
            }
            _ => roles.extend(operation_roles(self.sizes)),
        }
        let mut line: Vec<Field> = Vec::new();
        for role in roles {
            let text = if role == Role::Letter { letter.to_string() } else { self.good_text(role, letter, &line) };
            line.push(Field { role, text });
        }
        line
    }

    /// A text that is good behind the fields before it: slots of a `P` rise as long as there are any, operands of a group differ.
    fn good_text(&mut self, role: Role, letter: char, before: &[Field]) -> String {
        let [regs, slots, vregs, blocks, _] = self.counts;
        let random = &mut self.random;
        match role {
            Role::Letter => String::new(),
            Role::Inst => (*random.pick(&[0, 1, 9, 77, 65_535])).to_string(),
            Role::Register => random.below(regs).to_string(),
            Role::Slot if letter == 'P' => (self.sizes[1] + before.len() - 2).min(slots - 1).to_string(),
            Role::Slot => random.below(slots).to_string(),
            Role::Block => random.below(blocks).to_string(),
            Role::Typed => (vregs - 1).to_string(),
            Role::Count(at) => self.counts[at].to_string(),
            Role::Operands(group) => self.sizes[group].to_string(),
            // Neither is listed by `T`, so that the two are alike.
            Role::Name(NO_GROUP, _) => format!("r{}", random.below(regs)),
            Role::Name(group, _) if random.percent(30) => {
                let free = |n: &usize| !group_has(before, group, &format!("r{}", n)) && !group_has(before, group, &n.to_string());
                let free: Vec<usize> = (0..regs).filter(free).collect();
                format!("r{}", random.pick(&free))
            }
            Role::Name(group, _) => {
                let free: Vec<usize> = (0..vregs).filter(|n| !group_has(before, group, &format!("v{}", n))).collect();
                format!("v{}", random.pick(&free))
            }
            Role::Allocation(group, _) => match before.last().unwrap().text.strip_prefix('r') {
                Some(own) => own.to_string(),
                None if random.percent(15) => "-".to_string(),
                None => {
                    let free: Vec<usize> = (0..regs).filter(|n| !group_has(before, group, &n.to_string())).collect();
                    random.pick(&free).to_string()
                }
            },
        }
    }

    /// Breaks the line at the target's field, and behind it and by higher numbers at any field too, if more faults are asked for.
    fn break_line(&mut self, line: &mut Vec<Field>, more_faults: bool) {
        let (_, number, field) = self.target;
        if more_faults && number < 8 && line.len() > 1 && self.random.percent(30) {
            let higher = self.random.within(number.max(4) as usize + 1, 8) as u32;
            let at = self.random.within(2, line.len());
            if at != field {
                self.break_field(line, at, higher);
            }
        }
        self.break_field(line, field, number);
        while more_faults && field < line.len() && self.random.percent(40) {
            let at = self.random.within(field + 1, line.len());
            self.break_field(line, at, number);
        }
        if more_faults && number == 3 && self.random.percent(20) {
            self.misspell(line, line.len() + 1);
        }
    }

    /// Breaks one field so that it shows the number, where it can.
    fn break_field(&mut self, line: &mut Vec<Field>, at: usize, number: u32) {
        if number == 3 {
            return self.misspell(line, at);
        }
        let field = line[at - 1].clone();
        let text = match number {
            5 => self.too_high(field.role, line),
            6 => self.again(field.role, line, at),
            7 => {
                self.name_real(line, at);
                self.another_register(field.role, line)
            }
            8 if field.role == Role::Name(NO_GROUP, 1) => Some(format!("v{}", self.random.pick(&self.typed))),
            _ => None,
        };
        line[at - 1].text = text.unwrap_or(field.text);
    }

    /// An ill-formed text, no field where one must be, or one too many.
    fn misspell(&mut self, line: &mut Vec<Field>, at: usize) {
        if at > line.len() {
            for _ in 0..self.random.within(1, 3) {
                line.push(Field { role: Role::Register, text: self.random.pick(BAD).to_string() });
            }
            return;
        }
        let letter = line[0].text.clone();
        let may_end = at == 1 || letter == "B" || letter == "P" && at > 2;
        if !may_end && self.random.percent(35) {
            return line.truncate(at - 1);
        }
        let role = line[at - 1].role;
        let bad: Vec<&str> = match role {
            Role::Letter => BAD_LETTERS.to_vec(),
            _ => BAD.iter().copied().filter(|text| !well_formed(role, text.as_bytes())).collect(),
        };
        line[at - 1].text = self.random.pick(&bad).to_string();
        if at == 1 && self.random.percent(30) {
            line.truncate(1);
        }
    }

    fn too_high(&mut self, role: Role, line: &[Field]) -> Option<String> {
        let [regs, slots, vregs, blocks, _] = self.counts;
        let limit = match role {
            Role::Inst => INST_LIMIT as usize + 1,
            Role::Register | Role::Allocation(..) => regs,
            Role::Slot => slots,
            Role::Block => blocks,
            Role::Typed => vregs,
            Role::Count(3) if self.random.percent(30) => return Some("0".to_string()),
            Role::Count(4) => line[4].text.parse().unwrap_or(BLOCKS_LIMIT as usize),
            Role::Count(at) => [REGS_LIMIT, SLOTS_LIMIT, VREGS_LIMIT, BLOCKS_LIMIT][at] as usize + 1,
            Role::Name(..) if self.random.percent(50) => return Some(format!("r{}", self.far(regs))),
            Role::Name(..) => return Some(format!("v{}", self.far(vregs))),
            // A line of so many operands is made with them.
            Role::Operands(_) | Role::Letter => return None,
        };
        Some(self.far(limit).to_string())
    }

    /// A number from the limit on.
    fn far(&mut self, limit: usize) -> usize {
        *self.random.pick(&[limit, limit, limit + 1, 99_999])
    }

    /// What stands in an earlier field that must differ from this one or be lower.
    fn again(&mut self, role: Role, line: &[Field], at: usize) -> Option<String> {
        let earlier: Vec<&str> = line[..at - 1].iter().filter(|field| alike(field.role, role) && field.text != "-").map(|f| f.text.as_str()).collect();
        match role {
            Role::Typed => Some(self.random.within(0, self.typed[0]).to_string()),
            Role::Slot if line[0].text == "P" => {
                let last: usize = earlier.last()?.parse().ok()?;
                Some(self.random.within(0, last).to_string())
            }
            Role::Name(0, _) | Role::Name(1, _) | Role::Allocation(1, _) if !earlier.is_empty() => Some(self.random.pick(&earlier).to_string()),
            _ => None,
        }
    }

    /// Gives the operand of a register a real name that its group does not have.
    fn name_real(&mut self, line: &mut [Field], at: usize) {
        if let Role::Allocation(group, _) = line[at - 1].role {
            let free: Vec<String> = (0..self.counts[0]).map(|n| format!("r{}", n)).filter(|name| !group_has(line, group, name)).collect();
            line[at - 2].text = self.random.pick(&free).clone();
        }
    }

    /// A register that the group does not have, or none.
    fn another_register(&mut self, role: Role, line: &[Field]) -> Option<String> {
        let group = match role {
            Role::Allocation(group, _) => group,
            _ => return None,
        };
        let free = |n: &usize| !group_has(line, group, &n.to_string()) && !group_has(line, group, &format!("r{}", n));
        let free: Vec<usize> = (0..self.counts[0]).filter(free).collect();
        if free.is_empty() || self.random.percent(30) {
            return Some("-".to_string());
        }
        Some(self.random.pick(&free).to_string())
    }
}

fn operation_roles(sizes: [usize; 2]) -> Vec<Role> {
    let mut roles = vec![Role::Inst];
    for group in 0..2 {
        roles.push(Role::Operands(group));
        roles.extend((0..sizes[group]).flat_map(|i| [Role::Name(group, i), Role::Allocation(group, i)]));
    }
    roles
}

/// Can an operation with so many uses and defs be refused by the number at the field, and by no lower one?
fn fits(sizes: [usize; 2], number: u32, field: usize) -> bool {
    let over = sizes.map(|size| size > OPERANDS_LIMIT);
    let roles = operation_roles(sizes);
    let role = roles.get(field - 2);
    match (number, role) {
        (3, _) => over == [false; 2] && field <= roles.len() + 2,
        (5, Some(Role::Operands(0))) => over[0],
        (5, Some(Role::Operands(_))) => over == [false, true],
        (5, Some(_)) => over == [false; 2],
        (6, Some(Role::Name(_, i))) | (6, Some(Role::Allocation(1, i))) => over == [false; 2] && *i > 0,
        (7, Some(Role::Allocation(..))) => over == [false; 2],
        _ => false,
    }
}

/// Is the text that of a name or of a register in the group?
fn group_has(line: &[Field], group: usize, text: &str) -> bool {
    let of_group = |role: Role| match role {
        Role::Name(of, _) | Role::Allocation(of, _) => of == group,
        _ => false,
    };
    line.iter().any(|field| of_group(field.role) && field.text == text)
}

/// Are two fields of a line held against each other?
fn alike(a: Role, b: Role) -> bool {
    match (a, b) {
        (Role::Name(one, _), Role::Name(other, _)) | (Role::Allocation(one, _), Role::Allocation(other, _)) => one == other,
        _ => a == b,
    }
}

fn well_formed(role: Role, text: &[u8]) -> bool {
    match role {
        Role::Name(..) => name(text).is_some(),
        Role::Allocation(..) => allocation(text).is_some(),
        _ => number(text).is_some(),
    }
}

/// The most operands of a group that are tried.
const TRIED: usize = 2 * OPERANDS_LIMIT;

/// The field of a refused line by trying: the first one up to which no line that agrees with it is of good form and free of the number.
/// None where the line says more operands than are tried. The lines before it are good, and there are a register, a slot and a name.
pub fn by_trying(before: &[u8], line: &[u8], refused: u32) -> Option<usize> {
    let fields: Vec<&[u8]> = line.split(|&byte| byte == b'\t').collect();
    let count = |at: usize| fields.get(at).and_then(|field| number(field)).unwrap_or(0) as usize;
    if fields[0] == b"O" && (count(2) > TRIED || count(3 + 2 * count(2)) > TRIED) {
        return None;
    }
    let free = |head: &[&[u8]], tail: &Vec<String>| {
        let mut list: Vec<&[u8]> = head.to_vec();
        list.extend(tail.iter().map(|field| field.as_bytes()));
        let numbers = broken(&[before, &list.join(&b'\t')].concat()).1;
        !numbers.contains('3') && !numbers.contains(&refused.to_string())
    };
    let shows = |&field: &usize| {
        let head = &fields[..field];
        !tails(head, refused).iter().any(|tail| free(head, tail))
    };
    Some((1..=fields.len()).find(shows).unwrap_or(fields.len() + 1))
}

/// Ways in which a line may go on behind its first fields, one of them free of the number where there is one.
fn tails(head: &[&[u8]], refused: u32) -> Vec<Vec<String>> {
    let last = String::from_utf8_lossy(head[head.len() - 1]).to_string();
    let lines: Vec<String> = match head[0] {
        b"F" => vec!["F 0 0 0 1 0".to_string()],
        b"T" => vec!["T 0".to_string(), "T 99999".to_string()],
        b"S" | b"L" | b"M" => vec!["S 0 0".to_string()],
        b"C" => vec!["C 0 0 v0 v0".to_string(), format!("C 0 0 v0 {}", last)],
        b"P" => vec!["P 0".to_string()],
        b"O" => return operation_tails(head.len(), &last, refused),
        _ => vec![String::new()],
    };
    lines.iter().map(|line| line.split(' ').skip(head.len()).map(|field| field.to_string()).collect()).collect()
}

/// Behind so many fields of an operation: counts of nothing; or a register or none, operands, and a count of nothing or none. The
/// operands are others than those before where names must differ.
fn operation_tails(fields: usize, last: &str, refused: u32) -> Vec<Vec<String>> {
    let mut list = vec![vec!["0".to_string(); 4 - fields.min(4)]];
    let own = last.trim_start_matches(&['r', 'v'][..]);
    let name = |at: usize| if refused == 6 { format!("v{}", 90_000 + at) } else { "v0".to_string() };
    for first in [None, Some("-"), Some(own)] {
        for operands in 0..=TRIED {
            for end in [None, Some("0")] {
                let mut tail: Vec<String> = first.iter().map(|text| text.to_string()).collect();
                tail.extend((0..operands).flat_map(|at| [name(at), "-".to_string()]));
                tail.extend(end.iter().map(|text| text.to_string()));
                list.push(tail);
            }
        }
    }
    list
}
