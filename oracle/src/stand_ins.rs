//! Stand-ins for what checker.rs takes from its crate and from other crates. Only what it names is
//! here. The sets keep the order in which members came (the crate's own set sorts them), and a
//! register class says nothing. The Debug forms are those of the report, so that the private parts of
//! the Rust (its list of errors, its states) can be read from their Debug text.

use std::cell::RefCell;
use std::fmt;

pub mod data_structures {
    use std::collections::HashMap;
    use std::fmt;
    use std::hash::{BuildHasherDefault, Hasher};

    /// A small hasher that gives the same order on every machine.
    #[derive(Default)]
    pub struct Mix(u64);

    impl Hasher for Mix {
        fn write(&mut self, bytes: &[u8]) {
            for &byte in bytes {
                self.write_u64(byte as u64);
            }
        }
        fn write_u32(&mut self, word: u32) {
            self.write_u64(word as u64);
        }
        fn write_u64(&mut self, word: u64) {
            self.0 = (self.0.rotate_left(5) ^ word).wrapping_mul(0x9e37_79b9_7f4a_7c15);
        }
        fn write_usize(&mut self, word: usize) {
            self.write_u64(word as u64);
        }
        fn write_isize(&mut self, word: isize) {
            self.write_u64(word as u64);
        }
        fn finish(&self) -> u64 {
            self.0 ^ (self.0 >> 32)
        }
    }

    pub type Map<K, V> = HashMap<K, V, BuildHasherDefault<Mix>>;

    /// A set as a list without repeats, in the order of insertion.
    #[derive(Clone, Debug)]
    pub struct Set<T> {
        members: Vec<T>,
    }

    impl<T: Copy + PartialEq> Set<T> {
        pub fn empty() -> Set<T> {
            Set { members: Vec::new() }
        }
        pub fn insert(&mut self, member: T) {
            if !self.members.contains(&member) {
                self.members.push(member);
            }
        }
        pub fn union(&mut self, other: &Set<T>) {
            for &member in &other.members {
                self.insert(member);
            }
        }
        pub fn is_empty(&self) -> bool {
            self.members.is_empty()
        }
        pub fn to_vec(&self) -> Vec<T> {
            self.members.clone()
        }
    }

    #[derive(Clone, Copy, PartialEq, Eq, Hash)]
    pub struct BlockIx(u32);

    impl BlockIx {
        pub fn new(n: u32) -> BlockIx {
            BlockIx(n)
        }
        pub fn get(self) -> u32 {
            self.0
        }
    }

    impl fmt::Debug for BlockIx {
        fn fmt(&self, out: &mut fmt::Formatter) -> fmt::Result {
            write!(out, "b{}", self.0)
        }
    }

    #[derive(Clone, Copy, PartialEq, Eq, Hash)]
    pub struct InstIx(u32);

    impl InstIx {
        pub fn new(n: u32) -> InstIx {
            InstIx(n)
        }
        pub fn get(self) -> u32 {
            self.0
        }
    }

    impl fmt::Debug for InstIx {
        fn fmt(&self, out: &mut fmt::Formatter) -> fmt::Result {
            write!(out, "{}", self.0)
        }
    }

    #[derive(Clone, Copy)]
    pub struct RegClass;

    #[derive(Clone, Copy, PartialEq, Eq, Hash)]
    pub enum Reg {
        Real(u32),
        Virtual(u32),
    }

    impl Reg {
        pub fn new_real(_class: RegClass, _encoding: u8, index: u8) -> Reg {
            Reg::Real(index as u32)
        }
        pub fn get_class(self) -> RegClass {
            RegClass
        }
        pub fn is_virtual(self) -> bool {
            match self {
                Reg::Virtual(_) => true,
                Reg::Real(_) => false,
            }
        }
        pub fn to_virtual_reg(self) -> VirtualReg {
            match self {
                Reg::Virtual(n) => VirtualReg(n),
                Reg::Real(_) => panic!("a real register is not virtual"),
            }
        }
        pub fn to_real_reg(self) -> RealReg {
            match self {
                Reg::Real(n) => RealReg(n),
                Reg::Virtual(_) => panic!("a virtual register is not real"),
            }
        }
    }

    impl fmt::Debug for Reg {
        fn fmt(&self, out: &mut fmt::Formatter) -> fmt::Result {
            match self {
                Reg::Real(n) => write!(out, "r{}", n),
                Reg::Virtual(n) => write!(out, "v{}", n),
            }
        }
    }

    #[derive(Clone, Copy, PartialEq, Eq, Hash)]
    pub struct RealReg(u32);

    impl RealReg {
        pub fn to_reg(self) -> Reg {
            Reg::Real(self.0)
        }
    }

    impl fmt::Debug for RealReg {
        fn fmt(&self, out: &mut fmt::Formatter) -> fmt::Result {
            write!(out, "r{}", self.0)
        }
    }

    #[derive(Clone, Copy, PartialEq, Eq, Hash)]
    pub struct VirtualReg(u32);

    impl fmt::Debug for VirtualReg {
        fn fmt(&self, out: &mut fmt::Formatter) -> fmt::Result {
            write!(out, "v{}", self.0)
        }
    }

    #[derive(Clone, Copy, PartialEq, Eq, Hash, PartialOrd, Ord)]
    pub struct SpillSlot(u32);

    impl SpillSlot {
        pub fn new(n: u32) -> SpillSlot {
            SpillSlot(n)
        }
    }

    impl fmt::Debug for SpillSlot {
        fn fmt(&self, out: &mut fmt::Formatter) -> fmt::Result {
            write!(out, "s{}", self.0)
        }
    }

    #[derive(Clone, Copy, Debug)]
    pub struct Writable<R> {
        reg: R,
    }

    impl<R: Copy> Writable<R> {
        pub fn from_reg(reg: R) -> Writable<R> {
            Writable { reg }
        }
        pub fn to_reg(&self) -> R {
            self.reg
        }
    }

    /// The registers of a function; the second field, a name in the crate, is not used.
    pub struct RealRegUniverse {
        pub regs: Vec<(RealReg, ())>,
    }

    #[derive(Clone, Debug)]
    pub struct RegSets {
        pub uses: Set<Reg>,
        pub defs: Set<Reg>,
        pub mods: Set<Reg>,
    }

    impl RegSets {
        pub fn is_sanitized(&self) -> bool {
            true
        }
    }
}

pub mod inst_stream {
    use super::data_structures::InstIx;

    #[derive(Clone, Copy, PartialEq, Eq, Hash)]
    pub enum ExtPoint {
        Reload,
        SpillBefore,
        Use,
        ReloadAfter,
        Spill,
    }

    #[derive(Clone, PartialEq, Eq, Hash)]
    pub struct InstExtPoint(InstIx, ExtPoint);

    impl InstExtPoint {
        pub fn new(inst: InstIx, point: ExtPoint) -> InstExtPoint {
            InstExtPoint(inst, point)
        }
    }

    /// Named by `CheckerContext` only, which the oracle never makes.
    pub enum InstToInsert {}

    impl InstToInsert {
        pub(crate) fn to_checker_inst(&self) -> crate::checker::Inst {
            match *self {}
        }
    }

    pub struct InstToInsertAndExtPoint {
        pub inst: InstToInsert,
        pub iep: InstExtPoint,
    }
}

pub mod analysis_data_flow {
    use super::data_structures::{RealReg, RealRegUniverse, RegSets};
    use super::Function;

    /// Named by `CheckerContext` only.
    pub fn get_san_reg_sets_for_insn<F: Function>(
        _inst: &F::Inst,
        _universe: &RealRegUniverse,
    ) -> Result<RegSets, RealReg> {
        unreachable!("the oracle makes no CheckerContext")
    }
}

use data_structures::{BlockIx, InstIx, RealReg, VirtualReg};

pub trait Function {
    type Inst;
    fn blocks(&self) -> Vec<BlockIx>;
    fn block_succs(&self, block: BlockIx) -> Vec<BlockIx>;
    fn entry_block(&self) -> BlockIx;
    fn get_insn(&self, inst: InstIx) -> &Self::Inst;
}

pub trait RegUsageMapper: fmt::Debug {
    fn get_use(&self, vreg: VirtualReg) -> Option<RealReg>;
    fn get_def(&self, vreg: VirtualReg) -> Option<RealReg>;
}

/// Named by `CheckerContext` only.
pub struct StackmapRequestInfo {
    pub safepoint_insns: Vec<InstIx>,
    pub reftyped_vregs: Vec<VirtualReg>,
}

pub type FxHashSet<K> =
    std::collections::HashSet<K, std::hash::BuildHasherDefault<data_structures::Mix>>;

thread_local! {
    static LOG: RefCell<Option<Vec<String>>> = RefCell::new(None);
}

/// Starts recording the messages of `analyze`.
pub fn start_log() {
    LOG.with(|log| *log.borrow_mut() = Some(Vec::new()));
}

/// Ends recording and gives what was recorded.
pub fn take_log() -> Vec<String> {
    LOG.with(|log| log.borrow_mut().take()).unwrap_or_default()
}

/// Is a message of this form to be recorded now?
pub fn wanted(form: &str) -> bool {
    form.starts_with("analyze: block") && LOG.with(|log| log.borrow().is_some())
}

pub fn record(message: String) {
    LOG.with(|log| {
        if let Some(messages) = log.borrow_mut().as_mut() {
            messages.push(message);
        }
    });
}

/// The log's `debug!`: keeps the messages that are wanted and formats no other.
macro_rules! debug {
    ($form:literal $(, $argument:expr)* $(,)?) => {
        if crate::stand_ins::wanted($form) {
            crate::stand_ins::record(format!($form $(, $argument)*));
        }
    };
}
pub(crate) use debug;
