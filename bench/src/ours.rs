//! The product's exported function, and the buffers that are lent to it.

pub const REPORT_SIZE: usize = 34_576;
pub const WORDS_SIZE: usize = 32_768;
pub const QUEUE_SIZE: usize = 32_769;

pub const ACCEPTED: u8 = 0;
pub const FAULTY: u8 = 1;
pub const REFUSED: u8 = 2;

#[repr(C)]
#[derive(Clone, Copy, Debug, PartialEq, Eq)]
pub struct Verdict {
    pub answer: u8,
    pub number: u8,
    pub length: usize,
    pub line: usize,
    pub field: usize,
}

// As include/itanropen.h declares it: a slice is its pointer and a count of its elements; rule 0 is the old rule, any other the house rule.
#[link(name = "checker", kind = "static")]
extern "C" {
    fn itanropen_check(
        rule: u64,
        sheet: *const u8,
        sheet_length: usize,
        report: *mut u8,
        report_length: usize,
        words: *mut u16,
        words_length: usize,
        queue: *mut u8,
        queue_length: usize,
    ) -> Verdict;
}

/// The buffers, made once: the product leaves its scratch all zero.
pub struct Ours {
    report: Vec<u8>,
    words: Vec<u16>,
    queue: Vec<u8>,
}

impl Ours {
    pub fn new() -> Ours {
        Ours {
            report: vec![0; REPORT_SIZE],
            words: vec![0; WORDS_SIZE],
            queue: vec![0; QUEUE_SIZE],
        }
    }

    pub fn check(&mut self, house: bool, sheet: &[u8]) -> Verdict {
        // The buffers are distinct, live for the call, and as long as is said.
        unsafe {
            itanropen_check(
                u64::from(house),
                sheet.as_ptr(),
                sheet.len(),
                self.report.as_mut_ptr(),
                self.report.len(),
                self.words.as_mut_ptr(),
                self.words.len(),
                self.queue.as_mut_ptr(),
                self.queue.len(),
            )
        }
    }

    /// The report that the last call left.
    pub fn report(&self, verdict: Verdict) -> &[u8] {
        &self.report[..verdict.length]
    }
}
