//! check [FILE]: what `regcheck` writes of the sheet in FILE, or on standard input: its house report, or `X number line field`. Ends with 0
//! for accepted, 1 for faulty, 2 for refused, 3 where the sheet could not be read.
//!
//! rustc --edition 2021 -L native=target/staticlib -o check examples/check.rs

use std::io::{Read, Write};

/// The declarations of include/itanropen.h, and a call that cannot be given a wrong count: a slice knows its own.
mod itanropen {
    /// 0 is the old rule, and every other number the house rule.
    pub const HOUSE_RULE: u64 = 1;
    pub const REFUSED: u8 = 2;

    #[repr(C)]
    #[derive(Clone, Copy, Debug, PartialEq, Eq)]
    pub struct Verdict {
        pub answer: u8,
        pub number: u8,
        pub length: usize,
        pub line: usize,
        pub field: usize,
    }

    #[link(name = "checker", kind = "static")]
    extern "C" {
        fn itanropen_check(
            rule: u64,
            sheet: *const u8,
            sheet_count: usize,
            report: *mut u8,
            report_count: usize,
            words: *mut u16,
            words_count: usize,
            queue: *mut u8,
            queue_count: usize,
        ) -> Verdict;
    }

    /// The buffers that a call is lent, made once: a call leaves the scratch all zero.
    pub struct Buffers {
        pub report: Vec<u8>,
        words: Vec<u16>,
        queue: Vec<u8>,
    }

    impl Buffers {
        pub fn new() -> Buffers {
            Buffers {
                report: vec![0; 34_576],
                words: vec![0; 32_768],
                queue: vec![0; 32_769],
            }
        }

        pub fn check(&mut self, rule: u64, sheet: &[u8]) -> Verdict {
            // Four slices: live, aligned, apart, and as long as they say.
            unsafe {
                itanropen_check(
                    rule,
                    sheet.as_ptr(),
                    sheet.len(),
                    self.report.as_mut_ptr(),
                    self.report.len(),
                    self.words.as_mut_ptr(),
                    self.words.len(),
                    self.queue.as_mut_ptr(),
                    self.queue.len(),
                )
            }
        }
    }
}

fn read_sheet() -> std::io::Result<Vec<u8>> {
    match std::env::args_os().nth(1) {
        Some(file) => std::fs::read(file),
        None => {
            let mut sheet = Vec::new();
            std::io::stdin().read_to_end(&mut sheet)?;
            Ok(sheet)
        }
    }
}

fn main() {
    let sheet = read_sheet().unwrap_or_else(|error| {
        eprintln!("check: {error}");
        std::process::exit(3)
    });
    let mut buffers = itanropen::Buffers::new();
    let verdict = buffers.check(itanropen::HOUSE_RULE, &sheet);
    let text = if verdict.answer == itanropen::REFUSED {
        format!("X\t{}\t{}\t{}\n", verdict.number, verdict.line, verdict.field).into_bytes()
    } else {
        buffers.report[..verdict.length].to_vec()
    };
    std::io::stdout().write_all(&text).expect("standard output");
    std::process::exit(verdict.answer.into())
}
