#![doc = include_str!("../README.md")]
#![deny(missing_docs, unsafe_code)]

#[allow(unsafe_code)]
mod ffi;
mod types;
mod verdict;

pub use types::Type;
pub use verdict::Verdict;

/// The most lines of a sheet that is read.
const MAX_LINES: usize = 1_024;

/// Entries of the scratch for each line.
const SCRATCH_PER_LINE: usize = 8;

/// Bytes first lent for a message. One that shows a declared type may be longer.
const MESSAGE: usize = 1_024;

/// The answer to a sheet.
#[derive(Clone, Debug, PartialEq, Eq)]
#[non_exhaustive]
pub struct Checked {
    /// Accepted, or what is wrong.
    pub verdict: Verdict,
    /// A type for each line of the sheet; none if it can't be read.
    pub types: Vec<Type>,
    /// How many lines have a type other than [`Type::NotReached`].
    pub count: u32,
}

/// Judges a sheet.
pub fn check(sheet: &[u8]) -> Checked {
    Checker::new().check(sheet)
}

/// Judges sheets one after another, and keeps the buffers that the library works in.
///
/// An answer doesn't depend on the sheets before it.
#[derive(Clone, Debug)]
pub struct Checker {
    scratch: Vec<u16>,
    types: Vec<u8>,
    message: Vec<u8>,
}

impl Checker {
    /// A checker with room for every sheet that is read.
    pub fn new() -> Checker {
        Checker {
            scratch: vec![0; SCRATCH_PER_LINE * MAX_LINES],
            types: vec![0; MAX_LINES],
            message: vec![0; MESSAGE],
        }
    }

    /// Judges a sheet.
    pub fn check(&mut self, sheet: &[u8]) -> Checked {
        let mut answer = self.ask(sheet);
        let length = answer.length as usize;
        if length > self.message.len() {
            // The message wasn't written; now it is.
            self.message.resize(length, 0);
            answer = self.ask(sheet);
        }
        let verdict = Verdict::of(answer, &self.message);
        let lines = match verdict {
            Verdict::Unread { .. } => 0,
            _ => sheet.iter().filter(|&&byte| byte == b'\n').count(),
        };
        let types = self.types.iter().take(lines).map(|&code| Type::of(code)).collect();
        Checked { verdict, types, count: answer.count }
    }

    fn ask(&mut self, sheet: &[u8]) -> ffi::Answer {
        ffi::quanta_check(sheet, &mut self.scratch, &mut self.types, &mut self.message)
    }
}

impl Default for Checker {
    fn default() -> Checker {
        Checker::new()
    }
}
