//! A sheet and the lengths of what is lent with it.

use crate::answer::{answer, Answer};
use crate::reader::{read, Loaded, Refusal, Spans, ENTRIES};

#[derive(Clone, Debug, PartialEq, Eq)]
pub struct Case {
    pub sheet: Vec<u8>,
    /// In entries of 16 bits.
    pub scratch_len: usize,
    pub types_len: usize,
    pub message_len: usize,
}

/// What the program `shelfcheck` lends; it holds every message.
const LONG_MESSAGE: usize = 16_384;

impl Case {
    /// A sheet with tables of exactly the wanted length and a long message buffer.
    pub fn exact(sheet: Vec<u8>) -> Case {
        let mut case = Case { sheet, scratch_len: 0, types_len: 0, message_len: LONG_MESSAGE };
        case.types_len = case.lines();
        case.scratch_len = ENTRIES * case.lines();
        case
    }

    pub fn lines(&self) -> usize {
        self.sheet.iter().filter(|&&byte| byte == b'\n').count()
    }

    pub fn read(&self, spans: Spans) -> Result<Loaded, Refusal> {
        read(&self.sheet, self.scratch_len, self.types_len, spans)
    }

    pub fn answer(&self) -> Answer {
        answer(&self.sheet, self.scratch_len, self.types_len, self.message_len)
    }
}
