use crate::ffi::Answer;
use std::fmt;

/// The verdict on a sheet. Later versions may refuse more, by numbers of their own.
///
/// It is displayed as the program `shelfcheck` writes it: `accepted`, or number, place and
/// message, parted by commas.
#[derive(Clone, Debug, PartialEq, Eq)]
#[non_exhaustive]
pub enum Verdict {
    /// The contract passes every check.
    Accepted,
    /// The sheet can't be read: it is too long, cut short, malformed or nested too deep.
    Unread {
        /// The refusal, 1 to 11.
        number: u32,
        /// The line at fault, from 1; one past the last where a line is missing. None for 1 to 5.
        line: Option<u32>,
    },
    /// A rule refuses the contract.
    Refused {
        /// The refusal, from 12 on.
        number: u32,
        /// The span at fault, as the sheet gives it.
        span: u32,
        /// What is wrong, in the words of the Rust type pass.
        message: String,
    },
}

impl Verdict {
    /// The verdict of an answer whose message stands at the start of the buffer.
    pub(crate) fn of(answer: Answer, message: &[u8]) -> Verdict {
        let Answer { number, place, length, .. } = answer;
        match number {
            0 => Verdict::Accepted,
            1..=11 => Verdict::Unread { number, line: (place > 0).then_some(place) },
            _ => {
                let written = message.get(..length as usize).unwrap_or_default();
                let message = String::from_utf8_lossy(written).into_owned();
                Verdict::Refused { number, span: place, message }
            }
        }
    }
}

impl fmt::Display for Verdict {
    fn fmt(&self, f: &mut fmt::Formatter<'_>) -> fmt::Result {
        match self {
            Verdict::Accepted => write!(f, "accepted"),
            Verdict::Unread { number, line } => write!(f, "{number},{}", line.unwrap_or(0)),
            Verdict::Refused { number, span, message } => write!(f, "{number},{span},{message}"),
        }
    }
}
