//! The sheet reader: refusals 1 to 11, the number of lines, each line's word and end, and the scratch.

use reference::case::Case;
use reference::reader::{Line, Loaded, Refusal, Spans, ENTRIES};

#[repr(C)]
#[derive(Debug, PartialEq, Eq)]
struct Load {
    number: u32,
    line: usize,
    lines: usize,
}

extern "C" {
    fn quanta_load(
        sheet: *const u8,
        sheet_len: usize,
        scratch: *mut u16,
        scratch_len: usize,
        types: usize,
    ) -> Load;
}

/// The record words by kind.
const WORDS: &[&str] = &[
    "contract",
    "state",
    "event",
    "invariant",
    "genesis",
    "entry",
    "field",
    "param",
    "type",
    "num",
    "mofn",
    "limits",
    "denies",
    "mints",
    "after",
    "guard",
    "let",
    "emit",
    "assign",
    "do",
    "int",
    "id",
    "date",
    "str",
    "caller",
    "native",
    "inasset",
    "now",
    "un",
    "bin",
    "dot",
    "call",
    "checked",
    "wrapping",
];

/// Entries on either side of the lent scratch, which must stay as they are.
const GUARD: usize = 8;

fn noise(at: usize) -> u16 {
    (at as u16).wrapping_mul(40_503) ^ 0x5aa5
}

/// The answer, and the scratch with its guards, which were full of noise.
fn load(case: &Case) -> (Load, Vec<u16>) {
    let mut buffer: Vec<u16> = (0..case.scratch_len + 2 * GUARD).map(noise).collect();
    let scratch = &mut buffer[GUARD..GUARD + case.scratch_len];
    // SAFETY: each pointer is that of a slice, with its length.
    let answer = unsafe {
        quanta_load(
            case.sheet.as_ptr(),
            case.sheet.len(),
            scratch.as_mut_ptr(),
            scratch.len(),
            case.types_len,
        )
    };
    (answer, buffer)
}

pub fn compare(case: &Case) -> Result<(), String> {
    let (answer, buffer) = load(case);
    let expected = case.read(Spans::Own);
    let wanted = match &expected {
        Ok(loaded) => Load { number: 0, line: 0, lines: loaded.lines.len() },
        Err(Refusal { number, place }) => Load { number: *number, line: *place as usize, lines: 0 },
    };
    if answer != wanted {
        return Err(format!("answered {answer:?}, wanted {wanted:?}"));
    }
    compare_scratch(case, &expected, &buffer)
}

fn compare_scratch(
    case: &Case,
    expected: &Result<Loaded, Refusal>,
    buffer: &[u16],
) -> Result<(), String> {
    let lines = case.sheet.iter().filter(|&&byte| byte == b'\n').count();
    let written = match expected {
        Err(Refusal { number: 1..=5, .. }) => 0,
        _ => ENTRIES * lines,
    };
    let (entries, rest) = buffer[GUARD..].split_at(written);
    let untouched = |at: usize, value: &u16| *value == noise(at);
    let before = buffer[..GUARD].iter().enumerate().all(|(at, value)| untouched(at, value));
    let after = rest.iter().enumerate().all(|(at, value)| untouched(GUARD + written + at, value));
    if !before || !after {
        return Err("the scratch is touched where it must not be".to_string());
    }
    match expected {
        Err(_) if entries.iter().any(|&value| value != 0) => {
            Err("a refusal left entries that aren't zero".to_string())
        }
        Err(_) => Ok(()),
        Ok(loaded) => compare_lines(&loaded.lines, entries),
    }
}

fn compare_lines(lines: &[Line], entries: &[u16]) -> Result<(), String> {
    for (at, line) in lines.iter().enumerate() {
        let kind = entries[ENTRIES * at] % 64;
        let end = entries[ENTRIES * at + 2];
        if WORDS.get(kind as usize) != Some(&line.word) || u32::from(end) + 1 != line.end {
            return Err(format!("line {}: kind {kind}, end {end}, wanted {line:?}", at + 1));
        }
    }
    Ok(())
}
