//! The rows of the benchmark: which sheets each has.

use crate::contracts::{keyed_calls, refused_late, typical, wide};
use reference::answer::Answer;
use reference::askings::listed;
use reference::case::Case;
use reference::generate::case;
use reference::reader::{Spans, MOST_BYTES};
use reference::{check, Model};
use std::ops::RangeInclusive;

const SEED: u64 = 1;
/// Generated sheets in a row.
const GENERATED: usize = 50;
/// Of one number.
const OF_A_NUMBER: usize = 2;

pub struct Row {
    pub name: String,
    pub sheets: Vec<Vec<u8>>,
    /// Whether the Rust would take too long.
    pub alone: bool,
}

fn row(name: &str, sheets: Vec<Vec<u8>>) -> Row {
    Row { name: name.to_string(), sheets, alone: false }
}

pub fn typical_rows() -> Vec<Row> {
    let lengths = || (20..=200).step_by(10);
    vec![
        row("contracts, accepted", lengths().map(|lines| typical(lines, lines / 10)).collect()),
        row(
            "contracts, refused in the last entry",
            lengths().map(|lines| refused_late(lines.max(24), lines / 10)).collect(),
        ),
        row("generated, accepted", generated(0..=0, GENERATED)),
        row("generated, refused by 12 to 46", generated(12..=46, OF_A_NUMBER)),
    ]
}

pub fn largest_rows() -> Vec<Row> {
    vec![
        row("contract, accepted", vec![typical(1_024, 0)]),
        row("contract, refused in the last entry", vec![refused_late(1_024, 0)]),
        row("256 fields and one long entry, accepted", vec![wide(1_024)]),
    ]
}

pub fn load_rows() -> Vec<Row> {
    let mut malformed = typical(1_024, 0);
    let end = malformed.len() - 1;
    malformed[end - 1] = b'-';
    let mut cut = typical(200, 0);
    cut.pop();
    vec![
        row("16,385 bytes: 1", vec![vec![b'\n'; MOST_BYTES + 1]]),
        row("200 lines, the last LF missing: 2", vec![cut]),
        row("generated of 20 to 200 lines, refused by 6 to 11", generated(6..=11, OF_A_NUMBER)),
        row("1,024 lines, the last malformed: 10", vec![malformed]),
    ]
}

pub fn keyed_rows() -> Vec<Row> {
    let one = |depth: usize| row(&depth.to_string(), vec![keyed_calls(depth)]);
    let alone = Row { alone: true, ..one(40) };
    (1..=12).map(one).chain([alone]).collect()
}

/// The answer to nested calls that the Rust can't give: accepted, and every call and the innermost key
/// are numbers.
pub fn nested_answer(sheet: &[u8]) -> Answer {
    let lines = sheet.split_inclusive(|&byte| byte == b'\n');
    let types = lines.map(|line| u8::from(line.starts_with(b"call") || line.starts_with(b"int")));
    let types: Vec<u8> = types.collect();
    let count = types.iter().map(|&code| u32::from(code)).sum();
    let (places, message) = (vec![0], String::new());
    Answer { number: 0, places, count, message, fits: true, types: Some(types) }
}

pub const GROWTH: [usize; 3] = [64, 256, 1_024];

pub fn growth_rows() -> Vec<Vec<Row>> {
    let rows = |name: &str, sheet: fn(usize) -> Vec<u8>| {
        GROWTH.map(|lines| row(name, vec![sheet(lines)])).into()
    };
    vec![
        rows("contracts, accepted", |lines| typical(lines, 0)),
        rows("a quarter fields, one long entry, accepted", wide),
    ]
}

/// The first generated sheets of 20 to 200 lines with these numbers, so many of each.
fn generated(numbers: RangeInclusive<u32>, most: usize) -> Vec<Vec<u8>> {
    let mut times = [0; 47];
    let mut sheets = Vec::new();
    let wanted = most * numbers.clone().count();
    for index in 0..200_000 {
        let case = Case::exact(case(SEED, index).sheet);
        let number = case.answer().number;
        let short = times[number as usize] < most;
        if short && numbers.contains(&number) && is_typical(&case) {
            times[number as usize] += 1;
            sheets.push(case.sheet);
        }
        if sheets.len() == wanted {
            break;
        }
    }
    sheets
}

/// Sheets on which the Rust's askings double again and again have rows of their own.
fn is_typical(case: &Case) -> bool {
    let askings = case.read(Spans::Own).map_or(0, |loaded| {
        let model = Model::build(&loaded.contract);
        listed(|| check(&model)).1.len()
    });
    (20..=200).contains(&case.types_len) && askings <= 2 * case.types_len
}

#[cfg(test)]
mod tests {
    use super::*;

    #[test]
    fn the_answer_to_nested_calls_is_that_of_the_reference() {
        for depth in 1..=12 {
            let sheet = keyed_calls(depth);
            assert_eq!(nested_answer(&sheet), Case::exact(sheet).answer());
        }
    }

    #[test]
    fn every_row_has_its_sheets() {
        let rows = [typical_rows(), largest_rows(), load_rows(), keyed_rows()];
        let counts = rows.map(|rows| rows.iter().map(|row| row.sheets.len()).collect::<Vec<_>>());
        let [typical, largest, load, keyed] = counts;
        assert_eq!(typical, [19, 19, GENERATED, 35 * OF_A_NUMBER]);
        assert_eq!((largest, load), (vec![1; 3], vec![1, 1, 6 * OF_A_NUMBER, 1]));
        assert_eq!(keyed, [1; 13]);
    }
}
