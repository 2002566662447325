//! That the comparison can fail: right outcomes, made from the reference's answers, are made wrong in one
//! place each, and each is told. The library has no part in it.

use differential::ffi;
use differential::lengths::{generated, lines, Generated};
use differential::lent::Lent;
use differential::verdict::{differences, Outcome};
use reference::answer::Answer;
use reference::case::Case;
use reference::reader::ENTRIES;
use reference::rng::Rng;
use std::fmt::Debug;
use std::ops::BitXorAssign;

const SHEETS: u64 = 1_000;

/// Makes an outcome wrong, and tells whether there was anything to make wrong.
type Fault = fn(&Generated, &mut Outcome) -> bool;

/// Each fault with the word that its difference is told by.
const FAULTS: &[(&str, &str, Fault)] = &[
    ("another number", "answer", |_, got| {
        got.answer.number ^= 1;
        true
    }),
    ("another place", "answer", |made, got| {
        got.answer.place = (0..).find(|place| !made.answer.places.contains(place)).unwrap();
        true
    }),
    ("one more in the count", "answer", |_, got| {
        got.answer.count += 1;
        true
    }),
    ("one less in the count", "answer", |_, got| {
        got.answer.count = got.answer.count.wrapping_sub(1);
        true
    }),
    ("one more in the length", "answer", |_, got| {
        got.answer.length += 1;
        true
    }),
    ("a byte of the sheet", "sheet", |_, got| changed(&mut got.sheet, 0)),
    ("the guard before the sheet", "sheet", |_, got| guards(&mut got.sheet, true)),
    ("the guard behind the sheet", "sheet", |_, got| guards(&mut got.sheet, false)),
    ("the guard before the scratch", "scratch", |_, got| guards(&mut got.scratch, true)),
    ("the guard behind the scratch", "scratch", |_, got| guards(&mut got.scratch, false)),
    ("the guard before the table", "types", |_, got| guards(&mut got.types, true)),
    ("the guard behind the table", "types", |_, got| guards(&mut got.types, false)),
    ("the guard before the message", "message", |_, got| guards(&mut got.message, true)),
    ("the guard behind the message", "message", |_, got| guards(&mut got.message, false)),
    ("the first entry, zero or untouched", "scratch", |_, got| changed(&mut got.scratch, 0)),
    ("the last line's last entry", "scratch", |made, got| {
        let entries = ENTRIES * lines(&made.case);
        entries > 0 && changed(&mut got.scratch, entries - 1)
    }),
    ("an entry beyond eight a line", "scratch", |made, got| {
        changed(&mut got.scratch, ENTRIES * lines(&made.case))
    }),
    ("the first line's type", "types", |_, got| changed(&mut got.types, 0)),
    ("the last line's type", "types", |made, got| {
        let lines = lines(&made.case);
        lines > 0 && changed(&mut got.types, lines - 1)
    }),
    ("a byte beyond the line count", "types", |made, got| {
        changed(&mut got.types, lines(&made.case))
    }),
    ("the first byte of the message", "message", |_, got| changed(&mut got.message, 0)),
    ("the last byte of the message", "message", |made, got| {
        let length = made.answer.message.len();
        length > 0 && changed(&mut got.message, length - 1)
    }),
    ("a byte beyond the message", "message", |made, got| {
        changed(&mut got.message, made.answer.message.len())
    }),
];

/// A byte, or an entry of the scratch.
trait Element: Copy + Debug + PartialEq + BitXorAssign + From<bool> {}

impl Element for u8 {}
impl Element for u16 {}

/// Changes an element of the buffer, if it has so many.
fn changed<T: Element>(lent: &mut Lent<T>, at: usize) -> bool {
    lent.slice().get_mut(at).map(|element| *element ^= T::from(true)).is_some()
}

/// Changes the element directly before the buffer, or the one directly behind it.
fn guards<T: Element>(lent: &mut Lent<T>, before: bool) -> bool {
    let behind = lent.start + lent.slice().len();
    let at = if before { lent.start - 1 } else { behind };
    lent.after[at] ^= T::from(true);
    true
}

/// What a right library answers and leaves.
fn right(case: &Case, answer: &Answer, rng: &mut Rng) -> Outcome {
    let mut right = Outcome {
        answer: ffi::Answer {
            number: answer.number,
            place: answer.places[0],
            count: answer.count,
            length: answer.message.len() as u32,
        },
        sheet: Lent::holding(&case.sheet, rng, |bits| bits as u8),
        scratch: Lent::noise(case.scratch_len, rng, |bits| bits as u16),
        types: Lent::noise(case.types_len, rng, |bits| bits as u8),
        message: Lent::noise(case.message_len, rng, |bits| bits as u8),
    };
    if !matches!(answer.number, 1..=5) {
        right.scratch.slice()[..ENTRIES * lines(case)].fill(0);
    }
    if let Some(types) = &answer.types {
        right.types.slice()[..lines(case)].copy_from_slice(types);
    }
    if answer.number > 11 && answer.message.len() <= case.message_len {
        right.message.slice()[..answer.message.len()].copy_from_slice(answer.message.as_bytes());
    }
    right
}

/// How often the fault could be made; each time it must be told.
fn told(name: &str, word: &str, fault: Fault) -> usize {
    let mut made_wrong = 0;
    for index in 0..SHEETS {
        let mut made = generated(5, index);
        let mut outcome = right(&made.case, &made.answer, &mut made.rng);
        if !fault(&made, &mut outcome) {
            continue;
        }
        let told = differences(&made.case, &made.answer, &outcome);
        assert!(told.len() == 1 && told[0].contains(word), "{name}, index {index}: {told:?}");
        made_wrong += 1;
    }
    made_wrong
}

#[test]
fn every_fault_is_told_and_nothing_else() {
    for &(name, word, fault) in FAULTS {
        let times = told(name, word, fault);
        assert!(times > SHEETS as usize / 20, "{name}: only {times} times");
    }
}

#[test]
fn outcomes_that_are_left_as_they_are_agree() {
    for index in 0..SHEETS {
        let mut made = generated(5, index);
        let outcome = right(&made.case, &made.answer, &mut made.rng);
        let told = differences(&made.case, &made.answer, &outcome);
        assert!(told.is_empty(), "index {index}: {told:?}");
    }
}

/// Two bad guardian sets: either place is right, and no other.
#[test]
fn refusal_20_may_name_any_of_its_places() {
    let sheet = b"contract,1\nstate,2\nfield,1,a,0\ntype,2,GuardianSet,0\nfield,3,b,0\ntype,4,GuardianSet,0\n";
    let case = Case::exact(sheet.to_vec());
    let wanted = case.answer();
    assert_eq!((wanted.number, wanted.places.as_slice()), (20, &[2, 4][..]));
    let mut outcome = right(&case, &wanted, &mut Rng::new(1));
    for (place, right) in [(1, false), (2, true), (3, false), (4, true)] {
        outcome.answer.place = place;
        assert_eq!(differences(&case, &wanted, &outcome).is_empty(), right, "{place}");
    }
}
