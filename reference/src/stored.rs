//! The stored answers, which proved programs replay. README.md has the format.

use crate::answer::Answer;
use crate::case::Case;
use crate::cases;
use crate::damage::edges;
use crate::deep;
use crate::generate::case;
use crate::reader::{Loaded, Refusal, Spans, ENTRIES};

const SEED: u64 = 200_069_746;

/// The largest generated sheet that is stored for a number.
fn most_bytes(number: u32) -> usize {
    match number {
        1 => usize::MAX,
        3 | 7 => 1_100,
        _ => 500,
    }
}

/// A file of the repository and its bytes.
pub type File = (&'static str, Vec<u8>);

pub fn files() -> Vec<File> {
    let mut answered = answer_cases();
    let mut answers = expected(&answered, |case| answer_lines(case, &case.answer()).remove(0));
    // Not the Rust's answer: see deep.rs.
    let deep = deep::case(deep::STORED);
    answers.extend((answer_lines(&deep, &deep::answer(deep::STORED)).remove(0) + "\n").bytes());
    answered.push(deep);
    let readings = reader_cases();
    vec![
        ("crates/replay_reader/stdin", frames(&readings)),
        ("crates/replay_reader/stdout", expected(&readings, reading_line)),
        ("crates/replay/stdin", frames(&answered)),
        ("crates/replay/stdout", answers),
    ]
}

pub fn frames(cases: &[Case]) -> Vec<u8> {
    let mut out = Vec::new();
    for case in cases {
        let Case { sheet, scratch_len, types_len, message_len } = case;
        let length = sheet.len();
        let header = format!("{length:05} {scratch_len:05} {types_len:05} {message_len:05}\n");
        out.extend(header.bytes());
        out.extend(sheet);
    }
    out
}

fn expected(cases: &[Case], line: impl Fn(&Case) -> String) -> Vec<u8> {
    cases.iter().flat_map(|case| (line(case) + "\n").into_bytes()).collect()
}

/// `number,place,count,length;zeros,scratch,types,message;TYPES;MESSAGE`, once for each place that the verdict may name. The first
/// of these lines has the place of the first bad field in the sheet, which is the one that crates/checking names.
pub fn answer_lines(case: &Case, answer: &Answer) -> Vec<String> {
    let Answer { number, places, count, message, .. } = answer;
    let length = message.len();
    let held = held(case, answer);
    places.iter().map(|place| format!("{number},{place},{count},{length};{held}")).collect()
}

/// What the lent buffers hold afterwards (docs/ARCHITECTURE.md, 'Loaded lines'): the zeros in the scratch, how much of each
/// buffer is untouched up to its end, and what stands before that in type table and message.
fn held(case: &Case, answer: &Answer) -> String {
    let zeros = match answer.number {
        1..=5 => 0,
        _ => ENTRIES * case.lines(),
    };
    let types = answer.types.as_deref().unwrap_or_default();
    let message = answer.written();
    format!(
        "{zeros},{},{},{};{};{message}",
        case.scratch_len - zeros,
        case.types_len - types.len(),
        case.message_len - message.len(),
        codes(types),
    )
}

fn codes(types: &[u8]) -> String {
    types.iter().map(u8::to_string).collect::<Vec<_>>().join(" ")
}

/// `number,place`, or `0,LINES;` and `word:depth:end` for each line.
fn reading_line(case: &Case) -> String {
    match case.read(Spans::Numbered) {
        Err(Refusal { number, place }) => format!("{number},{place}"),
        Ok(Loaded { lines, .. }) => {
            let listed =
                lines.iter().map(|line| format!("{}:{}:{}", line.word, line.depth, line.end));
            format!("0,{};{}", lines.len(), listed.collect::<Vec<_>>().join(" "))
        }
    }
}

/// The hand cases, the edges, message buffers about as long as the message, guardian sets, and generated sheets up to a share for
/// each number.
fn answer_cases() -> Vec<Case> {
    let mut cases = hand_cases();
    cases.extend(edges());
    cases.extend(message_lengths());
    cases.extend((0..64).map(guardian_sets));
    cases.extend(generated(answer_share, |case| case.answer().number));
    cases
}

/// Three fields in two items, each of one of two names and a guardian set with a bad size or a good one, as the bits of
/// `which` say. Later fields have lower spans.
fn guardian_sets(which: u32) -> Case {
    let bit = |at| which >> at & 1 == 1;
    let mut sheet = "contract,2\n".to_string();
    for at in 0..3 {
        let item = ["state,1\n", "state,2\n", ""][at];
        let name = if bit(2 * at) { "a" } else { "b" };
        let ty = if bit(2 * at + 1) { "0" } else { "1\nnum,5" };
        let (span, type_span) = (9 - 2 * at, 8 - 2 * at);
        sheet += &format!("{item}field,{span},{name},0\ntype,{type_span},GuardianSet,{ty}\n");
    }
    Case::exact(sheet.into_bytes())
}

fn answer_share(number: u32) -> usize {
    match number {
        0 => 50,
        1 => 1,
        2..=11 => 6,
        _ => 8,
    }
}

fn reader_cases() -> Vec<Case> {
    let mut cases = hand_cases();
    cases.extend(edges());
    let share = |number| match number {
        0 => 30,
        1 => 1,
        3 => 4,
        _ => 12,
    };
    cases.extend(generated(share, |case| {
        let reading = case.read(Spans::Numbered);
        reading.map_or_else(|refusal| refusal.number, |_| 0)
    }));
    cases
}

fn hand_cases() -> Vec<Case> {
    cases::all().into_iter().map(|case| Case::exact(case.sheet)).collect()
}

/// Each hand case that has a message, with a buffer that just holds it and one that just doesn't.
fn message_lengths() -> Vec<Case> {
    let mut out = Vec::new();
    for case in hand_cases() {
        let length = case.answer().message.len();
        if length > 0 && case.sheet.len() < 180 {
            out.push(Case { message_len: length, ..case.clone() });
            out.push(Case { message_len: length - 1, ..case });
        }
    }
    out
}

/// Generated cases up to `share` for each number that `number` gives them.
fn generated(share: impl Fn(u32) -> usize, number: impl Fn(&Case) -> u32) -> Vec<Case> {
    const TRIED: u64 = 20_000;
    let mut kept = [0; 47];
    let mut out = Vec::new();
    for index in 0..TRIED {
        let case = case(SEED, index);
        let number = number(&case);
        let seen = &mut kept[number as usize];
        let small = case.sheet.len() <= most_bytes(number);
        if small && *seen < share(number) {
            *seen += 1;
            out.push(case);
        }
    }
    out
}
