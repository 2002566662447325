//! The stored answers are what the program writes now, and hold enough of everything.

use reference::answer::Answer;
use reference::case::Case;
use reference::deep;
use reference::fields::SHAPES;
use reference::stored::{answer_lines, files};

const COMMITTED: &[(&str, &[u8])] = &[
    ("crates/replay_reader/stdin", include_bytes!("../../crates/replay_reader/stdin")),
    ("crates/replay_reader/stdout", include_bytes!("../../crates/replay_reader/stdout")),
    ("crates/replay/stdin", include_bytes!("../../crates/replay/stdin")),
    ("crates/replay/stdout", include_bytes!("../../crates/replay/stdout")),
];

fn committed(name: &str) -> &'static [u8] {
    let file = COMMITTED.iter().find(|(file, _)| *file == name);
    file.expect("a stored file").1
}

/// The lines of a file of expected answers.
fn expected(name: &str) -> Vec<&'static str> {
    std::str::from_utf8(committed(name)).expect("ASCII").lines().collect()
}

/// The cases of a file of frames.
fn cases(name: &str) -> Vec<Case> {
    let mut rest = committed(name);
    let mut cases = Vec::new();
    while let Some((header, after)) = rest.split_at_checked(24) {
        let header = std::str::from_utf8(header).expect("digits");
        let numbers = header.split_whitespace().map(|text| text.parse().expect("a length"));
        let [length, scratch_len, types_len, message_len] =
            numbers.collect::<Vec<usize>>().try_into().expect("four lengths");
        let (sheet, after) = after.split_at(length);
        cases.push(Case { sheet: sheet.to_vec(), scratch_len, types_len, message_len });
        rest = after;
    }
    assert!(rest.is_empty(), "{name}");
    cases
}

/// How often each number stands first in a line.
fn times(lines: &[&str]) -> [usize; 47] {
    let mut times = [0; 47];
    for line in lines {
        let number = line.split([',', ';']).next().and_then(|text| text.parse::<usize>().ok());
        times[number.expect("a number")] += 1;
    }
    times
}

#[test]
fn stored_files_are_current() {
    for (name, bytes) in files() {
        assert!(committed(name) == bytes, "{name}: run `cargo run --release -- stored ..`");
    }
}

#[test]
fn answers_hold_every_number() {
    let lines = expected("crates/replay/stdout");
    assert!(lines.len() >= 500);
    for (number, times) in times(&lines).into_iter().enumerate() {
        assert!(times >= if number == 1 { 3 } else { 5 }, "{number}: {times}");
    }
}

#[test]
fn readings_hold_every_refusal_and_word() {
    let lines = expected("crates/replay_reader/stdout");
    assert!(lines.len() >= 300);
    for (number, times) in times(&lines).into_iter().enumerate().take(12) {
        assert!(times >= if matches!(number, 1 | 3) { 3 } else { 8 }, "{number}: {times}");
    }
    for shape in SHAPES {
        let record = format!("{}:", shape.word);
        let listed = |line: &&&str| line.split([' ', ';']).any(|part| part.starts_with(&record));
        assert!(lines.iter().any(|line| listed(&line)), "{}", shape.word);
    }
}

/// Where the verdict may name several places, the first line is the one that is stored.
#[test]
fn answers_hold_some_with_several_places() {
    let mut stored: Vec<_> = cases("crates/replay/stdin");
    assert_eq!(stored.pop(), Some(deep::case(deep::STORED)));
    let several = stored.into_iter().zip(expected("crates/replay/stdout"));
    let several = several.filter(|(case, line)| {
        let lines = answer_lines(case, &case.answer());
        assert_eq!(&lines[0], line);
        lines.len() > 1
    });
    assert!(several.count() >= 8);
}

/// The last line is by hand.
#[test]
fn the_deep_sheet_is_accepted_with_its_types() {
    let codes = format!("0 0 0 0 0 0 0 0 {}1", "1 0 0 ".repeat(40));
    let line = format!("0,0,41,0;1032,0,0,16384;{codes};");
    assert_eq!(expected("crates/replay/stdout").last(), Some(&line.as_str()));
}

/// A number that is told before a `,` or `;`, and the rest.
fn number(text: &str) -> (usize, &str) {
    let (number, rest) = text.split_once([',', ';']).expect("a number");
    (number.parse().expect("digits"), rest)
}

/// Takes a line apart again: the answer and the zeros in the scratch. The rests are those of the lent lengths.
fn parsed(line: &str, case: &Case) -> (Answer, usize) {
    let mut rest = line;
    let [code, place, count, length, zeros, scratch, types, message] = [(); 8].map(|()| {
        let (told, after) = number(rest);
        rest = after;
        told
    });
    let (codes, written) = rest.split_once(';').expect("types and message");
    let codes: Vec<u8> = codes.split_whitespace().map(|code| code.parse().unwrap()).collect();
    assert_eq!(zeros + scratch, case.scratch_len, "{line}");
    assert_eq!(codes.len() + types, case.types_len, "{line}");
    assert_eq!(written.len() + message, case.message_len, "{line}");
    assert!(written.is_empty() || written.len() == length, "{line}");
    let answer = Answer {
        number: code as u32,
        places: vec![place as u32],
        count: count as u32,
        message: written.to_string(),
        fits: written.len() == length,
        types: (code == 0 || code > 11).then_some(codes),
    };
    (answer, zeros)
}

/// Every stored line says the four numbers, all of each lent buffer, the count of its marks, and the zeros of the scratch.
#[test]
fn answers_parse() {
    for (case, line) in cases("crates/replay/stdin").iter().zip(expected("crates/replay/stdout")) {
        let (answer, zeros) = parsed(line, case);
        let marked = answer.types.iter().flatten().filter(|&&code| code != 0).count();
        assert_eq!(answer.count as usize, marked, "{line}");
        let untouched = (1..=5).contains(&answer.number);
        assert_eq!(zeros, if untouched { 0 } else { 8 * case.lines() }, "{line}");
    }
}

/// What the program `replay` lends is as long as this.
#[test]
fn replayed_sheets_fit_the_program() {
    for case in cases("crates/replay/stdin") {
        let lent = [case.sheet.len(), case.scratch_len, case.types_len, case.message_len];
        assert!(lent.into_iter().all(|length| length <= 32_768), "{lent:?}");
    }
}

#[test]
fn frames_are_whole() {
    for (sheets, lines) in [
        ("crates/replay_reader/stdin", expected("crates/replay_reader/stdout")),
        ("crates/replay/stdin", expected("crates/replay/stdout")),
    ] {
        assert_eq!(cases(sheets).len(), lines.len(), "{sheets}");
    }
}
