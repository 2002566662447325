//! The cases written by hand, in the text files of `cases/`. cases/README.md has their format.

const FILES: &[&str] = &[
    include_str!("../cases/document.txt"),
    include_str!("../cases/reader.txt"),
    include_str!("../cases/refusals.txt"),
    include_str!("../cases/traps.txt"),
];

#[derive(Clone, Debug, PartialEq, Eq)]
pub struct HandCase {
    pub title: String,
    pub number: u32,
    pub place: u32,
    pub types: Option<String>,
    pub message: Option<String>,
    pub sheet: Vec<u8>,
}

pub fn all() -> Vec<HandCase> {
    FILES.iter().flat_map(|text| paragraphs(text)).map(|lines| parse(&lines)).collect()
}

/// The lines of each paragraph, without remarks.
pub fn paragraphs(text: &str) -> Vec<Vec<&str>> {
    let kept = |line: &&str| !line.starts_with('#') && !line.is_empty();
    let lines = text.split("\n\n").map(|part| part.lines().filter(kept).collect::<Vec<_>>());
    lines.filter(|lines| !lines.is_empty()).collect()
}

/// One paragraph.
pub fn parse(lines: &[&str]) -> HandCase {
    let [title, expected, sheet_lines @ ..] = lines else {
        panic!("{lines:?}: nothing expected");
    };
    let mut parts = expected.splitn(3, ';');
    let verdict = parts.next().unwrap_or_default();
    let (number, place) = verdict.split_once(',').unwrap_or_else(|| panic!("{title}: {verdict}"));
    let given = |part: &str| (part != "*").then(|| part.to_string());
    HandCase {
        number: number.parse().unwrap_or_else(|_| panic!("{title}: {number}")),
        place: place.parse().unwrap_or_else(|_| panic!("{title}: {place}")),
        types: parts.next().and_then(given),
        message: parts.next().and_then(given),
        sheet: sheet(sheet_lines),
        title: title.to_string(),
    }
}

pub fn sheet(lines: &[&str]) -> Vec<u8> {
    lines.iter().flat_map(|line| sheet_line(line)).collect()
}

/// A line of the sheet: `N x LINE` stands for N such lines, `\xNN` for a byte, and a `\` at the
/// end for the lack of an LF.
fn sheet_line(line: &str) -> Vec<u8> {
    if let Some((times, line)) = line.split_once(" x ") {
        let times = times.parse().unwrap_or_else(|_| panic!("{times} lines"));
        return sheet_line(line).repeat(times);
    }
    let (text, end) = match line.strip_suffix('\\') {
        Some(text) => (text, ""),
        None => (line, "\n"),
    };
    let mut pieces = text.split("\\x");
    let mut out = pieces.next().unwrap_or_default().as_bytes().to_vec();
    for piece in pieces {
        let (byte, rest) = piece.split_at(2);
        out.push(u8::from_str_radix(byte, 16).unwrap_or_else(|_| panic!("byte {byte}")));
        out.extend(rest.bytes());
    }
    out.extend(end.bytes());
    out
}
