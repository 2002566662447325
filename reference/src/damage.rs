//! Sheets at and past the limits, and sheets that break a rule of the sheet.

use crate::case::Case;
use crate::fields::SHAPES;
use crate::generate::plain;
use crate::rng::Rng;

/// A sheet of so many bytes, from 60 on; accepted up to 16,384.
pub fn of_size(bytes: usize) -> Vec<u8> {
    const LONGEST_LINE: usize = 73;
    let mut events = bytes / LONGEST_LINE;
    // The number of events takes part in the size of the first line.
    while bytes - format!("contract,{events}\n").len() > events * LONGEST_LINE {
        events += 1;
    }
    let mut sheet = format!("contract,{events}\n");
    let rest = bytes - sheet.len();
    for at in 0..events {
        let line = rest / events + usize::from(at < rest % events);
        sheet += &format!("event,{},0\n", "e".repeat(line - "event,,0\n".len()));
    }
    sheet.into_bytes()
}

/// A sheet of so many lines; accepted up to 1,024.
pub fn of_lines(lines: usize) -> Vec<u8> {
    format!("contract,{}\n{}", lines - 1, "state,0\n".repeat(lines - 1)).into_bytes()
}

/// A sheet whose deepest record has that depth, from 2 on; accepted up to 64.
pub fn of_depth(depth: usize) -> Vec<u8> {
    let inner = "checked,1\n".repeat(depth - 2);
    format!("contract,1\ninvariant\n{inner}id,2,a\n").into_bytes()
}

/// A sheet refused with a message of so many numbers of 64 digits.
fn of_message(numbers: usize) -> Vec<u8> {
    let digits = format!("num,{}\n", "9".repeat(64)).repeat(numbers);
    format!("contract,1\nstate,1\nfield,1,x,0\ntype,2,Odd,{numbers}\n{digits}").into_bytes()
}

/// Sheets on both sides of every limit that a sheet has, and one with a long message.
pub fn edges() -> Vec<Case> {
    let mut sheets = vec![
        of_size(16_384),
        of_size(16_385),
        of_lines(1_024),
        of_lines(1_025),
        of_depth(64),
        of_depth(65),
        of_message(40),
    ];
    for text in ["4294967295", "4294967296", "0", "00", "01", "18446744073709551616"] {
        sheets.push(format!("contract,1\ninvariant\nnow,{text}\n").into_bytes());
    }
    for text in ["0", "1024", "1025", "00", "0001", "99999999999999999999999"] {
        sheets.push(format!("contract,{text}\n").into_bytes());
    }
    for length in [0, 1, 64, 65] {
        let (name, text) = ("n".repeat(length), "1".repeat(length));
        sheets.push(format!("contract,1\nevent,{name},0\n").into_bytes());
        sheets.push(format!("contract,1\ninvariant\nint,1,{text}\n").into_bytes());
    }
    sheets.into_iter().map(Case::exact).collect()
}

pub fn damaged(rng: &mut Rng) -> Case {
    if rng.once_in(16) {
        let edges = edges();
        return edges[rng.below(edges.len())].clone();
    }
    match rng.below(12) {
        0 => Case::exact(of_size(16_385 + rng.below(40))),
        1 if rng.once_in(2) => Case::exact(of_lines(1_025)),
        1 => Case::exact(vec![b'\n'; 1_024 + rng.below(3)]),
        2 => short_table(rng, |case| case.types_len -= 1),
        3 => short_table(rng, |case| case.scratch_len -= 1),
        4 => Case::exact(deepened(rng)),
        5 => Case::exact(edit_bytes(rng)),
        6 | 7 => Case::exact(edit_lines(rng)),
        8 => Case::exact(edit_word(rng)),
        _ => Case::exact(edit_fields(rng)),
    }
}

fn short_table(rng: &mut Rng, shorten: fn(&mut Case)) -> Case {
    let mut case = Case::exact(plain(rng));
    shorten(&mut case);
    // Both tables short, or a fault in the sheet besides: the lowest number counts.
    match rng.below(4) {
        0 => case.scratch_len = rng.below(case.scratch_len + 1),
        1 => {
            let at = rng.below(case.sheet.len() - 1);
            case.sheet[at] = b'?';
        }
        _ => {}
    }
    case
}

/// Types or expressions nested about as deep as they may be, at times with a byte changed.
fn deepened(rng: &mut Rng) -> Vec<u8> {
    let depth = 60 + rng.below(10);
    let mut sheet = match rng.below(3) {
        0 => deep_type(rng.pick(&["Q_Asset", "Odd", "u8"]), depth),
        _ => deep_expression(rng, depth),
    };
    if rng.once_in(3) {
        let at = rng.below(sheet.len() - 1);
        sheet[at] = b'x';
    }
    sheet
}

fn deep_type(name: &str, depth: usize) -> Vec<u8> {
    let outer = format!("type,2,{name},1\n").repeat(depth - 3);
    format!("contract,1\nstate,1\nfield,1,x,0\n{outer}num,4\n").into_bytes()
}

fn deep_expression(rng: &mut Rng, depth: usize) -> Vec<u8> {
    let mut sheet = "contract,1\ninvariant\n".to_string();
    let mut rights = 0;
    for _ in 2..depth {
        let outer = ["checked,1", "wrapping,2", "un,3,neg", "dot,4,amount,5", "call,6,0"];
        match rng.below(6) {
            0 => {
                sheet += "bin,7,add\n";
                rights += 1;
            }
            _ => sheet += &format!("{}\n", rng.pick(&outer)),
        }
    }
    (sheet + "id,8,a\n" + &"now,9\n".repeat(rights)).into_bytes()
}

fn edit_bytes(rng: &mut Rng) -> Vec<u8> {
    let mut sheet = plain(rng);
    let at = rng.below(sheet.len());
    match rng.below(8) {
        0 => sheet[at] = rng.pick(b"\0\r\x80\xff ,0aA_\n"),
        1 => sheet.insert(at, rng.pick(b"\0\r\xc3 ,01zZ_\n")),
        2 => drop(sheet.remove(at)),
        3 => sheet.truncate(at),
        4 => sheet.truncate(sheet.len() - 1),
        5 => sheet.clear(),
        6 => *sheet.last_mut().expect("a sheet") = b'\r',
        _ => sheet.push(b'x'),
    }
    sheet
}

fn lines_of(sheet: &[u8]) -> Vec<String> {
    String::from_utf8_lossy(sheet).lines().map(str::to_string).collect()
}

fn joined(lines: &[String]) -> Vec<u8> {
    lines.iter().flat_map(|line| [line, "\n"].concat().into_bytes()).collect()
}

fn edit_lines(rng: &mut Rng) -> Vec<u8> {
    let mut lines = lines_of(&plain(rng));
    let (at, to) = (rng.below(lines.len()), rng.below(lines.len()));
    match rng.below(7) {
        0 => drop(lines.remove(at)),
        1 => lines.insert(at, lines[to].clone()),
        2 => lines.swap(at, to),
        3 => lines.truncate(at.max(1)),
        4 => lines.push(lines[to].clone()),
        5 => lines.insert(at, String::new()),
        _ => lines[at].push('\r'),
    }
    joined(&lines)
}

fn edit_word(rng: &mut Rng) -> Vec<u8> {
    let mut lines = lines_of(&plain(rng));
    let at = rng.below(lines.len());
    let (word, rest) = match lines[at].split_once(',') {
        Some((word, rest)) => (word.to_string(), format!(",{rest}")),
        None => (lines[at].clone(), String::new()),
    };
    let word = match rng.below(5) {
        0 => word.to_uppercase(),
        1 => word + " ",
        2 => word[1..].to_string(),
        3 => "asset".to_string(),
        _ => SHAPES[rng.below(SHAPES.len())].word.to_string(),
    };
    lines[at] = word + &rest;
    joined(&lines)
}

fn edit_fields(rng: &mut Rng) -> Vec<u8> {
    let mut lines = lines_of(&plain(rng));
    let at = rng.below(lines.len());
    let mut fields: Vec<String> = lines[at].split(',').map(str::to_string).collect();
    let field = rng.below(fields.len());
    match rng.below(6) {
        0 => fields.insert(field + 1, "0".to_string()),
        1 => drop(fields.pop()),
        2 => fields[field].insert(0, '0'),
        3 => fields[field] = "4294967296".to_string(),
        4 => fields[field] = bad_field(rng),
        _ => fields[field].push('-'),
    }
    lines[at] = fields.join(",");
    joined(&lines)
}

fn bad_field(rng: &mut Rng) -> String {
    let long = "n".repeat(65);
    let digits = "0".repeat(65);
    let fields =
        [&long, &digits, "", "1025", "2", "9lives", "two words", "+1", "-1", "1a", "\u{e9}"];
    rng.pick(&fields).to_string()
}
