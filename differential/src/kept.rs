//! A case as text that reference/cases can keep. Its README.md has the format.

use reference::answer::Answer;
use reference::case::Case;

/// The paragraph of a case, with what the reference answers.
pub fn paragraph(title: &str, case: &Case, answer: &Answer) -> String {
    let Case { scratch_len, types_len, message_len, .. } = case;
    let lent = format!("# lent: scratch {scratch_len}, types {types_len}, message {message_len}");
    let verdict = format!("{},{}", answer.number, answer.places[0]);
    let expected = match &answer.types {
        None => verdict,
        Some(types) => {
            let codes: Vec<String> = types.iter().map(u8::to_string).collect();
            format!("{verdict};{};{}", codes.join(" "), answer.message)
        }
    };
    format!("{title}\n{lent}\n{expected}\n{}", sheet_text(&case.sheet))
}

fn sheet_text(sheet: &[u8]) -> String {
    let lines = sheet.split_inclusive(|&byte| byte == b'\n');
    lines.map(|line| line_text(line) + "\n").collect()
}

/// An empty line would end the paragraph, so its LF is told as a byte.
fn line_text(line: &[u8]) -> String {
    match line.strip_suffix(b"\n") {
        Some(b"") => "\\x0a\\".to_string(),
        Some(text) => text.iter().map(byte_text).collect(),
        None => line.iter().map(byte_text).collect::<String>() + "\\",
    }
}

/// What has a meaning in the format is told by number, as is all that isn't plain.
fn byte_text(&byte: &u8) -> String {
    match byte {
        b'\\' | b'#' | b' ' => format!("\\x{byte:02x}"),
        b'!'..=b'~' => (byte as char).to_string(),
        _ => format!("\\x{byte:02x}"),
    }
}

#[cfg(test)]
mod tests {
    use super::*;
    use crate::lengths::generated;
    use reference::cases::{paragraphs, parse};

    #[test]
    fn a_paragraph_is_read_as_the_case_it_was_made_of() {
        for index in 0..5_000 {
            let made = generated(3, index);
            let text = paragraph("made", &made.case, &made.answer);
            let case = parse(&paragraphs(&text)[0]);
            assert_eq!(case.sheet, made.case.sheet, "{text}");
            let verdict = (made.answer.number, made.answer.places[0]);
            assert_eq!((case.number, case.place), verdict, "{text}");
            assert_eq!(case.message.unwrap_or_default(), made.answer.message, "{text}");
        }
    }
}
