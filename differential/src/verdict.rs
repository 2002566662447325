//! The verdict call: every field of the answer, and every byte of every lent buffer afterwards.

use crate::ffi::{self, quanta_check};
use crate::lengths::lines;
use crate::lent::Lent;
use reference::answer::Answer;
use reference::case::Case;
use reference::reader::ENTRIES;
use reference::rng::Rng;

/// What the library answered, and what it left in the lent buffers.
pub struct Outcome {
    pub answer: ffi::Answer,
    pub sheet: Lent<u8>,
    pub scratch: Lent<u16>,
    pub types: Lent<u8>,
    pub message: Lent<u8>,
}

pub fn run(case: &Case, rng: &mut Rng) -> Outcome {
    let byte = |bits| bits as u8;
    let mut sheet = Lent::holding(&case.sheet, rng, byte);
    let mut scratch = Lent::noise(case.scratch_len, rng, |bits| bits as u16);
    let mut types = Lent::noise(case.types_len, rng, byte);
    let mut message = Lent::noise(case.message_len, rng, byte);
    let answer = quanta_check(sheet.slice(), scratch.slice(), types.slice(), message.slice());
    Outcome { answer, sheet, scratch, types, message }
}

/// Where the outcome isn't what the reference answers, or a buffer doesn't hold what docs/ARCHITECTURE.md
/// says of it in 'Loaded lines'.
pub fn differences(case: &Case, wanted: &Answer, got: &Outcome) -> Vec<String> {
    let zeros = match wanted.number {
        1..=5 => vec![],
        _ => vec![0; ENTRIES * lines(case)],
    };
    let types = wanted.types.as_deref().unwrap_or_default();
    let buffers = [
        got.sheet.difference("sheet", &case.sheet),
        got.scratch.difference("scratch", &zeros),
        got.types.difference("types", types),
        got.message.difference("message", wanted.written().as_bytes()),
    ];
    let fields = (!fields_agree(wanted, got.answer)).then(|| "the answer".to_string());
    fields.into_iter().chain(buffers.into_iter().flatten()).collect()
}

/// Refusal 20 may name any of its places; they have one message.
fn fields_agree(wanted: &Answer, got: ffi::Answer) -> bool {
    got.number == wanted.number
        && wanted.places.contains(&got.place)
        && got.count == wanted.count
        && got.length as usize == wanted.message.len()
}

/// The answer of the library: `number,place,count,length;types;message`.
pub fn answer_line(case: &Case, got: &mut Outcome) -> String {
    let ffi::Answer { number, place, count, length } = got.answer;
    let judged = !matches!(number, 1..=11);
    let types = got.types.slice().get(..lines(case)).filter(|_| judged).unwrap_or_default();
    let message = got.message.slice().get(..length as usize).unwrap_or_default();
    line([number, place, count, length], types, message)
}

/// The same of the reference.
pub fn wanted_line(answer: &Answer) -> String {
    let head = [answer.number, answer.places[0], answer.count, answer.message.len() as u32];
    line(head, answer.types.as_deref().unwrap_or_default(), answer.written().as_bytes())
}

fn line([number, place, count, length]: [u32; 4], types: &[u8], message: &[u8]) -> String {
    let types: Vec<String> = types.iter().map(u8::to_string).collect();
    format!("{number},{place},{count},{length};{};{}", types.join(" "), message.escape_ascii())
}
