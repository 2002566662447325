//! The lengths that are lent with a generated sheet: none, one short, exact, one more, much longer.

use reference::answer::Answer;
use reference::case::Case;
use reference::generate::case;
use reference::reader::ENTRIES;
use reference::rng::Rng;

/// More than any sheet needs.
const MUCH_LONGER: usize = 20_000;

/// A generated sheet with its lent lengths, the reference's answer, and a source of noise.
pub struct Generated {
    pub case: Case,
    pub answer: Answer,
    pub rng: Rng,
}

/// The sheet of that index: the same on every machine.
pub fn generated(seed: u64, index: u64) -> Generated {
    let mut rng = Rng::new(seed.rotate_left(32) ^ index.wrapping_mul(0x9fb2_1c65_1e98_df25));
    let mut case = case(seed, index);
    // Half of the tables stay as they were generated: exact, longer by some or short by one.
    if rng.once_in(2) {
        let lines = lines(&case);
        case.scratch_len = table(ENTRIES * lines, &mut rng);
        case.types_len = table(lines, &mut rng);
    }
    let mut answer = case.answer();
    let length = answer.message.len();
    case.message_len = message(length, &mut rng);
    answer.fits = length <= case.message_len;
    Generated { case, answer, rng }
}

pub fn lines(case: &Case) -> usize {
    case.sheet.iter().filter(|&&byte| byte == b'\n').count()
}

/// Mostly long enough: a table that is short hides every rule from 6 on.
fn table(exact: usize, rng: &mut Rng) -> usize {
    match rng.below(32) {
        0 => 0,
        1 => exact.saturating_sub(1),
        2 => rng.below(exact + 1),
        3..=6 => exact + 1,
        7 => MUCH_LONGER,
        _ => exact,
    }
}

fn message(exact: usize, rng: &mut Rng) -> usize {
    match rng.below(16) {
        0 | 1 => 0,
        2..=4 => exact.saturating_sub(1),
        5..=7 => exact + 1,
        8 => rng.below(exact + 1),
        9 => MUCH_LONGER,
        10 | 11 => exact + rng.below(50),
        _ => exact,
    }
}

/// What a lent length is to the one that is needed: a place of `RELATIONS`.
pub fn relation(lent: usize, exact: usize) -> usize {
    match lent {
        _ if lent == exact => 3,
        0 => 0,
        _ if lent + 1 == exact => 2,
        _ if lent < exact => 1,
        _ if lent == exact + 1 => 4,
        _ => 5,
    }
}

pub const RELATIONS: [&str; 6] = ["none", "short", "one short", "exact", "one more", "longer"];
