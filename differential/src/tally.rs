//! What a run came to: how often each number came, which lengths were lent, and what differs.

use crate::lengths::{generated, lines, relation, Generated, RELATIONS};
use crate::{kept, reader, verdict};
use reference::reader::ENTRIES;
use std::fmt::{self, Display};

const NUMBERS: usize = 47;

/// A sheet on which the library and the reference differ.
pub struct Difference {
    bytes: usize,
    text: String,
}

pub struct Tally {
    pub times: [u64; NUMBERS],
    /// How often a length of each relation was lent, for scratch, types and message, where any is
    /// needed.
    pub lent: [[u64; RELATIONS.len()]; 3],
    pub differing: u64,
    /// The shortest sheet of those that differ.
    pub smallest: Option<Difference>,
}

impl Tally {
    pub fn new() -> Tally {
        Tally { times: [0; NUMBERS], lent: Default::default(), differing: 0, smallest: None }
    }

    /// The sheet of that index through the library and the reference.
    pub fn add(&mut self, seed: u64, index: u64) {
        let mut made = generated(seed, index);
        self.times[made.answer.number as usize] += 1;
        self.count_lengths(&made);
        let mut outcome = verdict::run(&made.case, &mut made.rng);
        let mut differences = verdict::differences(&made.case, &made.answer, &outcome);
        differences.extend(reader::compare(&made.case).err());
        if differences.is_empty() {
            return;
        }
        let answered = verdict::answer_line(&made.case, &mut outcome);
        let text = told(seed, index, &made, &answered, &differences);
        self.differ(Difference { bytes: made.case.sheet.len(), text });
    }

    fn count_lengths(&mut self, made: &Generated) {
        let lines = lines(&made.case);
        let lengths = [
            (made.case.scratch_len, ENTRIES * lines),
            (made.case.types_len, lines),
            (made.case.message_len, made.answer.message.len()),
        ];
        for (times, (lent, exact)) in self.lent.iter_mut().zip(lengths) {
            times[relation(lent, exact)] += u64::from(exact > 0);
        }
    }

    fn differ(&mut self, difference: Difference) {
        self.differing += 1;
        self.keep(difference);
    }

    fn keep(&mut self, difference: Difference) {
        if self.smallest.as_ref().map_or(true, |kept| difference.bytes < kept.bytes) {
            self.smallest = Some(difference);
        }
    }

    pub fn join(mut self, other: Tally) -> Tally {
        let add = |sums: &mut [u64], more: &[u64]| {
            sums.iter_mut().zip(more).for_each(|(sum, more)| *sum += more);
        };
        add(&mut self.times, &other.times);
        add(self.lent.as_flattened_mut(), other.lent.as_flattened());
        self.differing += other.differing;
        other.smallest.into_iter().for_each(|difference| self.keep(difference));
        self
    }
}

impl Default for Tally {
    fn default() -> Tally {
        Tally::new()
    }
}

/// The case, both answers, and what is different.
fn told(seed: u64, index: u64, made: &Generated, answered: &str, differences: &[String]) -> String {
    let title = format!("seed {seed} index {index}");
    let mut places = made.answer.places.clone();
    places.dedup();
    format!(
        "{}\nwanted   {}\nplaces   {places:?}\nanswered {answered}\ndifferent: {}\n",
        kept::paragraph(&title, &made.case, &made.answer),
        verdict::wanted_line(&made.answer),
        differences.join("; "),
    )
}

impl Display for Tally {
    fn fmt(&self, f: &mut fmt::Formatter<'_>) -> fmt::Result {
        writeln!(f, "how often each number came:")?;
        for (row, times) in self.times.chunks(8).enumerate() {
            let cells = times.iter().enumerate();
            let cells = cells.map(|(at, times)| format!("{:>4}: {times:<8}", 8 * row + at));
            writeln!(f, "{}", cells.collect::<String>().trim_end())?;
        }
        writeln!(
            f,
            "how often each length was lent where one is needed ({}):",
            RELATIONS.join(", ")
        )?;
        for (name, times) in ["scratch", "types", "message"].iter().zip(&self.lent) {
            let cells: Vec<String> = times.iter().map(u64::to_string).collect();
            writeln!(f, "{name:>8} {}", cells.join(" "))?;
        }
        match &self.smallest {
            None => Ok(()),
            Some(Difference { text, .. }) => {
                write!(f, "the shortest sheet that differs:\n\n{text}")
            }
        }
    }
}
