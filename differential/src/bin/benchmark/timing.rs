//! The time of a call: medians of samples, taken in turn for every row and side, so that a machine
//! that is slower for a while is so for all of them.

use crate::sheets::Row;
use crate::tree;
use differential::ffi::quanta_check;
use reference::plain::check;
use reference::reader::{ENTRIES, MOST_BYTES, MOST_LINES};
use reference::{Contract, Model};
use std::hint::black_box;
use std::time::{Duration, Instant};

const SAMPLES: usize = 101;
/// A sample takes at least as long; a short one is seldom interrupted.
const SAMPLE: Duration = Duration::from_micros(300);

/// Nanoseconds for a sheet, as the mean of a row's sheets.
pub struct Times {
    pub ours: f64,
    /// The Rust from the sheet's bytes. None where it isn't run.
    pub bytes: Option<f64>,
    /// The Rust from the tree. None where a sheet has none.
    pub tree: Option<f64>,
}

/// The buffers that are lent, for every call again and never cleared here.
struct Buffers {
    scratch: Vec<u16>,
    types: Vec<u8>,
    message: Vec<u8>,
}

fn ours(sheets: &[Vec<u8>], buffers: &mut Buffers) {
    for sheet in sheets {
        let Buffers { scratch, types, message } = buffers;
        black_box(quanta_check(black_box(sheet), scratch, types, message));
    }
}

fn from_bytes(sheets: &[Vec<u8>]) {
    for sheet in sheets {
        let verdict = tree::read(black_box(sheet)).map(|contract| check(&Model::build(&contract)));
        let _ = black_box(verdict);
    }
}

fn from_trees(trees: &[Contract]) {
    for tree in trees {
        let _ = black_box(check(&Model::build(black_box(tree))));
    }
}

/// One side of a row: its work, how often a sample does it, and the samples.
struct Side<'a> {
    work: Box<dyn FnMut() + 'a>,
    times: u32,
    samples: Vec<f64>,
}

impl<'a> Side<'a> {
    /// Warms up, and finds how often the work fills a sample.
    fn new(mut work: impl FnMut() + 'a) -> Side<'a> {
        let mut times = 1;
        while timed(&mut work, times) < SAMPLE {
            times *= 2;
        }
        Side { work: Box::new(work), times, samples: Vec::new() }
    }

    fn sample(&mut self) {
        let time = timed(&mut self.work, self.times);
        self.samples.push(time.as_nanos() as f64 / f64::from(self.times));
    }

    fn median(&mut self) -> f64 {
        self.samples.sort_by(f64::total_cmp);
        self.samples[self.samples.len() / 2]
    }
}

fn timed(work: &mut impl FnMut(), times: u32) -> Duration {
    let began = Instant::now();
    for _ in 0..times {
        work();
    }
    began.elapsed()
}

/// Ours, and unless the row is for it alone, the Rust from bytes and from trees.
fn sides(row: &Row) -> Vec<Side<'_>> {
    let sheets = &row.sheets;
    let mut buffers = Buffers {
        scratch: vec![0; ENTRIES * MOST_LINES],
        types: vec![0; MOST_LINES],
        message: vec![0; MOST_BYTES],
    };
    let mut sides = vec![Side::new(move || ours(sheets, &mut buffers))];
    if row.alone {
        return sides;
    }
    sides.push(Side::new(|| from_bytes(sheets)));
    let trees: Result<Vec<Contract>, _> = sheets.iter().map(|sheet| tree::read(sheet)).collect();
    sides.extend(trees.ok().map(|trees| Side::new(move || from_trees(&trees))));
    sides
}

pub fn times(rows: &[Row]) -> Vec<Times> {
    let mut all: Vec<Vec<Side>> = rows.iter().map(sides).collect();
    for _ in 0..SAMPLES {
        all.iter_mut().flatten().for_each(Side::sample);
    }
    let row_times = |(row, sides): (&Row, &mut Vec<Side>)| {
        let mut medians = sides.iter_mut().map(|side| side.median() / row.sheets.len() as f64);
        let ours = medians.next().expect("the first side is ours");
        Times { ours, bytes: medians.next(), tree: medians.next() }
    };
    rows.iter().zip(&mut all).map(row_times).collect()
}
