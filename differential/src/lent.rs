//! A buffer as it is lent to the library: full of noise, between guards that hold noise too.

use reference::rng::Rng;
use std::fmt::Debug;

/// The fewest elements on either side of what is lent.
const GUARD: usize = 16;

pub struct Lent<T> {
    before: Vec<T>,
    /// The guards and the buffer between them, as the library left them.
    pub after: Vec<T>,
    pub start: usize,
    length: usize,
}

impl<T: Copy + Debug + PartialEq> Lent<T> {
    /// A buffer of that length; `of` makes an element of random bits.
    pub fn noise(length: usize, rng: &mut Rng, of: fn(u64) -> T) -> Lent<T> {
        // So that the buffer starts at any alignment.
        let start = GUARD + rng.below(8);
        let before: Vec<T> = (0..start + length + GUARD).map(|_| of(rng.draw())).collect();
        Lent { after: before.clone(), before, start, length }
    }

    /// A buffer that holds `content`.
    pub fn holding(content: &[T], rng: &mut Rng, of: fn(u64) -> T) -> Lent<T> {
        let mut lent = Lent::noise(content.len(), rng, of);
        lent.slice().copy_from_slice(content);
        lent.before.clone_from(&lent.after);
        lent
    }

    pub fn slice(&mut self) -> &mut [T] {
        &mut self.after[self.start..self.start + self.length]
    }

    /// How the buffer differs from one that starts with `written` and is otherwise as it was lent.
    pub fn difference(&self, name: &str, written: &[T]) -> Option<String> {
        let mut wanted = self.before.clone();
        wanted[self.start..self.start + written.len()].copy_from_slice(written);
        let at = wanted.iter().zip(&self.after).position(|(wanted, got)| wanted != got)?;
        let (place, wanted, got) = (at as i64 - self.start as i64, wanted[at], self.after[at]);
        let length = self.length;
        Some(format!("{name}[{place}] of {length} is {got:?}, wanted {wanted:?}"))
    }
}
