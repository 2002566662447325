//! The askings of one run of the pass, in the order these end.

use crate::Span;
use std::cell::RefCell;

/// The code of an asking that ended in the refusal.
pub const REFUSED: u8 = 11;

/// The Rust doubles its askings per level of keyed calls; a run beyond this is given up.
const MOST: usize = 1 << 22;

#[derive(Clone, Copy, Debug, PartialEq, Eq)]
pub struct Asking {
    pub span: Span,
    pub code: u8,
}

thread_local! {
    static LIST: RefCell<Vec<Asking>> = const { RefCell::new(Vec::new()) };
}

/// Called by the patched `ty_of`.
pub(crate) fn ended(span: Span, code: u8) {
    LIST.with_borrow_mut(|list| {
        assert!(list.len() < MOST, "over {MOST} askings: too many nested keyed calls");
        list.push(Asking { span, code });
    });
}

/// Runs `pass` and gives its answer and its askings.
pub fn listed<T>(pass: impl FnOnce() -> T) -> (T, Vec<Asking>) {
    LIST.with_borrow_mut(Vec::clear);
    let answer = pass();
    (answer, LIST.with_borrow_mut(std::mem::take))
}
