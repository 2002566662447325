//! Generated sheets through the compiled library and through the reference.

pub mod kept;
pub mod lengths;
pub mod lent;
pub mod reader;
pub mod tally;
pub mod verdict;

/// The verdict call, as the Rust binding makes it.
#[path = "../../bindings/rust/src/ffi.rs"]
pub mod ffi;
