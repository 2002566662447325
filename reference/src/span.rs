//! The stand-in for `quanta_lexer::Span`.

/// One number: a sheet's own span, or an index into the `spans` of a loaded sheet.
#[derive(Clone, Copy, Debug, PartialEq, Eq, Hash)]
pub struct Span(pub u32);
