//! The record words of the sheet: where each may stand, its fields and their rules.

use Kind::{Assign, Binary, Count, Flag, Name, Span, Text, Unary};

/// A place of the tree that a record fills.
#[derive(Clone, Copy, Debug, PartialEq, Eq)]
pub enum Place {
    Contract,
    Item,
    Field,
    Param,
    Type,
    Argument,
    Clause,
    Statement,
    Expression,
}

/// The kinds of field. `Span` is SPAN and NSPAN; the last three are the OPs.
#[derive(Clone, Copy, Debug, PartialEq, Eq)]
pub enum Kind {
    Span,
    Count,
    Flag,
    Name,
    Text,
    Assign,
    Unary,
    Binary,
}

pub struct Shape {
    pub word: &'static str,
    pub places: &'static [Place],
    pub fields: &'static [Kind],
}

const fn shape(word: &'static str, places: &'static [Place], fields: &'static [Kind]) -> Shape {
    Shape { word, places, fields }
}

pub const SHAPES: &[Shape] = &[
    shape("contract", &[Place::Contract], &[Count]),
    shape("state", &[Place::Item], &[Count]),
    shape("event", &[Place::Item], &[Name, Count]),
    shape("invariant", &[Place::Item], &[]),
    shape("genesis", &[Place::Item], &[Count]),
    shape("entry", &[Place::Item], &[Count, Count, Count]),
    shape("field", &[Place::Field], &[Span, Name, Flag]),
    shape("param", &[Place::Param], &[Name]),
    shape("type", &[Place::Type, Place::Argument], &[Span, Name, Count]),
    shape("num", &[Place::Argument], &[Text]),
    shape("mofn", &[Place::Argument], &[]),
    shape("limits", &[Place::Clause], &[]),
    shape("denies", &[Place::Clause], &[]),
    shape("mints", &[Place::Clause], &[]),
    shape("after", &[Place::Clause], &[Flag, Flag]),
    shape("guard", &[Place::Statement], &[]),
    shape("let", &[Place::Statement], &[Name]),
    shape("emit", &[Place::Statement], &[Name, Count]),
    shape("assign", &[Place::Statement], &[Span, Assign]),
    shape("do", &[Place::Statement], &[]),
    shape("int", &[Place::Expression], &[Span, Text]),
    shape("id", &[Place::Expression], &[Span, Name]),
    shape("date", &[Place::Expression], &[Span]),
    shape("str", &[Place::Expression], &[Span]),
    shape("caller", &[Place::Expression], &[Span]),
    shape("native", &[Place::Expression], &[Span]),
    shape("inasset", &[Place::Expression], &[Span]),
    shape("now", &[Place::Expression], &[Span]),
    shape("un", &[Place::Expression], &[Span, Unary]),
    shape("bin", &[Place::Expression], &[Span, Binary]),
    shape("dot", &[Place::Expression], &[Span, Name, Span]),
    shape("call", &[Place::Expression], &[Span, Count]),
    shape("checked", &[Place::Expression], &[Span]),
    shape("wrapping", &[Place::Expression], &[Span]),
];

pub const ASSIGN_OPS: &[&str] = &["set", "add", "sub"];
pub const UNARY_OPS: &[&str] = &["not", "neg"];
pub const BINARY_OPS: &[&str] =
    &["or", "and", "eq", "ne", "lt", "gt", "le", "ge", "add", "sub", "mul", "div", "rem", "shr"];

const LONGEST: usize = 64;

impl Kind {
    /// Whether `field` keeps the rule of this kind.
    pub fn admits(self, field: &[u8]) -> bool {
        match self {
            Span => decimal(field, u64::from(u32::MAX)),
            Count => decimal(field, 1024),
            Flag => matches!(field, b"0" | b"1"),
            Name => is_name(field),
            Text => short(field) && field.iter().all(|&b| b.is_ascii_digit() || b == b'_'),
            Assign => one_of(ASSIGN_OPS, field),
            Unary => one_of(UNARY_OPS, field),
            Binary => one_of(BINARY_OPS, field),
        }
    }
}

fn short(field: &[u8]) -> bool {
    (1..=LONGEST).contains(&field.len())
}

fn is_name(field: &[u8]) -> bool {
    short(field)
        && !field[0].is_ascii_digit()
        && field.iter().all(|&b| b.is_ascii_alphanumeric() || b == b'_')
}

/// Digits without a leading zero, except `0` itself, of a value up to `most`.
fn decimal(field: &[u8], most: u64) -> bool {
    let digits = !field.is_empty() && field.iter().all(u8::is_ascii_digit);
    digits && (field == b"0" || field[0] != b'0') && value(field).is_some_and(|n| n <= most)
}

fn value(field: &[u8]) -> Option<u64> {
    std::str::from_utf8(field).ok()?.parse().ok()
}

fn one_of(words: &[&str], field: &[u8]) -> bool {
    words.iter().any(|word| word.as_bytes() == field)
}
