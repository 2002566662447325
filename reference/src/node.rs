//! A sheet under construction: records with their parts, whose counts are filled in at last.

use crate::fields::{Place, SHAPES};

#[derive(Clone, Debug)]
pub enum Field {
    /// A SPAN or NSPAN, chosen when the sheet is written.
    Span,
    Fixed(String),
    /// The number of parts, less those that always stand there.
    Parts {
        less: usize,
    },
    /// The number of parts of one place, in an entry.
    PartsAt(Place),
}

#[derive(Clone, Debug)]
pub struct Node {
    pub word: &'static str,
    pub fields: Vec<Field>,
    pub parts: Vec<Node>,
}

impl Node {
    /// The first place the word may stand at. A `type` is that of `Place::Type`.
    pub fn place(&self) -> Place {
        let shape = SHAPES.iter().find(|shape| shape.word == self.word);
        shape.expect("every word has a shape").places[0]
    }

    pub fn write(&self, span: &mut dyn FnMut() -> u32, out: &mut String) {
        out.push_str(self.word);
        for field in &self.fields {
            out.push(',');
            match field {
                Field::Span => out.push_str(&span().to_string()),
                Field::Fixed(text) => out.push_str(text),
                Field::Parts { less } => out.push_str(&(self.parts.len() - less).to_string()),
                Field::PartsAt(place) => {
                    let there = self.parts.iter().filter(|part| part.place() == *place);
                    out.push_str(&there.count().to_string());
                }
            }
        }
        out.push('\n');
        for part in &self.parts {
            part.write(span, out);
        }
    }
}

fn node(word: &'static str, fields: Vec<Field>, parts: Vec<Node>) -> Node {
    Node { word, fields, parts }
}

fn fixed(text: &str) -> Field {
    Field::Fixed(text.to_string())
}

const ALL: Field = Field::Parts { less: 0 };

pub fn contract(items: Vec<Node>) -> Node {
    node("contract", vec![ALL], items)
}

pub fn state(fields: Vec<Node>) -> Node {
    node("state", vec![ALL], fields)
}

pub fn event(name: &str, params: Vec<Node>) -> Node {
    node("event", vec![fixed(name), ALL], params)
}

pub fn invariant(expr: Node) -> Node {
    node("invariant", vec![], vec![expr])
}

pub fn genesis(body: Vec<Node>) -> Node {
    node("genesis", vec![ALL], body)
}

pub fn entry(params: Vec<Node>, clauses: Vec<Node>, body: Vec<Node>) -> Node {
    let places = [Place::Param, Place::Clause, Place::Statement];
    let counts = places.map(Field::PartsAt).to_vec();
    node("entry", counts, [params, clauses, body].concat())
}

pub fn field(name: &str, ty: Node, default: Option<Node>) -> Node {
    let mut parts = vec![ty];
    parts.extend(default);
    let fields = vec![Field::Span, fixed(name), Field::Parts { less: 1 }];
    node("field", fields, parts)
}

pub fn param(name: &str, ty: Node) -> Node {
    node("param", vec![fixed(name)], vec![ty])
}

pub fn ty(name: &str, args: Vec<Node>) -> Node {
    node("type", vec![Field::Span, fixed(name), ALL], args)
}

pub fn num(text: &str) -> Node {
    node("num", vec![fixed(text)], vec![])
}

pub fn mofn() -> Node {
    node("mofn", vec![], vec![])
}

pub fn limits(expr: Node) -> Node {
    node("limits", vec![], vec![expr])
}

pub fn denies(expr: Node) -> Node {
    node("denies", vec![], vec![expr])
}

pub fn mints() -> Node {
    node("mints", vec![], vec![])
}

pub fn after(target: Option<Node>, from: Option<Node>) -> Node {
    let flag = |there: bool| fixed(if there { "1" } else { "0" });
    let fields = vec![flag(target.is_some()), flag(from.is_some())];
    node("after", fields, target.into_iter().chain(from).collect())
}

pub fn guard(expr: Node) -> Node {
    node("guard", vec![], vec![expr])
}

/// A `let`.
pub fn bind(name: &str, value: Node) -> Node {
    node("let", vec![fixed(name)], vec![value])
}

pub fn emit(name: &str, args: Vec<Node>) -> Node {
    node("emit", vec![fixed(name), ALL], args)
}

pub fn assign(op: &str, target: Node, value: Node) -> Node {
    node("assign", vec![Field::Span, fixed(op)], vec![target, value])
}

/// A `do`.
pub fn act(expr: Node) -> Node {
    node("do", vec![], vec![expr])
}

pub fn int(text: &str) -> Node {
    node("int", vec![Field::Span, fixed(text)], vec![])
}

pub fn id(name: &str) -> Node {
    node("id", vec![Field::Span, fixed(name)], vec![])
}

/// An expression of a span alone, such as `caller`.
pub fn leaf(word: &'static str) -> Node {
    node(word, vec![Field::Span], vec![])
}

pub fn un(op: &str, expr: Node) -> Node {
    node("un", vec![Field::Span, fixed(op)], vec![expr])
}

pub fn bin(op: &str, left: Node, right: Node) -> Node {
    node("bin", vec![Field::Span, fixed(op)], vec![left, right])
}

pub fn dot(base: Node, name: &str) -> Node {
    node("dot", vec![Field::Span, fixed(name), Field::Span], vec![base])
}

pub fn call(callee: Node, args: Vec<Node>) -> Node {
    let parts = [vec![callee], args].concat();
    node("call", vec![Field::Span, Field::Parts { less: 1 }], parts)
}

pub fn checked(expr: Node) -> Node {
    node("checked", vec![Field::Span], vec![expr])
}

pub fn wrapping(expr: Node) -> Node {
    node("wrapping", vec![Field::Span], vec![expr])
}

/// The call `base.name(args)` of a name.
pub fn method(base: &str, name: &str, args: Vec<Node>) -> Node {
    call(dot(id(base), name), args)
}

/// A type by its text, such as `Map<Q_Address, u64>`; digits alone are a `num`, `_` a `mofn`.
pub fn declared(text: &str) -> Node {
    let text = text.trim();
    if text == "_" {
        return mofn();
    }
    if text.starts_with(|c: char| c.is_ascii_digit()) {
        return num(text);
    }
    match text.split_once('<') {
        None => ty(text, vec![]),
        Some((name, rest)) => {
            let inner = rest.strip_suffix('>').expect("the bracket is closed");
            ty(name, split_arguments(inner).into_iter().map(declared).collect())
        }
    }
}

/// Parts `text` at the commas outside brackets.
fn split_arguments(text: &str) -> Vec<&str> {
    let mut open = 0;
    let outside = |c: char| {
        open += i32::from(c == '<') - i32::from(c == '>');
        c == ',' && open == 0
    };
    text.split(outside).collect()
}
