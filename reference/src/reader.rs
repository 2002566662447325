//! The sheet reader: refusals 1 to 11, the tree of ast.rs, and a listing of the lines.

use crate::fields::{Place, Shape, SHAPES};
use crate::{
    AfterTarget, AssignOp, BinOp, Clause, Contract, Duration, EntryDecl, EventDecl, Expr,
    FieldDecl, GenericArg, GenesisBlock, Ident, IntLit, InvariantDecl, Item, Param, Span,
    StateBlock, Stmt, StrLit, Type, UnaryOp,
};

pub const MOST_BYTES: usize = 16_384;
pub const MOST_LINES: usize = 1_024;
pub const MOST_DEPTH: u64 = 64;
/// Entries of the lent scratch for each line.
pub const ENTRIES: usize = 8;

/// A refusal 1 to 11 and its place: 0, or a line number from 1.
#[derive(Clone, Copy, Debug, PartialEq, Eq)]
pub struct Refusal {
    pub number: u32,
    pub place: u32,
}

/// One record: its word, its depth, and the line after the last of its parts.
#[derive(Clone, Debug, PartialEq, Eq)]
pub struct Line {
    pub word: &'static str,
    pub depth: u64,
    pub end: u32,
}

/// What a `Span` of the tree stands for. Only an expression's span has a line.
#[derive(Clone, Copy, Debug, PartialEq, Eq)]
pub struct Origin {
    pub line: Option<u32>,
    pub span: u32,
}

/// What the tree holds for a span: an index into `Loaded::origins`, or the sheet's own number.
#[derive(Clone, Copy, Debug, PartialEq, Eq)]
pub enum Spans {
    Numbered,
    Own,
}

#[derive(Debug)]
pub struct Loaded {
    pub contract: Contract,
    pub lines: Vec<Line>,
    pub origins: Vec<Origin>,
}

/// Stands where the sheet carries nothing; the pass never reads it.
const NO_SPAN: Span = Span(0);

pub fn read(
    sheet: &[u8],
    scratch_len: usize,
    types_len: usize,
    spans: Spans,
) -> Result<Loaded, Refusal> {
    let lines = lines_of(sheet, scratch_len, types_len)?;
    let mut reader =
        Reader { lines, listing: Vec::new(), origins: vec![Origin { line: None, span: 0 }], spans };
    let contract = reader.contract()?;
    if let Some(place) = reader.next_line() {
        return Err(Refusal { number: 6, place });
    }
    Ok(Loaded { contract, lines: with_ends(reader.listing), origins: reader.origins })
}

/// Refusals 1 to 5, in that order.
fn lines_of(sheet: &[u8], scratch_len: usize, types_len: usize) -> Result<Vec<&[u8]>, Refusal> {
    let refuse = |number| Err(Refusal { number, place: 0 });
    if sheet.len() > MOST_BYTES {
        return refuse(1);
    }
    let Some((b'\n', text)) = sheet.split_last() else {
        return refuse(2);
    };
    let lines: Vec<&[u8]> = text.split(|&byte| byte == b'\n').collect();
    if lines.len() > MOST_LINES {
        return refuse(3);
    }
    if types_len < lines.len() {
        return refuse(4);
    }
    if scratch_len < ENTRIES * lines.len() {
        return refuse(5);
    }
    Ok(lines)
}

/// A record's subtree ends before the next line that isn't deeper.
fn with_ends(mut listing: Vec<Line>) -> Vec<Line> {
    for at in 0..listing.len() {
        let later = &listing[at + 1..];
        let within = later.iter().take_while(|line| line.depth > listing[at].depth);
        listing[at].end = (at + 2 + within.count()) as u32;
    }
    listing
}

struct Reader<'s> {
    lines: Vec<&'s [u8]>,
    /// The records read so far; their `end` is filled in at last.
    listing: Vec<Line>,
    origins: Vec<Origin>,
    spans: Spans,
}

/// A record whose word and fields have been tested.
struct Record<'s> {
    word: &'static str,
    line: u32,
    /// The depth of its parts.
    below: u64,
    fields: Vec<&'s str>,
}

impl<'s> Record<'s> {
    /// A NAME or TEXT.
    fn text(&self, at: usize) -> String {
        self.fields[at].to_string()
    }

    fn number(&self, at: usize) -> u32 {
        self.fields[at].parse().expect("a SPAN or COUNT")
    }

    fn flag(&self, at: usize) -> bool {
        self.fields[at] == "1"
    }
}

/// The shape of a record that may stand at `place`, by its word.
fn shape_of(word: &[u8], place: Place) -> Option<&'static Shape> {
    let mut allowed = SHAPES.iter().filter(|shape| shape.places.contains(&place));
    allowed.find(|shape| shape.word.as_bytes() == word)
}

impl<'s> Reader<'s> {
    /// The number of the next line, unless all are read.
    fn next_line(&self) -> Option<u32> {
        let read = self.listing.len();
        (read < self.lines.len()).then_some(read as u32 + 1)
    }

    /// Takes the next line as a record due at `place`: refusals 7 to 11.
    fn record(&mut self, place: Place, depth: u64) -> Result<Record<'s>, Refusal> {
        let line = self.listing.len() as u32 + 1;
        let refuse = |number| Refusal { number, place: line };
        if self.next_line().is_none() {
            return Err(refuse(11));
        }
        if depth > MOST_DEPTH {
            return Err(refuse(7));
        }
        let mut parts = self.lines[self.listing.len()].split(|&byte| byte == b',');
        let word = parts.next().unwrap_or_default();
        let shape = shape_of(word, place).ok_or(refuse(8))?;
        let fields: Vec<&[u8]> = parts.collect();
        if fields.len() != shape.fields.len() {
            return Err(refuse(9));
        }
        let mut pairs = shape.fields.iter().zip(&fields);
        if !pairs.all(|(kind, field)| kind.admits(field)) {
            return Err(refuse(10));
        }
        self.listing.push(Line { word: shape.word, depth, end: 0 });
        let ascii = |field: &&'s [u8]| std::str::from_utf8(field).expect("ASCII by its rule");
        Ok(Record {
            word: shape.word,
            line,
            below: depth + 1,
            fields: fields.iter().map(ascii).collect(),
        })
    }

    fn span(&mut self, line: Option<u32>, span: u32) -> Span {
        match self.spans {
            Spans::Own => Span(span),
            Spans::Numbered => {
                self.origins.push(Origin { line, span });
                Span(self.origins.len() as u32 - 1)
            }
        }
    }

    fn many<T>(
        &mut self,
        count: u32,
        depth: u64,
        part: impl Fn(&mut Self, u64) -> Result<T, Refusal>,
    ) -> Result<Vec<T>, Refusal> {
        (0..count).map(|_| part(self, depth)).collect()
    }

    fn contract(&mut self) -> Result<Contract, Refusal> {
        let record = self.record(Place::Contract, 0)?;
        let items = self.many(record.number(0), record.below, Self::item)?;
        Ok(Contract { name: no_name(), items, span: NO_SPAN })
    }

    fn item(&mut self, depth: u64) -> Result<Item, Refusal> {
        let record = self.record(Place::Item, depth)?;
        let span = NO_SPAN;
        let below = record.below;
        Ok(match record.word {
            "state" => {
                let fields = self.many(record.number(0), below, Self::field)?;
                Item::State(StateBlock { fields, span })
            }
            "event" => {
                let params = self.many(record.number(1), below, Self::param)?;
                Item::Event(EventDecl { name: unplaced(record.text(0)), params, span })
            }
            "invariant" => {
                let expr = self.expression(below)?;
                Item::Invariant(InvariantDecl { expr, span })
            }
            "genesis" => {
                let body = self.many(record.number(0), below, Self::statement)?;
                Item::Genesis(GenesisBlock { body, span })
            }
            _ => Item::Entry(self.entry(&record)?),
        })
    }

    fn entry(&mut self, record: &Record<'s>) -> Result<EntryDecl, Refusal> {
        Ok(EntryDecl {
            name: no_name(),
            params: self.many(record.number(0), record.below, Self::param)?,
            clauses: self.many(record.number(1), record.below, Self::clause)?,
            body: self.many(record.number(2), record.below, Self::statement)?,
            span: NO_SPAN,
        })
    }

    fn field(&mut self, depth: u64) -> Result<FieldDecl, Refusal> {
        let record = self.record(Place::Field, depth)?;
        let nspan = self.span(None, record.number(0));
        let ty = self.declared(Place::Type, record.below)?;
        let default = self.expression_if(record.flag(2), record.below)?;
        Ok(FieldDecl {
            name: Ident { text: record.text(1), span: nspan },
            ty,
            default,
            meta: false,
            span: NO_SPAN,
        })
    }

    fn param(&mut self, depth: u64) -> Result<Param, Refusal> {
        let record = self.record(Place::Param, depth)?;
        Ok(Param {
            name: unplaced(record.text(0)),
            sealed: false,
            ty: self.declared(Place::Type, record.below)?,
            signed_by: None,
            span: NO_SPAN,
        })
    }

    fn declared(&mut self, place: Place, depth: u64) -> Result<Type, Refusal> {
        let record = self.record(place, depth)?;
        self.type_of(&record)
    }

    fn type_of(&mut self, record: &Record<'s>) -> Result<Type, Refusal> {
        let span = self.span(None, record.number(0));
        let args = self.many(record.number(2), record.below, Self::argument)?;
        Ok(Type { name: unplaced(record.text(1)), args, span })
    }

    fn argument(&mut self, depth: u64) -> Result<GenericArg, Refusal> {
        let record = self.record(Place::Argument, depth)?;
        Ok(match record.word {
            "type" => GenericArg::Type(self.type_of(&record)?),
            "num" => GenericArg::Int(IntLit { text: record.text(0), span: NO_SPAN }),
            _ => GenericArg::MofN { m: no_number(), n: no_number(), span: NO_SPAN },
        })
    }

    fn clause(&mut self, depth: u64) -> Result<Clause, Refusal> {
        let record = self.record(Place::Clause, depth)?;
        let span = NO_SPAN;
        Ok(match record.word {
            "limits" => Clause::Limits { expr: self.expression(record.below)?, span },
            "denies" => Clause::Denies { expr: self.expression(record.below)?, span },
            "mints" => Clause::Mints { asset: no_name(), span },
            _ => {
                let target = self.expression_if(record.flag(0), record.below)?;
                let target = target.map_or_else(no_duration, AfterTarget::Expr);
                let from = self.expression_if(record.flag(1), record.below)?;
                Clause::After { target, from, span }
            }
        })
    }

    fn statement(&mut self, depth: u64) -> Result<Stmt, Refusal> {
        let record = self.record(Place::Statement, depth)?;
        let span = NO_SPAN;
        let below = record.below;
        Ok(match record.word {
            "guard" => Stmt::Guard { expr: self.expression(below)?, span },
            "let" => {
                let name = unplaced(record.text(0));
                Stmt::Let { name, value: self.expression(below)?, span }
            }
            "emit" => {
                let args = self.many(record.number(1), below, Self::expression)?;
                Stmt::Emit { name: unplaced(record.text(0)), args, span }
            }
            "assign" => Stmt::Assign {
                span: self.span(None, record.number(0)),
                op: assign_op(record.fields[1]),
                target: self.expression(below)?,
                value: self.expression(below)?,
            },
            _ => Stmt::Expr { expr: self.expression(below)?, span },
        })
    }

    fn expression_if(&mut self, there: bool, depth: u64) -> Result<Option<Expr>, Refusal> {
        there.then(|| self.expression(depth)).transpose()
    }

    fn boxed(&mut self, depth: u64) -> Result<Box<Expr>, Refusal> {
        self.expression(depth).map(Box::new)
    }

    fn expression(&mut self, depth: u64) -> Result<Expr, Refusal> {
        let record = self.record(Place::Expression, depth)?;
        let span = self.span(Some(record.line), record.number(0));
        Ok(match record.word {
            "int" => Expr::Int(IntLit { text: record.text(1), span }),
            "id" => Expr::Ident(Ident { text: record.text(1), span }),
            "date" => Expr::Date { text: String::new(), span },
            "str" => Expr::Str(StrLit { value: String::new(), span }),
            "caller" => Expr::Caller { span },
            "native" => Expr::Native { span },
            "inasset" => Expr::InAsset { span },
            "now" => Expr::Now { span },
            _ => self.compound(&record, span)?,
        })
    }

    /// An expression that has parts.
    fn compound(&mut self, record: &Record<'s>, span: Span) -> Result<Expr, Refusal> {
        let below = record.below;
        Ok(match record.word {
            "un" => {
                let op = unary_op(record.fields[1]);
                Expr::Unary { op, expr: self.boxed(below)?, span }
            }
            "bin" => {
                let op = binary_op(record.fields[1]);
                Expr::Binary { op, left: self.boxed(below)?, right: self.boxed(below)?, span }
            }
            "dot" => {
                let nspan = self.span(None, record.number(2));
                let name = Ident { text: record.text(1), span: nspan };
                Expr::Field { base: self.boxed(below)?, name, span }
            }
            "call" => {
                let callee = self.boxed(below)?;
                let args = self.many(record.number(1), below, Self::expression)?;
                Expr::Call { callee, args, span }
            }
            "checked" => Expr::Checked { expr: self.boxed(below)?, span },
            _ => Expr::Wrapping { expr: self.boxed(below)?, span },
        })
    }
}

fn assign_op(op: &str) -> AssignOp {
    match op {
        "set" => AssignOp::Set,
        "add" => AssignOp::Add,
        _ => AssignOp::Sub,
    }
}

fn unary_op(op: &str) -> UnaryOp {
    match op {
        "not" => UnaryOp::Not,
        _ => UnaryOp::Neg,
    }
}

fn binary_op(op: &str) -> BinOp {
    match op {
        "or" => BinOp::Or,
        "and" => BinOp::And,
        "eq" => BinOp::Eq,
        "ne" => BinOp::Ne,
        "lt" => BinOp::Lt,
        "gt" => BinOp::Gt,
        "le" => BinOp::Le,
        "ge" => BinOp::Ge,
        "add" => BinOp::Add,
        "sub" => BinOp::Sub,
        "mul" => BinOp::Mul,
        "div" => BinOp::Div,
        "rem" => BinOp::Rem,
        _ => BinOp::Shr,
    }
}

/// A name whose own span the sheet doesn't carry.
fn unplaced(text: String) -> Ident {
    Ident { text, span: NO_SPAN }
}

fn no_name() -> Ident {
    unplaced(String::new())
}

fn no_number() -> IntLit {
    IntLit { text: String::new(), span: NO_SPAN }
}

fn no_duration() -> AfterTarget {
    AfterTarget::Duration(Duration { value: no_number(), unit: no_name(), span: NO_SPAN })
}
