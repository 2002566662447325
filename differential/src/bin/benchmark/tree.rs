//! A plain reading of a sheet into the tree of ast.rs, which the Rust is timed with: one pass over the
//! lines, a match on each word, and no memory but that of the tree. A test compares it with the
//! reference's reader, which also lists lines and spans.

use reference::reader::{Refusal, MOST_BYTES, MOST_DEPTH, MOST_LINES};
use reference::{
    AfterTarget, AssignOp, BinOp, Clause, Contract, Duration, EntryDecl, EventDecl, Expr,
    FieldDecl, GenericArg, GenesisBlock, Ident, IntLit, InvariantDecl, Item, Param, Span,
    StateBlock, Stmt, StrLit, Type, UnaryOp,
};

type Read<T> = Result<T, Refusal>;

/// Stands where the sheet carries nothing; the pass never reads it.
const NO_SPAN: Span = Span(0);

/// The tree of a sheet, or its refusal 1 to 3 or 6 to 11: nothing is lent here.
pub fn read(sheet: &[u8]) -> Read<Contract> {
    let refuse = |number| Err(Refusal { number, place: 0 });
    if sheet.len() > MOST_BYTES {
        return refuse(1);
    }
    if sheet.last() != Some(&b'\n') {
        return refuse(2);
    }
    if sheet.iter().filter(|&&byte| byte == b'\n').count() > MOST_LINES {
        return refuse(3);
    }
    let mut reader = Reader { rest: sheet, line: 0 };
    let contract = reader.contract()?;
    match reader.rest {
        [] => Ok(contract),
        _ => Err(Refusal { number: 6, place: reader.line + 1 }),
    }
}

struct Reader<'s> {
    rest: &'s [u8],
    /// How many lines are read.
    line: u32,
}

/// A line: its word, and what stands behind the comma after it.
struct Record<'s> {
    word: &'s [u8],
    rest: Option<&'s [u8]>,
    line: u32,
    /// The depth of its parts.
    below: u64,
}

impl<'s> Record<'s> {
    fn refuse<T>(&self, number: u32) -> Read<T> {
        Err(Refusal { number, place: self.line })
    }

    fn fields<const N: usize>(&self) -> Read<[&'s [u8]; N]> {
        let mut fields: [&[u8]; N] = [&[]; N];
        let mut count = 0;
        let parts = self.rest.map(|rest| rest.split(|&byte| byte == b','));
        for part in parts.into_iter().flatten() {
            if count == N {
                return self.refuse(9);
            }
            fields[count] = part;
            count += 1;
        }
        if count < N {
            return self.refuse(9);
        }
        Ok(fields)
    }

    fn number(&self, field: &[u8], most: u64) -> Read<u32> {
        let digits = matches!(field, [b'0'] | [b'1'..=b'9', ..]) && field.len() <= 10;
        if !digits || !field.iter().all(u8::is_ascii_digit) {
            return self.refuse(10);
        }
        let number = field.iter().fold(0, |sum, digit| 10 * sum + u64::from(digit - b'0'));
        match number <= most {
            true => Ok(number as u32),
            false => self.refuse(10),
        }
    }

    fn span(&self, field: &[u8]) -> Read<Span> {
        self.number(field, u64::from(u32::MAX)).map(Span)
    }

    fn count(&self, field: &[u8]) -> Read<u32> {
        self.number(field, 1_024)
    }

    fn flag(&self, field: &[u8]) -> Read<bool> {
        self.number(field, 1).map(|flag| flag == 1)
    }

    fn text_of(&self, field: &[u8], allowed: impl Fn(u8) -> bool) -> Read<String> {
        if !(1..=64).contains(&field.len()) || !field.iter().all(|&byte| allowed(byte)) {
            return self.refuse(10);
        }
        Ok(std::str::from_utf8(field).expect("only ASCII is allowed").to_string())
    }

    fn text(&self, field: &[u8]) -> Read<String> {
        self.text_of(field, |byte| byte.is_ascii_digit() || byte == b'_')
    }

    fn name(&self, field: &[u8]) -> Read<String> {
        if field.first().is_some_and(u8::is_ascii_digit) {
            return self.refuse(10);
        }
        self.text_of(field, |byte| byte.is_ascii_alphanumeric() || byte == b'_')
    }

    fn ident(&self, field: &[u8]) -> Read<Ident> {
        Ok(Ident { text: self.name(field)?, span: NO_SPAN })
    }
}

impl<'s> Reader<'s> {
    fn record(&mut self, depth: u64) -> Read<Record<'s>> {
        self.line += 1;
        let refuse = |number| Err(Refusal { number, place: self.line });
        let Some(end) = self.rest.iter().position(|&byte| byte == b'\n') else {
            return refuse(11);
        };
        if depth > MOST_DEPTH {
            return refuse(7);
        }
        let (line, rest) = (&self.rest[..end], &self.rest[end + 1..]);
        self.rest = rest;
        let comma = line.iter().position(|&byte| byte == b',');
        let word = &line[..comma.unwrap_or(end)];
        let rest = comma.map(|comma| &line[comma + 1..]);
        Ok(Record { word, rest, line: self.line, below: depth + 1 })
    }

    fn many<T>(
        &mut self,
        count: u32,
        depth: u64,
        part: impl Fn(&mut Self, u64) -> Read<T>,
    ) -> Read<Vec<T>> {
        (0..count).map(|_| part(self, depth)).collect()
    }

    fn contract(&mut self) -> Read<Contract> {
        let record = self.record(0)?;
        if record.word != b"contract" {
            return record.refuse(8);
        }
        let [count] = record.fields()?;
        let items = self.many(record.count(count)?, record.below, Self::item)?;
        Ok(Contract { name: no_name(), items, span: NO_SPAN })
    }

    fn item(&mut self, depth: u64) -> Read<Item> {
        let record = self.record(depth)?;
        let (span, below) = (NO_SPAN, record.below);
        Ok(match record.word {
            b"state" => {
                let [count] = record.fields()?;
                let fields = self.many(record.count(count)?, below, Self::field)?;
                Item::State(StateBlock { fields, span })
            }
            b"event" => {
                let [name, count] = record.fields()?;
                let (name, count) = (record.ident(name)?, record.count(count)?);
                let params = self.many(count, below, Self::param)?;
                Item::Event(EventDecl { name, params, span })
            }
            b"invariant" => {
                let [] = record.fields()?;
                Item::Invariant(InvariantDecl { expr: self.expression(below)?, span })
            }
            b"genesis" => {
                let [count] = record.fields()?;
                let body = self.many(record.count(count)?, below, Self::statement)?;
                Item::Genesis(GenesisBlock { body, span })
            }
            b"entry" => Item::Entry(self.entry(&record)?),
            _ => return record.refuse(8),
        })
    }

    fn entry(&mut self, record: &Record<'s>) -> Read<EntryDecl> {
        let [params, clauses, body] = record.fields()?;
        let (params, clauses) = (record.count(params)?, record.count(clauses)?);
        let body = record.count(body)?;
        Ok(EntryDecl {
            name: no_name(),
            params: self.many(params, record.below, Self::param)?,
            clauses: self.many(clauses, record.below, Self::clause)?,
            body: self.many(body, record.below, Self::statement)?,
            span: NO_SPAN,
        })
    }

    fn field(&mut self, depth: u64) -> Read<FieldDecl> {
        let record = self.record(depth)?;
        if record.word != b"field" {
            return record.refuse(8);
        }
        let [span, name, flag] = record.fields()?;
        let name = Ident { span: record.span(span)?, text: record.name(name)? };
        let flag = record.flag(flag)?;
        let ty = self.declared(record.below)?;
        let default = self.expression_if(flag, record.below)?;
        Ok(FieldDecl { name, ty, default, meta: false, span: NO_SPAN })
    }

    fn param(&mut self, depth: u64) -> Read<Param> {
        let record = self.record(depth)?;
        if record.word != b"param" {
            return record.refuse(8);
        }
        let [name] = record.fields()?;
        let name = record.ident(name)?;
        let ty = self.declared(record.below)?;
        Ok(Param { name, sealed: false, ty, signed_by: None, span: NO_SPAN })
    }

    fn declared(&mut self, depth: u64) -> Read<Type> {
        let record = self.record(depth)?;
        match record.word {
            b"type" => self.type_of(&record),
            _ => record.refuse(8),
        }
    }

    fn type_of(&mut self, record: &Record<'s>) -> Read<Type> {
        let [span, name, count] = record.fields()?;
        let (span, name) = (record.span(span)?, record.ident(name)?);
        let args = self.many(record.count(count)?, record.below, Self::argument)?;
        Ok(Type { name, args, span })
    }

    fn argument(&mut self, depth: u64) -> Read<GenericArg> {
        let record = self.record(depth)?;
        Ok(match record.word {
            b"type" => GenericArg::Type(self.type_of(&record)?),
            b"num" => {
                let [text] = record.fields()?;
                GenericArg::Int(IntLit { text: record.text(text)?, span: NO_SPAN })
            }
            b"mofn" => {
                let [] = record.fields()?;
                GenericArg::MofN { m: no_number(), n: no_number(), span: NO_SPAN }
            }
            _ => return record.refuse(8),
        })
    }

    fn clause(&mut self, depth: u64) -> Read<Clause> {
        let record = self.record(depth)?;
        let (span, below) = (NO_SPAN, record.below);
        if record.word == b"after" {
            return self.after(&record);
        }
        if !matches!(record.word, b"limits" | b"denies" | b"mints") {
            return record.refuse(8);
        }
        let [] = record.fields()?;
        Ok(match record.word {
            b"limits" => Clause::Limits { expr: self.expression(below)?, span },
            b"denies" => Clause::Denies { expr: self.expression(below)?, span },
            _ => Clause::Mints { asset: no_name(), span },
        })
    }

    fn after(&mut self, record: &Record<'s>) -> Read<Clause> {
        let [target, from] = record.fields()?;
        let (target, from) = (record.flag(target)?, record.flag(from)?);
        let target = self.expression_if(target, record.below)?;
        let target = target.map_or_else(no_duration, AfterTarget::Expr);
        let from = self.expression_if(from, record.below)?;
        Ok(Clause::After { target, from, span: NO_SPAN })
    }

    fn statement(&mut self, depth: u64) -> Read<Stmt> {
        let record = self.record(depth)?;
        let (span, below) = (NO_SPAN, record.below);
        Ok(match record.word {
            b"guard" => {
                let [] = record.fields()?;
                Stmt::Guard { expr: self.expression(below)?, span }
            }
            b"do" => {
                let [] = record.fields()?;
                Stmt::Expr { expr: self.expression(below)?, span }
            }
            b"let" => {
                let [name] = record.fields()?;
                Stmt::Let { name: record.ident(name)?, value: self.expression(below)?, span }
            }
            b"emit" => {
                let [name, count] = record.fields()?;
                let (name, count) = (record.ident(name)?, record.count(count)?);
                Stmt::Emit { name, args: self.many(count, below, Self::expression)?, span }
            }
            b"assign" => self.assign(&record)?,
            _ => return record.refuse(8),
        })
    }

    fn assign(&mut self, record: &Record<'s>) -> Read<Stmt> {
        let [span, op] = record.fields()?;
        let span = record.span(span)?;
        let op = match op {
            b"set" => AssignOp::Set,
            b"add" => AssignOp::Add,
            b"sub" => AssignOp::Sub,
            _ => return record.refuse(10),
        };
        let target = self.expression(record.below)?;
        let value = self.expression(record.below)?;
        Ok(Stmt::Assign { target, op, value, span })
    }

    fn expression_if(&mut self, there: bool, depth: u64) -> Read<Option<Expr>> {
        there.then(|| self.expression(depth)).transpose()
    }

    fn boxed(&mut self, depth: u64) -> Read<Box<Expr>> {
        self.expression(depth).map(Box::new)
    }

    fn expression(&mut self, depth: u64) -> Read<Expr> {
        let record = self.record(depth)?;
        match record.word {
            b"int" => {
                let [span, text] = record.fields()?;
                Ok(Expr::Int(IntLit { span: record.span(span)?, text: record.text(text)? }))
            }
            b"id" => {
                let [span, name] = record.fields()?;
                Ok(Expr::Ident(Ident { span: record.span(span)?, text: record.name(name)? }))
            }
            b"un" => self.unary(&record),
            b"bin" => self.binary(&record),
            b"dot" => self.dot(&record),
            b"call" => self.call(&record),
            _ => self.spanned(&record),
        }
    }

    /// An expression that has a span and no other field.
    fn spanned(&mut self, record: &Record<'s>) -> Read<Expr> {
        let words: [&[u8]; 8] =
            [b"caller", b"now", b"checked", b"wrapping", b"native", b"inasset", b"date", b"str"];
        if !words.contains(&record.word) {
            return record.refuse(8);
        }
        let [span] = record.fields()?;
        let span = record.span(span)?;
        Ok(match record.word {
            b"caller" => Expr::Caller { span },
            b"now" => Expr::Now { span },
            b"checked" => Expr::Checked { expr: self.boxed(record.below)?, span },
            b"wrapping" => Expr::Wrapping { expr: self.boxed(record.below)?, span },
            b"native" => Expr::Native { span },
            b"inasset" => Expr::InAsset { span },
            b"date" => Expr::Date { text: String::new(), span },
            _ => Expr::Str(StrLit { value: String::new(), span }),
        })
    }

    fn unary(&mut self, record: &Record<'s>) -> Read<Expr> {
        let [span, op] = record.fields()?;
        let span = record.span(span)?;
        let op = match op {
            b"not" => UnaryOp::Not,
            b"neg" => UnaryOp::Neg,
            _ => return record.refuse(10),
        };
        Ok(Expr::Unary { op, expr: self.boxed(record.below)?, span })
    }

    fn binary(&mut self, record: &Record<'s>) -> Read<Expr> {
        let [span, op] = record.fields()?;
        let span = record.span(span)?;
        let Some(op) = binary_op(op) else {
            return record.refuse(10);
        };
        let (left, right) = (self.boxed(record.below)?, self.boxed(record.below)?);
        Ok(Expr::Binary { op, left, right, span })
    }

    fn dot(&mut self, record: &Record<'s>) -> Read<Expr> {
        let [span, name, nspan] = record.fields()?;
        let span = record.span(span)?;
        let name = Ident { text: record.name(name)?, span: record.span(nspan)? };
        Ok(Expr::Field { base: self.boxed(record.below)?, name, span })
    }

    fn call(&mut self, record: &Record<'s>) -> Read<Expr> {
        let [span, count] = record.fields()?;
        let (span, count) = (record.span(span)?, record.count(count)?);
        let callee = self.boxed(record.below)?;
        let args = self.many(count, record.below, Self::expression)?;
        Ok(Expr::Call { callee, args, span })
    }
}

fn binary_op(op: &[u8]) -> Option<BinOp> {
    Some(match op {
        b"or" => BinOp::Or,
        b"and" => BinOp::And,
        b"eq" => BinOp::Eq,
        b"ne" => BinOp::Ne,
        b"lt" => BinOp::Lt,
        b"gt" => BinOp::Gt,
        b"le" => BinOp::Le,
        b"ge" => BinOp::Ge,
        b"add" => BinOp::Add,
        b"sub" => BinOp::Sub,
        b"mul" => BinOp::Mul,
        b"div" => BinOp::Div,
        b"rem" => BinOp::Rem,
        b"shr" => BinOp::Shr,
        _ => return None,
    })
}

fn no_name() -> Ident {
    Ident { text: String::new(), span: NO_SPAN }
}

fn no_number() -> IntLit {
    IntLit { text: String::new(), span: NO_SPAN }
}

fn no_duration() -> AfterTarget {
    AfterTarget::Duration(Duration { value: no_number(), unit: no_name(), span: NO_SPAN })
}

#[cfg(test)]
mod tests {
    use super::*;
    use reference::case::Case;
    use reference::generate::case;
    use reference::reader::Spans;

    #[test]
    fn the_tree_is_that_of_the_reference() {
        for index in 0..30_000 {
            let case = Case::exact(case(7, index).sheet);
            let wanted = case.read(Spans::Own).map(|loaded| loaded.contract);
            assert_eq!(read(&case.sheet), wanted, "index {index}");
        }
    }
}
