//! Small contracts whose declarations are good for the most part and have few names, so that names meet, and whose
//! statements are of the shapes that the last rules look at.

use super::names::text;
use crate::fields::{ASSIGN_OPS, BINARY_OPS};
use crate::node::*;
use crate::rng::Rng;

const NAMES: &[&str] = &["a", "b", "c", "d", "m", "E", "deploy_params"];

const NUMBERS: &[&str] = &["u8", "u16", "u32", "u64", "i8", "bool", "Time"];

const MAPS: &[&str] = &[
    "Map<u64, u8>",
    "Map<u64, bool>",
    "Map<Q_Address, u64>",
    "Map<Q_Name, u16>",
    "Map<u64, Time>",
    "Map<u64, Q_Name>",
    "Map<Q_Name<u8>, Q_Address>",
    "Map<Q_Word64, Q_Name<1>>",
    "Registry<Q_Address>",
    "Registry<Q_Name>",
];

const OTHERS: &[&str] =
    &["Q_Address", "Q_Name", "Q_Asset", "Q_Word64", "GuardianSet<5>", "GuardianSet"];

const METHODS: &[&str] =
    &["set", "set", "get", "contains", "insert", "remove", "credit", "debit", "merge", "split"];

const CALLS: &[&str] = &["mint", "send", "mint_asset", "send_asset", "f"];

pub fn dense_contract(rng: &mut Rng) -> Node {
    let mut names = Vec::new();
    let mut items = Vec::new();
    for _ in 0..1 + rng.below(2) {
        items.push(state((0..rng.below(4)).map(|_| dense_field(rng, &mut names)).collect()));
    }
    for _ in 0..rng.below(3) {
        let params = (0..rng.below(4)).map(|_| dense_param(rng, &mut Vec::new())).collect();
        items.push(event(rng.pick(&["E", "E", "a"]), params));
    }
    for _ in 0..1 + rng.below(2) {
        items.push(Scope { rng, names: names.clone() }.entry());
    }
    let mut scope = Scope { rng, names };
    if scope.rng.once_in(4) {
        let condition = scope.condition(2);
        items.push(invariant(condition));
    }
    if scope.rng.once_in(3) {
        let body = (0..1 + scope.rng.below(3)).map(|_| scope.statement()).collect();
        items.push(genesis(body));
    }
    if rng.once_in(4) {
        rng.shuffle(&mut items);
    }
    contract(items)
}

/// A name that is declared, and the text of its type.
type Named = (&'static str, &'static str);

fn dense_field(rng: &mut Rng, names: &mut Vec<Named>) -> Node {
    let ty = match rng.below(8) {
        0..=3 => rng.pick(NUMBERS),
        4..=6 => rng.pick(MAPS),
        _ => rng.pick(&["Q_Address", "Q_Asset", "Q_Word64", "GuardianSet<5>", "GuardianSet<0>"]),
    };
    let name = rng.pick(NAMES);
    names.push((name, ty));
    let default = (NUMBERS.contains(&ty) && rng.once_in(4)).then(|| int(&text(rng)));
    field(name, declared(ty), default)
}

fn dense_param(rng: &mut Rng, names: &mut Vec<Named>) -> Node {
    let ty = match rng.below(8) {
        0..=3 => rng.pick(NUMBERS),
        4..=6 => rng.pick(&["Q_Address", "Q_Name", "Q_Asset"]),
        _ if rng.once_in(2) => rng.pick(MAPS),
        _ => rng.pick(OTHERS),
    };
    let name = rng.pick(NAMES);
    names.push((name, ty));
    param(name, declared(ty))
}

struct Scope<'r> {
    rng: &'r mut Rng,
    names: Vec<Named>,
}

impl Scope<'_> {
    fn entry(mut self) -> Node {
        let params = (0..self.rng.below(4)).map(|_| dense_param(self.rng, &mut self.names));
        let params = params.collect();
        let clauses = (0..self.rng.below(3)).map(|_| self.clause()).collect();
        let body = (0..1 + self.rng.below(4)).map(|_| self.statement()).collect();
        entry(params, clauses, body)
    }

    /// A name declared with one of those types, for the most part.
    fn named(&mut self, types: &[&str]) -> &'static str {
        let fit: Vec<Named> =
            self.names.iter().copied().filter(|(_, ty)| types.contains(ty)).collect();
        if fit.is_empty() || self.rng.once_in(10) {
            return self.rng.pick(NAMES);
        }
        self.rng.pick(&fit).0
    }

    fn number(&mut self, fuel: usize) -> Node {
        if fuel == 0 {
            return match self.rng.below(4) {
                0 => int(&text(self.rng)),
                1 => leaf("now"),
                _ => id(self.named(NUMBERS)),
            };
        }
        let fuel = fuel - 1;
        match self.rng.below(12) {
            0 | 1 => wrapping(self.number(fuel)),
            2 => checked(self.number(fuel)),
            3 => bin(self.rng.pick(BINARY_OPS), self.number(fuel), self.number(fuel)),
            4 | 5 => bin("add", self.number(fuel), self.number(fuel)),
            6 => method(self.named(MAPS), "get", vec![self.key(fuel)]),
            7 => dot(self.number(fuel), self.rng.pick(&["amount", "g"])),
            8 => dot(id(self.rng.pick(NAMES)), self.rng.pick(&["amount", "g"])),
            9 => call(self.number(fuel), vec![self.number(fuel)]),
            _ => self.number(0),
        }
    }

    /// A number, or something else that a map may be keyed by.
    fn key(&mut self, fuel: usize) -> Node {
        match self.rng.below(6) {
            0 => leaf(self.rng.pick(&["caller", "native", "str"])),
            1 => id(self.named(&["Q_Name"])),
            2 | 3 => id(self.named(&["Q_Name", "Q_Address", "Q_Word64"])),
            _ => self.number(fuel),
        }
    }

    fn condition(&mut self, fuel: usize) -> Node {
        match self.rng.below(5) {
            0 if fuel > 0 => {
                let op = self.rng.pick(&["and", "and", "or"]);
                bin(op, self.condition(fuel - 1), self.condition(fuel - 1))
            }
            1 => id(self.named(&["bool"])),
            _ => {
                let op = self.rng.pick(&["le", "lt", "le", "ge", "gt", "eq", "ne"]);
                bin(op, self.number(1), self.number(1))
            }
        }
    }

    fn clause(&mut self) -> Node {
        match self.rng.below(5) {
            0..=2 => limits(self.condition(2)),
            3 => mints(),
            _ => denies(self.condition(1)),
        }
    }

    fn args(&mut self, most: usize) -> Vec<Node> {
        (0..self.rng.below(most + 1)).map(|_| self.key(2)).collect()
    }

    fn statement(&mut self) -> Node {
        match self.rng.below(10) {
            0 => bind(self.rng.pick(NAMES), self.number(2)),
            1 => assign(self.rng.pick(ASSIGN_OPS), self.number(0), self.number(2)),
            2 | 3 => self.growth(),
            4 => emit(self.rng.pick(&["E", "E", "E", "a", "b"]), self.args(4)),
            5 | 6 => act(method(self.named(MAPS), self.rng.pick(METHODS), self.args(3))),
            7 => self.outflow(),
            8 => assign("set", id(self.rng.pick(NAMES)), dot(id("deploy_params"), "g")),
            _ => guard(self.condition(1)),
        }
    }

    /// A name that takes on a sum, in which it stands or not.
    fn growth(&mut self) -> Node {
        let name = self.named(NUMBERS);
        let mut terms: Vec<Node> = (0..1 + self.rng.below(3)).map(|_| self.number(1)).collect();
        for _ in 0..self.rng.below(3) {
            terms.push(id(name));
        }
        self.rng.shuffle(&mut terms);
        let sum = terms.into_iter().reduce(|sum, term| bin("add", sum, term));
        assign(self.rng.pick(&["set", "set", "add"]), id(name), sum.expect("a term"))
    }

    /// A call known by its name, bound to a name or not, or of what is held.
    fn outflow(&mut self) -> Node {
        let made = match self.rng.below(3) {
            0 => method(self.named(&["Q_Asset"]), self.rng.pick(METHODS), self.args(2)),
            _ => call(id(self.rng.pick(CALLS)), self.args(3)),
        };
        match self.rng.below(4) {
            0 => bind(self.rng.pick(NAMES), made),
            1 => act(checked(made)),
            _ => act(made),
        }
    }
}
