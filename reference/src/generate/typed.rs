//! Contracts that are well typed for the most part, made so that a planted fault is reached.

use super::names::{shuffled, text, NAMES};
use crate::node::*;
use crate::rng::Rng;

/// What an expression is wanted to be.
#[derive(Clone, Copy)]
pub enum Want {
    Int,
    Bool,
    Address,
    Time,
    Word64,
    Asset,
    Unknown,
}

/// The state fields a typed contract has use for, one of each type.
pub const FIELDS: &[&str] = &[
    "u8",
    "bool",
    "u64",
    "Q_Address",
    "Q_Asset",
    "Q_Word64",
    "Time",
    "Map<Q_Address, u64>",
    "Map<Q_Name, Q_Address>",
    "Map<u64, Q_Name>",
    "Map<Q_Id, u8>",
    "Registry<Q_Address>",
    "GuardianSet<5>",
];

/// The parameters its entries have use for.
pub const PARAMS: &[&str] = &["u64", "Q_Address", "Q_Name", "Q_Asset", "Time"];

/// The fields of its event.
pub const EVENT: &[&str] = &["u64", "Q_Name", "u16", "Q_Address", "Q_Asset"];

/// How deep keyed calls nest in each other's arguments; the Rust doubles its work per level.
pub const MOST_KEYED: usize = 12;

pub struct Entry {
    /// Parameters beyond the listed ones.
    pub params: Vec<Node>,
    pub clauses: Vec<Node>,
    pub body: Vec<Node>,
}

/// A contract under construction, its items apart so that faults can be planted. Of the listed
/// fields and parameters and the event it gets, for the most part, those it mentions.
pub struct Plan {
    pub rng: Rng,
    /// For the listed fields, then the listed parameters, then the event; the rest are free.
    names: Vec<&'static str>,
    listed_fields: Vec<Node>,
    /// Fields and events beyond the listed ones.
    pub fields: Vec<Node>,
    pub events: Vec<Node>,
    pub invariants: Vec<Node>,
    pub entries: Vec<Entry>,
    pub genesis: Vec<Node>,
    /// Whether parameters are in scope.
    in_entry: bool,
    /// The numbers bound so far in the entry.
    locals: Vec<String>,
}

impl Plan {
    pub fn new(mut rng: Rng) -> Plan {
        // A digest word would refuse the Q_Word64 field.
        let names = shuffled(&mut rng, listed(FIELDS, "Q_Word64"));
        let mut plan = Plan {
            rng,
            names,
            listed_fields: vec![],
            fields: vec![],
            events: vec![],
            invariants: vec![],
            entries: vec![],
            genesis: vec![],
            in_entry: false,
            locals: vec![],
        };
        plan.fill();
        plan
    }

    /// The name of the state field of that type.
    pub fn field(&self, ty: &str) -> &'static str {
        self.names[listed(FIELDS, ty)]
    }

    /// The name of a state field of one of those types.
    pub fn field_of(&mut self, types: &[&str]) -> &'static str {
        let ty = self.rng.pick(types);
        self.field(ty)
    }

    /// The name of the entry parameter of that type.
    pub fn param(&self, ty: &str) -> &'static str {
        self.names[FIELDS.len() + listed(PARAMS, ty)]
    }

    pub fn event(&self) -> &'static str {
        self.names[FIELDS.len() + PARAMS.len()]
    }

    /// A name that no field or parameter has.
    pub fn free(&mut self) -> &'static str {
        let taken = FIELDS.len() + PARAMS.len() + 1;
        let free = self.names.len() - taken;
        self.names[taken + self.rng.below(free)]
    }

    fn fill(&mut self) {
        self.listed_fields = (0..FIELDS.len()).map(|at| self.state_field(at)).collect();
        for _ in 0..self.rng.below(3) {
            let condition = self.expr(Want::Bool, 2);
            self.invariants.push(invariant(condition));
        }
        // Some contracts are large.
        let size = if self.rng.once_in(50) { 4 } else { 1 };
        for _ in 0..size + self.rng.below(2 * size) {
            let entry = self.entry(size);
            self.entries.push(entry);
        }
        for _ in 0..self.rng.below(3) {
            let stmt = self.genesis_statement();
            self.genesis.push(stmt);
        }
    }

    fn state_field(&mut self, at: usize) -> Node {
        let default = match FIELDS[at] {
            "u8" if self.rng.once_in(3) => Some(int(self.rng.pick(&["0", "255", "0_7"]))),
            "u64" if self.rng.once_in(3) => Some(self.expr(Want::Int, 1)),
            "bool" if self.rng.once_in(3) => Some(self.expr(Want::Bool, 1)),
            "Q_Address" if self.rng.once_in(3) => Some(leaf("caller")),
            _ => None,
        };
        field(self.names[at], declared(FIELDS[at]), default)
    }

    fn entry(&mut self, size: usize) -> Entry {
        self.in_entry = true;
        self.locals.clear();
        let clauses = (0..self.rng.below(3)).map(|_| self.clause()).collect();
        let body = (0..self.rng.below(6 * size)).map(|_| self.statement()).collect();
        self.in_entry = false;
        Entry { params: vec![], clauses, body }
    }

    fn clause(&mut self) -> Node {
        match self.rng.below(4) {
            0 => limits(self.expr(Want::Bool, 2)),
            1 => denies(self.expr(Want::Bool, 2)),
            2 => mints(),
            _ => {
                let target = self.rng.once_in(2).then(|| self.expr(Want::Int, 1));
                let from = self.rng.once_in(2).then(|| self.expr(Want::Time, 1));
                after(target, from)
            }
        }
    }

    fn statement(&mut self) -> Node {
        match self.rng.below(8) {
            0 => guard(self.expr(Want::Bool, 3)),
            1 => self.local(),
            2 => self.emission(),
            3 | 4 => self.assignment(),
            5 => act(self.outflow()),
            6 if self.rng.once_in(20) => act(self.nested_keyed()),
            _ => act(self.keyed()),
        }
    }

    /// Keyed calls as keys of keyed calls.
    fn nested_keyed(&mut self) -> Node {
        let map = self.field("Map<Q_Id, u8>");
        let calls = 2 + self.rng.below(MOST_KEYED - 1);
        (0..calls).fold(leaf("now"), |key, _| method(map, "get", vec![key]))
    }

    fn local(&mut self) -> Node {
        let number = self.expr(Want::Int, 2);
        match self.rng.below(4) {
            0 => bind("made", method(self.field("Q_Asset"), "split", vec![number])),
            1 => bind("made", call(id("mint"), vec![number])),
            // A local may hide a field.
            2 => bind(self.field_of(&["u64", "Map<Q_Address, u64>"]), number),
            _ => {
                let name = format!("local{}", self.locals.len());
                self.locals.push(name.clone());
                bind(&name, number)
            }
        }
    }

    fn emission(&mut self) -> Node {
        let args = vec![
            self.expr(Want::Int, 2),
            id(self.param("Q_Name")),
            int("7"),
            self.expr(Want::Address, 1),
            id(self.param("Q_Asset")),
            self.expr(Want::Bool, 1),
        ];
        let given = self.rng.below(args.len() + 1);
        emit(self.event(), args.into_iter().take(given).collect())
    }

    fn assignment(&mut self) -> Node {
        let total = id(self.field("u64"));
        match self.rng.below(7) {
            0 => assign("add", total, int("1_0")),
            1 => assign("sub", total, self.expr(Want::Int, 2)),
            2 => assign("set", total, checked(self.expr(Want::Int, 2))),
            3 => assign("set", id(self.field("u8")), int("12")),
            4 => assign("set", id(self.field("Q_Address")), self.expr(Want::Address, 1)),
            5 => assign("add", total, wrapping(self.expr(Want::Int, 2))),
            _ => assign("set", id(self.field("bool")), leaf("now")),
        }
    }

    fn genesis_statement(&mut self) -> Node {
        match self.rng.below(4) {
            0 => assign("set", id(self.field("GuardianSet<5>")), dot(id("deploy_params"), "g")),
            1 => guard(self.expr(Want::Address, 1)),
            2 => act(self.keyed()),
            _ => self.assignment(),
        }
    }

    fn outflow(&mut self) -> Node {
        let (to, amount) = (self.expr(Want::Address, 1), self.expr(Want::Int, 1));
        match self.rng.below(4) {
            0 => call(id("send"), vec![to, amount]),
            1 => call(id("mint_asset"), vec![to, amount]),
            2 => call(id("send_asset"), vec![leaf("native"), to, amount]),
            _ => method(self.field("Q_Asset"), "merge", vec![call(id("mint"), vec![amount])]),
        }
    }

    /// A call on a map or registry that suits it.
    fn keyed(&mut self) -> Node {
        let who = self.expr(Want::Address, 1);
        let n = self.expr(Want::Int, 1);
        let balances = self.field("Map<Q_Address, u64>");
        let members = self.field("Registry<Q_Address>");
        match self.rng.below(7) {
            0 => method(balances, "set", vec![who, n]),
            1 => method(balances, "credit", vec![who, n]),
            2 => method(balances, "remove", vec![who]),
            3 => method(members, "insert", vec![who]),
            4 => method(members, "remove", vec![who]),
            5 if self.in_entry => {
                let key = id(self.param("Q_Name"));
                method(self.field("Map<Q_Name, Q_Address>"), "set", vec![key, who])
            }
            _ => method(self.field("Map<Q_Id, u8>"), "set", vec![n, int("255")]),
        }
    }

    pub fn expr(&mut self, want: Want, fuel: usize) -> Node {
        if fuel > 0 && self.rng.once_in(8) {
            return checked(self.expr(want, fuel - 1));
        }
        match want {
            Want::Int => self.number(fuel),
            Want::Bool => self.condition(fuel),
            Want::Address => self.address(fuel),
            Want::Time => match self.rng.below(3) {
                0 => leaf("date"),
                1 => id(self.field("Time")),
                _ => dot(leaf("caller"), "first"),
            },
            Want::Word64 => match self.rng.below(2) {
                0 => id(self.field("Q_Word64")),
                _ => dot(id(self.free()), "signer_bits"),
            },
            Want::Asset => id(self.field("Q_Asset")),
            Want::Unknown => match self.rng.below(3) {
                0 => id("nowhere"),
                1 => call(id("f"), vec![]),
                _ => dot(leaf("now"), "part"),
            },
        }
    }

    fn number(&mut self, fuel: usize) -> Node {
        if fuel == 0 {
            return match self.rng.below(5) {
                0 => leaf("now"),
                1 => id(self.field("u64")),
                2 if self.in_entry => id(self.param("u64")),
                3 if self.in_entry && !self.locals.is_empty() => {
                    id(&self.locals[self.rng.below(self.locals.len())])
                }
                3 => dot(id(self.field("Q_Asset")), self.rng.pick(&["amount", "len"])),
                _ => int(&text(&mut self.rng)),
            };
        }
        match self.rng.below(4) {
            0 => {
                let op = self.rng.pick(&["add", "sub", "mul", "div", "rem", "shr"]);
                bin(op, self.expr(Want::Int, fuel - 1), self.expr(Want::Time, fuel - 1))
            }
            1 => un("neg", self.expr(Want::Int, fuel - 1)),
            2 => {
                let key = self.expr(Want::Address, fuel - 1);
                method(self.field("Map<Q_Address, u64>"), "get", vec![key])
            }
            _ => self.number(0),
        }
    }

    fn condition(&mut self, fuel: usize) -> Node {
        if fuel == 0 {
            return id(self.field("bool"));
        }
        let fuel = fuel - 1;
        match self.rng.below(6) {
            0 => un("not", self.condition(fuel)),
            1 => {
                let op = self.rng.pick(&["and", "or"]);
                bin(op, self.condition(fuel), self.expr(Want::Unknown, fuel))
            }
            2 => {
                let op = self.rng.pick(&["lt", "gt", "le", "ge"]);
                bin(op, self.expr(Want::Int, fuel), self.expr(Want::Int, fuel))
            }
            3 => self.comparison(fuel),
            4 => {
                let key = self.expr(Want::Address, fuel);
                method(self.field("Registry<Q_Address>"), "contains", vec![key])
            }
            _ => self.condition(0),
        }
    }

    fn comparison(&mut self, fuel: usize) -> Node {
        let op = self.rng.pick(&["eq", "ne"]);
        let wants = [Want::Int, Want::Bool, Want::Address, Want::Word64, Want::Asset];
        let want = self.rng.pick(&wants);
        match self.rng.below(3) {
            0 => bin(op, self.expr(Want::Address, fuel), int(self.rng.pick(&["0", "0_0", "_"]))),
            1 => bin(op, leaf("str"), leaf("str")),
            _ => bin(op, self.expr(want, fuel), self.expr(want, fuel)),
        }
    }

    fn address(&mut self, fuel: usize) -> Node {
        match self.rng.below(6) {
            0 => leaf(self.rng.pick(&["caller", "native", "inasset"])),
            1 => id(self.field("Q_Address")),
            2 if self.in_entry => id(self.param("Q_Address")),
            3 if self.in_entry && fuel > 0 => {
                let key = id(self.param("Q_Name"));
                method(self.field("Map<Q_Name, Q_Address>"), "get", vec![key])
            }
            _ => leaf("caller"),
        }
    }

    /// Whether a listed declaration is kept: those not mentioned only now and then.
    fn keeps(&mut self, name: &str, within: &[&Node]) -> bool {
        within.iter().any(|node| mentions(node, name)) || self.rng.once_in(12)
    }

    fn entry_item(&mut self, planned: Entry) -> Node {
        let Entry { params: extra, clauses, body } = planned;
        let within: Vec<&Node> = clauses.iter().chain(&body).collect();
        let mut params = Vec::new();
        for ty in PARAMS {
            let name = self.param(ty);
            if self.keeps(name, &within) {
                params.push(param(name, declared(ty)));
            }
        }
        entry([params, extra].concat(), clauses, body)
    }

    fn event_item(&mut self, items: &[Node]) -> Option<Node> {
        let within: Vec<&Node> = items.iter().collect();
        let name = self.event();
        let params = EVENT.iter().zip(NAMES).map(|(ty, name)| param(name, declared(ty)));
        self.keeps(name, &within).then(|| event(name, params.collect()))
    }

    fn state_item(&mut self, items: &[Node]) -> Node {
        let listed = std::mem::take(&mut self.listed_fields);
        let within: Vec<&Node> = items.iter().chain(&listed).collect();
        let kept = (0..FIELDS.len()).filter(|&at| self.keeps(self.names[at], &within));
        let mut fields: Vec<Node> = kept.map(|at| listed[at].clone()).collect();
        for extra in std::mem::take(&mut self.fields) {
            fields.insert(self.rng.below(fields.len() + 1), extra);
        }
        state(fields)
    }

    pub fn build(mut self) -> Node {
        let entries = std::mem::take(&mut self.entries);
        let mut items: Vec<Node> = Vec::new();
        for planned in entries {
            items.push(self.entry_item(planned));
        }
        items.append(&mut self.invariants);
        items.push(genesis(std::mem::take(&mut self.genesis)));
        items.append(&mut self.events);
        let event = self.event_item(&items);
        let state = self.state_item(&items);
        items.extend(event.into_iter().chain([state]));
        self.rng.shuffle(&mut items);
        contract(items)
    }
}

/// The place of a type in one of the lists.
fn listed(types: &[&str], ty: &str) -> usize {
    types.iter().position(|listed| *listed == ty).expect("a listed type")
}

/// Whether an `id` or `emit` at or under the record has the name.
fn mentions(node: &Node, name: &str) -> bool {
    let own = matches!(node.word, "id" | "emit")
        && node.fields.iter().any(|field| matches!(field, Field::Fixed(text) if text == name));
    own || node.parts.iter().any(|part| mentions(part, name))
}
