//! Contracts as makers write them, of any number of lines: an owner with a limit, vaults, registries of
//! names, guardian sets and payments, in turn. And one that makes lookups by name costly.

use reference::node::{
    act, assign, bin, bind, call, checked, contract, declared, denies, dot, emit, entry, event,
    field, genesis, guard, id, int, invariant, leaf, limits, method, mints, param, state, un, Node,
};

/// A part of a contract: the state fields it needs, and the items that use them.
struct Module {
    fields: Vec<Node>,
    items: Vec<Node>,
}

/// An accepted contract of so many lines, from 20 on; `first` tells which module comes second.
pub fn typical(lines: usize, first: usize) -> Vec<u8> {
    written(&planned(lines, first, vec![]))
}

/// The same, refused by 28 in its last entry.
pub fn refused_late(lines: usize, first: usize) -> Vec<u8> {
    let fault = assign("set", id("limit0"), leaf("caller"));
    written(&planned(lines, first, vec![entry(vec![], vec![], vec![fault])]))
}

fn planned(lines: usize, first: usize, last: Vec<Node>) -> Node {
    const MODULES: [fn(usize) -> Module; 5] = [vault, registry, guardians, payment, owner];
    let mut plan = owner(0);
    // The contract and its state have a line each.
    let mut left = lines - 2 - cost(&plan) - size(&last);
    for at in 1.. {
        let usual = MODULES[(at + first) % MODULES.len()](at);
        // Two lines stay for a field that fills the rest.
        let fits = |module: &Module| cost(module) + 2 <= left;
        let Some(module) = [usual, owner(at)].into_iter().find(fits) else {
            break;
        };
        left -= cost(&module);
        plan.fields.extend(module.fields);
        plan.items.extend(module.items);
    }
    plan.fields.extend(filling(left));
    plan.items.extend(last);
    contract([vec![state(plan.fields)], plan.items].concat())
}

fn cost(module: &Module) -> usize {
    size(&module.fields) + size(&module.items)
}

/// Fields of two lines each, the first of three if the number is odd.
fn filling(lines: usize) -> Vec<Node> {
    let named = |at| format!("spare{at}");
    let default = |at| (at == 0 && lines % 2 == 1).then(|| int("0"));
    (0..lines / 2).map(|at| field(&named(at), declared("u64"), default(at))).collect()
}

fn size(nodes: &[Node]) -> usize {
    nodes.iter().map(|node| 1 + size(&node.parts)).sum()
}

/// Spans are told with at most three digits: 1,024 lines have 16 bytes each.
fn written(tree: &Node) -> Vec<u8> {
    let mut out = String::new();
    let mut last = 0;
    let mut span = || {
        last = last % 999 + 1;
        last
    };
    tree.write(&mut span, &mut out);
    out.into_bytes()
}

/// A sheet of so many lines with a quarter of them for fields, and one entry of `let`s and
/// assignments to narrow fields: every name is looked for among all fields and `let`s before it.
pub fn wide(lines: usize) -> Vec<u8> {
    let fields = lines / 4;
    let name = |at: usize| format!("f{:03}", at % fields);
    let state = state((0..fields).map(|at| field(&name(at), declared("u8"), None)).collect());
    // The contract and the entry have a line each; a pair of statements has five.
    let left = lines - 2 - size(std::slice::from_ref(&state));
    let mut body = Vec::new();
    for at in 0..left / 5 {
        let local = format!("l{at:03}");
        body.push(bind(&local, id(&name(7 * at))));
        body.push(assign("set", id(&name(13 * at + 5)), id(&local)));
    }
    for at in 0..left % 5 / 2 {
        body.push(bind("rest", id(&name(at))));
    }
    let clauses = vec![mints(); left % 5 % 2];
    written(&contract(vec![state, entry(vec![], clauses, body)]))
}

/// A statement of so many calls, each the key of the one around it.
pub fn keyed_calls(depth: usize) -> Vec<u8> {
    let map = field("m", declared("Map<u64, u64>"), None);
    let nested = (0..depth).fold(int("1"), |key, _| method("m", "get", vec![key]));
    written(&contract(vec![state(vec![map]), entry(vec![], vec![], vec![act(nested)])]))
}

fn is_caller(name: &str) -> Node {
    guard(bin("eq", leaf("caller"), id(name)))
}

fn owner(at: usize) -> Module {
    let [limit, owner] = ["limit", "owner"].map(|name| format!("{name}{at}"));
    let raise = entry(
        vec![param("by", declared("u64"))],
        vec![],
        vec![is_caller(&owner), assign("set", id(&limit), id("by"))],
    );
    Module {
        fields: vec![
            field(&limit, declared("u64"), Some(int("100"))),
            field(&owner, declared("Q_Address"), None),
        ],
        items: vec![raise],
    }
}

/// The event of a sum that went to an address.
fn transfer(name: &str) -> Node {
    event(name, vec![param("who", declared("Q_Address")), param("sum", declared("u64"))])
}

fn deposit(total: &str, pool: &str, moved: &str) -> Node {
    let amount = || dot(id("coin"), "amount");
    entry(
        vec![param("coin", declared("Q_Asset<QTOV>"))],
        vec![limits(bin("le", amount(), int("1_000")))],
        vec![
            act(method(pool, "merge", vec![id("coin")])),
            assign("add", id(total), amount()),
            emit(moved, vec![leaf("caller"), amount()]),
        ],
    )
}

fn vault(at: usize) -> Module {
    let [total, keeper, pool, moved] =
        ["total", "keep", "pool", "Moved"].map(|name| format!("{name}{at}"));
    let withdraw = entry(
        vec![param("sum", declared("u64")), param("to", declared("Q_Address"))],
        vec![],
        vec![
            is_caller(&keeper),
            guard(bin("le", id("sum"), id(&total))),
            assign("sub", id(&total), id("sum")),
            bind("part", method(&pool, "split", vec![id("sum")])),
            act(call(id("send"), vec![id("to"), id("part")])),
            emit(&moved, vec![id("to"), id("sum")]),
        ],
    );
    Module {
        fields: vec![
            field(&total, declared("u64"), Some(int("0"))),
            field(&keeper, declared("Q_Address"), None),
            field(&pool, declared("Q_Asset<QTOV>"), None),
        ],
        items: vec![
            transfer(&moved),
            invariant(bin("ge", id(&total), int("0"))),
            genesis(vec![assign("set", id(&keeper), id("deployer"))]),
            deposit(&total, &pool, &moved),
            withdraw,
        ],
    }
}

fn registry(at: usize) -> Module {
    let [names, fee, count, named] =
        ["names", "fee", "count", "Named"].map(|name| format!("{name}{at}"));
    let known = || method(&names, "contains", vec![id("name")]);
    let register = entry(
        vec![param("name", declared("Q_Name")), param("paid", declared("u64"))],
        vec![denies(bin("lt", id("paid"), id(&fee)))],
        vec![
            guard(un("not", known())),
            act(method(&names, "set", vec![id("name"), leaf("caller")])),
            assign("set", id(&count), checked(bin("add", id(&count), int("1")))),
            emit(&named, vec![id("name"), leaf("caller")]),
        ],
    );
    let holder = method(&names, "get", vec![id("name")]);
    let release = entry(
        vec![param("name", declared("Q_Name"))],
        vec![],
        vec![
            guard(bin("and", known(), bin("eq", holder, leaf("caller")))),
            act(method(&names, "remove", vec![id("name")])),
        ],
    );
    let params = vec![param("name", declared("Q_Name")), param("who", declared("Q_Address"))];
    Module {
        fields: vec![
            field(&names, declared("Map<Q_Name, Q_Address>"), None),
            field(&fee, declared("u64"), Some(int("5"))),
            field(&count, declared("u32"), None),
        ],
        items: vec![event(&named, params), register, release],
    }
}

fn guardians(at: usize) -> Module {
    let [set, voted, votes, open] =
        ["set", "voted", "votes", "open"].map(|name| format!("{name}{at}"));
    let approve = entry(
        vec![],
        vec![limits(bin("lt", id(&votes), int("5")))],
        vec![
            guard(un("not", method(&voted, "contains", vec![leaf("caller")]))),
            act(method(&voted, "insert", vec![leaf("caller")])),
            assign("add", id(&votes), int("1")),
        ],
    );
    let settle = entry(
        vec![],
        vec![denies(bin("lt", id(&votes), int("3")))],
        vec![assign("set", id(&open), bin("ge", id(&votes), int("3")))],
    );
    Module {
        fields: vec![
            field(&set, declared("GuardianSet<5>"), None),
            field(&voted, declared("Registry<Q_Address>"), None),
            field(&votes, declared("u8"), Some(int("0"))),
            field(&open, declared("bool"), None),
        ],
        items: vec![approve, settle],
    }
}

fn payment(at: usize) -> Module {
    let [due, rate, since, payee, paid] =
        ["due", "rate", "since", "payee", "Paid"].map(|name| format!("{name}{at}"));
    let share = bin("div", bin("mul", id("sum"), id(&rate)), int("10_000"));
    let due_now = bin("ge", leaf("now"), id(&since));
    let pay = entry(
        vec![param("sum", declared("u64"))],
        vec![],
        vec![
            bind("share", share),
            guard(bin("and", bin("gt", id("share"), int("0")), due_now)),
            act(method(&due, "debit", vec![leaf("caller"), id("sum")])),
            act(method(&due, "credit", vec![id(&payee), bin("sub", id("sum"), id("share"))])),
            emit(&paid, vec![id(&payee), id("share")]),
        ],
    );
    let claim = entry(
        vec![],
        vec![],
        vec![
            bind("owed", method(&due, "get", vec![leaf("caller")])),
            guard(bin("gt", id("owed"), int("0"))),
            act(method(&due, "set", vec![leaf("caller"), int("0")])),
            act(call(id("send"), vec![leaf("caller"), id("owed")])),
        ],
    );
    Module {
        fields: vec![
            field(&due, declared("Map<Q_Address, u64>"), None),
            field(&rate, declared("u16"), Some(int("25"))),
            field(&since, declared("Time"), None),
            field(&payee, declared("Q_Address"), None),
        ],
        items: vec![transfer(&paid), pay, claim],
    }
}

#[cfg(test)]
mod tests {
    use super::*;
    use reference::case::Case;

    fn lines_and_number(sheet: Vec<u8>) -> (usize, u32) {
        let case = Case::exact(sheet);
        (case.types_len, case.answer().number)
    }

    #[test]
    fn contracts_have_their_lines_and_their_verdicts() {
        for lines in (24..=1_024).step_by(40).chain([20, 21, 64, 255, 1_023]) {
            for first in 0..5 {
                assert_eq!(lines_and_number(typical(lines, first)), (lines, 0));
            }
            assert_eq!(lines_and_number(refused_late(lines.max(24), 1)), (lines.max(24), 28));
            assert_eq!(lines_and_number(wide(lines)), (lines, 0));
        }
    }
}
