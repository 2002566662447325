//! One planted fault for each refusal from 12 to 46.

use super::typed::{Plan, Want};
use crate::node::*;

pub fn plant(plan: &mut Plan, number: u32) {
    match number {
        12..=17 => bad_declaration(plan, number),
        18 => digest(plan),
        19 => keeps_no_default(plan),
        20 => guardians(plan),
        21 => condition(plan),
        22 => narrow_flow(plan),
        23 => {
            let types = ["Map<u64, Q_Name>", "Registry<Q_Address>", "GuardianSet<5>"];
            let stmt = bind("local", id(plan.field_of(&types)));
            in_body(plan, stmt);
        }
        24..=28 => bad_assignment(plan, number),
        29 => recipient(plan),
        43 => bad_emit(plan),
        44 => dropped_asset(plan),
        45 => overflow(plan),
        46 => both_kinds(plan),
        _ => {
            let expr = bad_expression(plan, number);
            in_expression(plan, expr);
        }
    }
}

/// A place in a list of that length, or its end.
fn anywhere(plan: &mut Plan, len: usize) -> usize {
    plan.rng.below(len + 1)
}

fn in_body(plan: &mut Plan, stmt: Node) {
    let entry = plan.rng.below(plan.entries.len());
    let at = anywhere(plan, plan.entries[entry].body.len());
    plan.entries[entry].body.insert(at, stmt);
}

fn in_genesis(plan: &mut Plan, stmt: Node) {
    let at = anywhere(plan, plan.genesis.len());
    plan.genesis.insert(at, stmt);
}

fn in_clauses(plan: &mut Plan, clause: Node) {
    let entry = plan.rng.below(plan.entries.len());
    let at = anywhere(plan, plan.entries[entry].clauses.len());
    plan.entries[entry].clauses.insert(at, clause);
}

fn in_body_or_genesis(plan: &mut Plan, stmt: Node) {
    match plan.rng.below(3) {
        0 => in_genesis(plan, stmt),
        _ => in_body(plan, stmt),
    }
}

/// Puts an expression where its type is asked.
fn in_expression(plan: &mut Plan, expr: Node) {
    let expr = match plan.rng.below(4) {
        0 => checked(expr),
        1 => call(id("f"), vec![leaf("now"), expr]),
        _ => expr,
    };
    match plan.rng.below(8) {
        0 => plan.invariants.push(invariant(expr)),
        1 => in_clauses(plan, limits(expr)),
        2 => in_clauses(plan, denies(expr)),
        3 => in_body(plan, guard(expr)),
        4 => in_body(plan, bind("local", expr)),
        5 => in_body(plan, emit("Unheard", vec![expr])),
        6 => in_body_or_genesis(plan, assign("set", id("nowhere"), expr)),
        _ => in_body_or_genesis(plan, act(expr)),
    }
}

fn bad_declaration(plan: &mut Plan, number: u32) {
    let types: &[&str] = match number {
        12 => &["Q_Name", "Q_Name<u8>"],
        13 => &["Map", "Map<u64>", "Map<u8, u8, u8>", "Registry", "Registry<u8, u64>"],
        14 => &["Map<1, u8>", "Map<u8, _>", "Registry<7>", "Map<Q_Name, 8>"],
        15 => &[
            "Map<Q_Asset, u8>",
            "Map<u8, Map<u8, u8>>",
            "Registry<Other<u8, 4, _>>",
            "Map<bool, Time<u8>>",
            "Registry<GuardianSet<3>>",
        ],
        16 => &["Other", "String", "u256", "Other<Map<u8, 1_0>, _>", "q_name"],
        _ => &["u64<u8>", "bool<1>", "Time<_>", "Q_Address<Q_Name>", "Q_Word64<u8, u8>", "Q_Id<0>"],
    };
    let ty = declared(plan.rng.pick(types));
    let name = plan.free();
    if number >= 16 && plan.rng.once_in(3) {
        plan.events.push(event("Told", vec![param(name, ty)]));
    } else {
        plan.fields.push(field(name, ty, None));
    }
}

fn digest(plan: &mut Plan) {
    let names = ["Block_HASH", "xDigEst", "fingerPRINTs", "a_checksum_9", "Commitment", "merkle"];
    let (name, ty) = (plan.rng.pick(&names), declared("Q_Word64"));
    match plan.rng.below(3) {
        0 => plan.events.push(event("Told", vec![param("n", declared("u8")), param(name, ty)])),
        1 => plan.entries[0].params.push(param(name, ty)),
        _ => plan.fields.push(field(name, ty, None)),
    }
}

fn keeps_no_default(plan: &mut Plan) {
    let types = ["Map<u8, u8>", "Registry<u8>", "GuardianSet<2>", "Q_Asset", "Q_Asset<QTOV>"];
    let ty = declared(plan.rng.pick(&types));
    let (name, value) = (plan.free(), plan.expr(Want::Int, 1));
    plan.fields.push(field(name, ty, Some(value)));
}

fn guardians(plan: &mut Plan) {
    let types = [
        "GuardianSet",
        "GuardianSet<0>",
        "GuardianSet<257>",
        "GuardianSet<_>",
        "GuardianSet<u8>",
        "GuardianSet<99999999999999999999>",
    ];
    let ty = declared(plan.rng.pick(&types));
    let name = plan.free();
    match plan.rng.below(3) {
        0 => {
            plan.fields.push(field(name, ty, None));
            more_guardians(plan, name);
        }
        _ => {
            let entry = plan.rng.below(plan.entries.len());
            plan.entries[entry].params.push(param(name, ty));
        }
    }
}

/// Up to three fields more, good and bad, some of which hide an earlier one.
fn more_guardians(plan: &mut Plan, name: &'static str) {
    let types = ["GuardianSet", "GuardianSet<0>", "GuardianSet<257>", "GuardianSet<5>", "u8"];
    for _ in 0..plan.rng.below(4) {
        let other = plan.free();
        let name = plan.rng.pick(&[name, other, other]);
        let ty = declared(plan.rng.pick(&types));
        let at = anywhere(plan, plan.fields.len());
        plan.fields.insert(at, field(name, ty, None));
    }
}

fn condition(plan: &mut Plan) {
    let want = plan.rng.pick(&[Want::Int, Want::Address, Want::Asset, Want::Time, Want::Word64]);
    let expr = plan.expr(want, 1);
    match plan.rng.below(4) {
        0 => plan.invariants.push(invariant(expr)),
        1 => in_clauses(plan, limits(expr)),
        2 => in_clauses(plan, denies(expr)),
        _ => in_body(plan, guard(expr)),
    }
}

fn narrow_flow(plan: &mut Plan) {
    let value = match plan.rng.below(5) {
        0 => wrapping(leaf("now")),
        1 => checked(un("neg", wrapping(int("1")))),
        2 => bin("add", int("1"), wrapping(plan.expr(Want::Int, 1))),
        3 => call(id("f"), vec![int("2"), wrapping(int("3"))]),
        _ => {
            plan.entries[0].body.insert(0, bind("w", wrapping(int("5"))));
            id("w")
        }
    };
    let stmt = match plan.rng.below(4) {
        0 => assign("set", id(plan.field("u8")), value),
        1 => assign("sub", id(plan.field("bool")), value),
        2 => act(method(plan.field("Map<Q_Id, u8>"), "set", vec![int("1"), value])),
        _ => {
            let name = id(plan.param("Q_Name"));
            emit(plan.event(), vec![int("1"), name, value])
        }
    };
    plan.entries[0].body.push(stmt);
}

fn bad_assignment(plan: &mut Plan, number: u32) {
    let op = plan.rng.pick(&["set", "add", "sub"]);
    let level = id(plan.field_of(&["u8", "bool"]));
    match number {
        24 => {
            let value = plan.expr(Want::Int, 1);
            let stmt = assign(op, id(plan.field("Q_Asset")), value);
            in_body_or_genesis(plan, stmt);
        }
        25 => name_to_address(plan),
        26 => {
            let value = wrapping(plan.expr(Want::Int, 1));
            match plan.rng.below(2) {
                0 => plan.fields.push(field("narrow", declared("u16"), Some(value))),
                _ => in_genesis(plan, assign(op, level, value)),
            }
        }
        27 => {
            let value = int(plan.rng.pick(&["256", "3_0_0", "00000999", "4294967296"]));
            match plan.rng.below(3) {
                0 => plan.fields.push(field("narrow", declared("u8"), Some(value))),
                1 => at_limit(plan),
                _ => in_body_or_genesis(plan, assign(op, level, value)),
            }
        }
        _ => unfit(plan),
    }
}

/// A narrow field whose default is its largest value or one more, or an edge of 128 bits.
fn at_limit(plan: &mut Plan) {
    let (ty, most, above) = plan.rng.pick(&[
        ("bool", "1", "2"),
        ("u8", "255", "256"),
        ("u16", "65535", "65536"),
        ("u32", "4294967295", "4294967296"),
    ]);
    let wide = "340282366920938463463374607431768211455";
    let wider = "340282366920938463463374607431768211456";
    let value = int(plan.rng.pick(&[most, above, above, wide, wider]));
    plan.fields.push(field("narrow", declared(ty), Some(value)));
}

fn name_to_address(plan: &mut Plan) {
    let owner = id(plan.field("Q_Address"));
    match plan.rng.below(2) {
        0 => {
            let value = id(plan.param("Q_Name"));
            in_body(plan, assign("set", owner, value));
        }
        _ => {
            let value = method(plan.field("Map<u64, Q_Name>"), "get", vec![int("1")]);
            in_body_or_genesis(plan, assign("set", owner, value));
        }
    }
}

fn unfit(plan: &mut Plan) {
    let targets = ["u8", "u64", "Q_Address", "Q_Word64", "Time", "GuardianSet<5>"];
    let target = id(plan.field_of(&targets));
    let value = match plan.rng.below(4) {
        0 => leaf("str"),
        1 => id(plan.field("Map<Q_Id, u8>")),
        2 => method(plan.field("Map<u64, Q_Name>"), "get", vec![leaf("now")]),
        _ => id(plan.field("Q_Asset")),
    };
    let op = plan.rng.pick(&["add", "sub"]);
    in_body_or_genesis(plan, assign(op, target, value));
}

fn recipient(plan: &mut Plan) {
    let name = match plan.rng.below(2) {
        0 => id(plan.param("Q_Name")),
        _ => method(plan.field("Map<u64, Q_Name>"), "get", vec![int("1")]),
    };
    let call = match plan.rng.below(4) {
        0 => call(id("send"), vec![name, int("1")]),
        1 => call(id("mint_asset"), vec![name]),
        2 => call(id("send_asset"), vec![name, leaf("caller"), int("1")]),
        _ => call(id("send_asset"), vec![leaf("native"), name]),
    };
    in_body(plan, act(call));
}

fn bad_expression(plan: &mut Plan, number: u32) -> Node {
    match number {
        30..=35 => bad_call(plan, number),
        36 => un("not", plan.expr(Want::Int, 1)),
        37 => un("neg", plan.expr(Want::Time, 1)),
        38..=40 => bad_operand(plan, number),
        41 => {
            let name = method(plan.field("Map<u64, Q_Name>"), "get", vec![leaf("now")]);
            let other = plan.expr(Want::Unknown, 1);
            match plan.rng.below(2) {
                0 => bin("eq", name, other),
                _ => bin("ne", other, name),
            }
        }
        _ => {
            let wants = [Want::Bool, Want::Word64, Want::Asset];
            let want = plan.rng.pick(&wants);
            let left = plan.expr(want, 1);
            bin(plan.rng.pick(&["eq", "ne"]), left, plan.expr(Want::Address, 1))
        }
    }
}

fn bad_operand(plan: &mut Plan, number: u32) -> Node {
    let (ops, good, bad): (&[&str], Want, Want) = match number {
        38 => (&["and", "or"], Want::Bool, Want::Int),
        39 => (&["add", "sub", "mul", "div", "rem", "shr"], Want::Int, Want::Address),
        _ => (&["lt", "gt", "le", "ge"], Want::Time, Want::Bool),
    };
    let op = plan.rng.pick(ops);
    match plan.rng.below(3) {
        0 => bin(op, plan.expr(good, 1), plan.expr(bad, 1)),
        1 => bin(op, plan.expr(bad, 1), plan.expr(good, 1)),
        _ => bin(op, plan.expr(bad, 1), plan.expr(bad, 1)),
    }
}

fn bad_call(plan: &mut Plan, number: u32) -> Node {
    let balances = plan.field("Map<Q_Address, u64>");
    let owners = plan.field("Map<Q_Name, Q_Address>");
    let members = plan.field("Registry<Q_Address>");
    let who = plan.expr(Want::Address, 1);
    let name = method(plan.field("Map<u64, Q_Name>"), "get", vec![int("4")]);
    match (number, plan.rng.below(3)) {
        (30, 0) => method(balances, "merge", vec![who]),
        (30, 1) => call(dot(leaf("caller"), "split"), vec![int("1")]),
        (30, _) => method("nowhere", "split", vec![]),
        (31, 0) => method(balances, "insert", vec![who]),
        (31, 1) => method(members, "set", vec![who, int("1")]),
        (31, _) => method(owners, "credit", vec![who, int("1")]),
        (32, 0) => method(balances, "credit", vec![who, plan.expr(Want::Time, 0)]),
        (32, _) => method(balances, "debit", vec![int("1"), leaf("str")]),
        (33, 0) => method(owners, "get", vec![name]),
        (33, 1) => method(members, "contains", vec![name]),
        (33, _) => method(balances, "set", vec![who, name]),
        (34, 0) => method(owners, "set", vec![plan.expr(Want::Unknown, 1), who]),
        (34, _) => method(plan.field("Map<u64, Q_Name>"), "set", vec![int("1"), leaf("now")]),
        (_, 0) => method(members, "insert", vec![plan.expr(Want::Int, 1)]),
        (_, 1) => method(balances, "set", vec![who, plan.expr(Want::Asset, 1)]),
        _ => method(balances, "get", vec![id(members)]),
    }
}

fn bad_emit(plan: &mut Plan) {
    let name = id(plan.param("Q_Name"));
    let args = match plan.rng.below(4) {
        0 => vec![plan.expr(Want::Address, 1)],
        1 => vec![name],
        2 => vec![int("1"), int("2")],
        _ => vec![int("1"), name, id(plan.field("Registry<Q_Address>"))],
    };
    let stmt = emit(plan.event(), args);
    in_body(plan, stmt);
}

fn dropped_asset(plan: &mut Plan) {
    let made = match plan.rng.below(2) {
        0 => call(id("mint"), vec![int("1")]),
        _ => method(plan.field("Q_Asset"), "split", vec![leaf("now")]),
    };
    match plan.rng.below(6) {
        0 => in_clauses(plan, after(Some(made), None)),
        1 => in_clauses(plan, after(None, Some(checked(made)))),
        2 => in_body(plan, bind("local", checked(made))),
        3 => in_genesis(plan, guard(made)),
        4 => in_body_or_genesis(plan, assign("set", id("nowhere"), made)),
        _ => in_body(plan, act(call(id("f"), vec![call(id("mint"), vec![made])]))),
    }
}

fn overflow(plan: &mut Plan) {
    let total = plan.field("u64");
    let v = id(plan.param("u64"));
    let value = match plan.rng.below(3) {
        0 => bin("add", id(total), v),
        1 => bin("add", bin("add", int("1"), id(total)), id(total)),
        _ => bin("add", dot(id(plan.param("Q_Asset")), "amount"), bin("add", v, id(total))),
    };
    let stmt = match plan.rng.below(3) {
        0 => assign("add", id(total), plan.expr(Want::Unknown, 0)),
        1 => assign("add", id(total), dot(id(plan.param("u64")), "amount")),
        _ => assign("set", id(total), value),
    };
    // Bounds of several kinds: some hold, some don't.
    let cap = match plan.rng.below(5) {
        0 => bin("le", checked(id(total)), int("9")),
        1 => bin("and", id("nowhere"), bin("gt", int("9"), id(total))),
        2 => bin("ge", id(total), int("9")),
        3 => bin("lt", leaf("now"), bin("sub", int("9"), id(total))),
        _ => bin("le", id(total), id(total)),
    };
    if plan.rng.once_in(2) {
        in_clauses(plan, limits(cap));
    }
    in_body(plan, stmt);
}

fn both_kinds(plan: &mut Plan) {
    let map = plan.field_of(&["Map<Q_Address, u64>", "Registry<Q_Address>"]);
    let uses = [
        method(map, "contains", vec![id(plan.param("Q_Name"))]),
        method(map, "remove", vec![leaf("caller")]),
    ];
    for expr in uses {
        match plan.rng.below(4) {
            0 => in_clauses(plan, after(Some(expr), None)),
            1 => in_body(plan, guard(dot(expr, "part"))),
            _ => in_body(plan, act(expr)),
        }
    }
}
