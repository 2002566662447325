//! Sheets that keep the sheet's rules and no others, and changes to given sheets.

use super::names::{text, NAMES};
use super::typed::{EVENT, FIELDS, MOST_KEYED, PARAMS};
use crate::fields::{Place, ASSIGN_OPS, BINARY_OPS, UNARY_OPS};
use crate::node::*;
use crate::rng::Rng;

pub fn any_contract(rng: &mut Rng) -> Node {
    contract(up_to(rng, 6, any_item))
}

fn up_to(rng: &mut Rng, most: usize, part: fn(&mut Rng) -> Node) -> Vec<Node> {
    (0..rng.below(most + 1)).map(|_| part(rng)).collect()
}

fn any_item(rng: &mut Rng) -> Node {
    match rng.below(6) {
        0 => event(any_name(rng), up_to(rng, 3, any_param)),
        1 => invariant(any_expr(rng, 3)),
        2 => genesis(up_to(rng, 3, any_statement)),
        3 | 4 => {
            let params = up_to(rng, 3, any_param);
            entry(params, up_to(rng, 2, any_clause), up_to(rng, 4, any_statement))
        }
        _ => state(up_to(rng, 5, any_field)),
    }
}

/// Few names, so that they meet often; now and then any.
fn any_name(rng: &mut Rng) -> &'static str {
    match rng.below(4) {
        0 => rng.pick(NAMES),
        _ => rng.pick(&["a", "b", "owner", "total", "hash"]),
    }
}

fn any_field(rng: &mut Rng) -> Node {
    let default = rng.once_in(4).then(|| any_expr(rng, 2));
    field(any_name(rng), any_type(rng), default)
}

fn any_param(rng: &mut Rng) -> Node {
    param(any_name(rng), any_type(rng))
}

fn any_type(rng: &mut Rng) -> Node {
    match rng.below(12) {
        0 => odd_type(rng, 2),
        1..=3 => declared(rng.pick(PARAMS)),
        4 => declared(rng.pick(EVENT)),
        _ => declared(rng.pick(FIELDS)),
    }
}

fn odd_type(rng: &mut Rng, fuel: usize) -> Node {
    let names = ["Map", "Registry", "GuardianSet", "Q_Asset", "Q_Name", "u32", "i8", "Odd"];
    let name = rng.pick(&names);
    let most = if fuel == 0 { 0 } else { 3 };
    let args = (0..rng.below(most + 1)).map(|_| match rng.below(4) {
        0 => num(&text(rng)),
        1 => mofn(),
        _ => odd_type(rng, fuel - 1),
    });
    ty(name, args.collect())
}

fn any_clause(rng: &mut Rng) -> Node {
    match rng.below(4) {
        0 => limits(any_expr(rng, 3)),
        1 => denies(any_expr(rng, 2)),
        2 => mints(),
        _ => {
            let target = rng.once_in(2).then(|| any_expr(rng, 2));
            after(target, rng.once_in(2).then(|| any_expr(rng, 2)))
        }
    }
}

fn any_statement(rng: &mut Rng) -> Node {
    match rng.below(6) {
        0 => guard(any_expr(rng, 3)),
        1 => bind(any_name(rng), any_expr(rng, 3)),
        2 => {
            let args = (0..rng.below(4)).map(|_| any_expr(rng, 2)).collect();
            emit(any_name(rng), args)
        }
        3 | 4 => assign(rng.pick(ASSIGN_OPS), any_expr(rng, 1), any_expr(rng, 3)),
        _ => act(any_expr(rng, 4)),
    }
}

pub fn any_expr(rng: &mut Rng, fuel: usize) -> Node {
    if fuel == 0 || rng.once_in(4) {
        return match rng.below(4) {
            0 => int(&text(rng)),
            1 => leaf(rng.pick(&["date", "str", "caller", "native", "inasset", "now"])),
            _ => id(any_name(rng)),
        };
    }
    let fuel = fuel - 1;
    match rng.below(7) {
        0 => un(rng.pick(UNARY_OPS), any_expr(rng, fuel)),
        1 => bin(rng.pick(BINARY_OPS), any_expr(rng, fuel), any_expr(rng, fuel)),
        2 => dot(any_expr(rng, fuel), any_name(rng)),
        3 => checked(any_expr(rng, fuel)),
        4 => wrapping(any_expr(rng, fuel)),
        _ => any_call(rng, fuel),
    }
}

fn any_call(rng: &mut Rng, fuel: usize) -> Node {
    const METHODS: &[&str] =
        &["set", "get", "contains", "insert", "remove", "credit", "debit", "merge", "split"];
    let callee = match rng.below(4) {
        0 => any_expr(rng, fuel),
        1 => id(rng.pick(&["mint", "send", "mint_asset", "send_asset"])),
        _ => dot(id(any_name(rng)), rng.pick(METHODS)),
    };
    let args = (0..rng.below(4)).map(|_| any_expr(rng, fuel)).collect();
    call(callee, args)
}

/// The sheet with one record changed so that it still keeps the sheet's rules; the same sheet
/// where keyed calls would nest too deep.
pub fn changed(tree: Node, rng: &mut Rng) -> Node {
    let mut other = tree.clone();
    match rng.below(4) {
        0 => change_list(&mut other, rng),
        1 => rename(&mut other, rng),
        _ => replace_expression(&mut other, rng),
    }
    if keyed_levels(&other) <= MOST_KEYED {
        other
    } else {
        tree
    }
}

/// How deep calls on a dot nest in the arguments of such calls.
fn keyed_levels(node: &Node) -> usize {
    let keyed = node.word == "call" && node.parts[0].word == "dot";
    let inner = node.parts.iter().map(keyed_levels).max();
    usize::from(keyed) + inner.unwrap_or(0)
}

fn count(node: &Node, wanted: &dyn Fn(&Node) -> bool) -> usize {
    let parts: usize = node.parts.iter().map(|part| count(part, wanted)).sum();
    usize::from(wanted(node)) + parts
}

/// One of the wanted records under `tree`, if there is any.
fn pick<'t>(
    tree: &'t mut Node,
    rng: &mut Rng,
    wanted: &dyn Fn(&Node) -> bool,
) -> Option<&'t mut Node> {
    let all = count(tree, wanted);
    if all == 0 {
        return None;
    }
    let mut at = rng.below(all);
    nth(tree, &mut at, wanted)
}

fn nth<'t>(
    node: &'t mut Node,
    at: &mut usize,
    wanted: &dyn Fn(&Node) -> bool,
) -> Option<&'t mut Node> {
    if wanted(node) {
        if *at == 0 {
            return Some(node);
        }
        *at -= 1;
    }
    node.parts.iter_mut().find_map(|part| nth(part, at, wanted))
}

fn is_expression(node: &Node) -> bool {
    node.place() == Place::Expression
}

fn replace_expression(tree: &mut Node, rng: &mut Rng) {
    let other = match rng.below(3) {
        0 => any_expr(rng, 2),
        _ => match pick(tree, rng, &is_expression) {
            Some(found) => found.clone(),
            None => any_expr(rng, 1),
        },
    };
    if let Some(place) = pick(tree, rng, &is_expression) {
        *place = other;
    }
}

fn rename(tree: &mut Node, rng: &mut Rng) {
    let name = any_name(rng);
    let named = ["field", "param", "event", "let", "emit", "id", "dot"];
    if let Some(node) = pick(tree, rng, &|node| named.contains(&node.word)) {
        let fixed = node.fields.iter_mut().find(|field| matches!(field, Field::Fixed(_)));
        *fixed.expect("a NAME") = Field::Fixed(name.to_string());
    }
}

/// Drops, repeats or moves a part of a record that has a list of them.
fn change_list(tree: &mut Node, rng: &mut Rng) {
    let lists = ["contract", "state", "event", "genesis", "entry", "emit", "type"];
    let wanted = |node: &Node| lists.contains(&node.word) && !node.parts.is_empty();
    let Some(node) = pick(tree, rng, &wanted) else {
        return;
    };
    let (at, to) = (rng.below(node.parts.len()), rng.below(node.parts.len()));
    match rng.below(3) {
        0 => drop(node.parts.remove(at)),
        1 => node.parts.insert(at, node.parts[at].clone()),
        _ if node.parts[at].place() == node.parts[to].place() => node.parts.swap(at, to),
        _ => {}
    }
}
