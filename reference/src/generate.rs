//! Cases made from a seed: typed contracts with planted faults, dense and wild sheets, damaged sheets.

mod dense;
mod faults;
mod names;
mod typed;
mod wild;

use crate::case::Case;
use crate::damage;
use crate::node::Node;
use crate::rng::Rng;
use typed::Plan;

/// The case of that index: the same on every machine.
pub fn case(seed: u64, index: u64) -> Case {
    let mut rng = Rng::new(seed ^ index.wrapping_mul(0xd134_2543_de82_ef95));
    let mut case = match rng.below(10) {
        0..=2 => damage::damaged(&mut rng),
        3 => Case::exact(written(&wild::any_contract(&mut rng), &mut rng)),
        4 => Case::exact(changed(&mut rng)),
        5 | 6 => Case::exact(written(&dense::dense_contract(&mut rng), &mut rng)),
        _ => Case::exact(written(&planted(&mut rng), &mut rng)),
    };
    lend(&mut case, &mut rng);
    case
}

/// A contract that is well typed for the most part.
pub fn plain(rng: &mut Rng) -> Vec<u8> {
    let tree = Plan::new(Rng::new(rng.draw())).build();
    written(&tree, rng)
}

fn planted(rng: &mut Rng) -> Node {
    let mut plan = Plan::new(Rng::new(rng.draw()));
    // Mostly one fault; none, or two whose order then decides.
    for _ in 0..rng.pick(&[0, 1, 1, 1, 1, 2]) {
        faults::plant(&mut plan, 12 + rng.below(35) as u32);
    }
    plan.build()
}

fn changed(rng: &mut Rng) -> Vec<u8> {
    let mut tree = planted(rng);
    for _ in 0..1 + rng.below(3) {
        tree = wild::changed(tree, rng);
    }
    written(&tree, rng)
}

/// Writes the sheet with spans in order, at random, or hardly different.
fn written(tree: &Node, rng: &mut Rng) -> Vec<u8> {
    let mut out = String::new();
    let mut last = 0;
    let manner = rng.below(4);
    let mut span = || {
        last += 1;
        match manner {
            0 => rng.draw() as u32,
            1 => rng.below(3) as u32,
            _ => last,
        }
    };
    tree.write(&mut span, &mut out);
    out.into_bytes()
}

/// Lends longer tables at times, and message buffers of every kind.
fn lend(case: &mut Case, rng: &mut Rng) {
    if rng.once_in(4) {
        case.scratch_len += rng.below(20);
        case.types_len += rng.below(20);
    }
    if rng.once_in(2) {
        return;
    }
    let length = case.answer().message.len();
    case.message_len = match rng.below(4) {
        0 => length,
        1 => length.saturating_sub(1),
        2 => 0,
        _ => length + rng.below(50),
    };
}
