//! Names and TEXTs worth trying.

use crate::rng::Rng;

/// Words the pass knows, digest words in mixed case, and shapes of names.
#[rustfmt::skip]
pub const NAMES: &[&str] = &[
    "set", "get", "contains", "insert", "remove", "credit", "debit", "merge", "split", "mint",
    "send", "mint_asset", "send_asset", "amount", "signer_bits", "first", "len", "deployer",
    "deploy_params", "hAsh_0", "Block_HASH", "Fingerprint", "merkleROOT", "commit", "a", "owner",
    "total", "level", "pool", "x1", "n0", "_", "_q", "z_z", "Balance", "state", "u8", "Map",
    "a_name_of_exactly_sixty_four_bytes_which_is_the_longest_one_0123",
];

/// Edges of the integer types, zeros and underscores, and the longest texts.
#[rustfmt::skip]
const EDGES: &[&str] = &[
    "0", "1", "_", "__", "0_0", "007", "1_0", "255", "256", "2_5_6", "65535", "65536",
    "4294967295", "4294967296", "18446744073709551615", "18446744073709551616",
    "340282366920938463463374607431768211455", "340282366920938463463374607431768211456",
    "0000000000000000000000000000000000000000000000000000000000000300",
    "9999999999999999999999999999999999999999999999999999999999999999",
];

pub fn text(rng: &mut Rng) -> String {
    match rng.below(2) {
        0 => rng.below(400).to_string(),
        _ => rng.pick(EDGES).to_string(),
    }
}

/// All names in random order, with one that holds no digest word at the place `plain`.
pub fn shuffled(rng: &mut Rng, plain: usize) -> Vec<&'static str> {
    let mut names = NAMES.to_vec();
    rng.shuffle(&mut names);
    let harmless = names.iter().position(|name| *name == "n0").expect("a listed name");
    names.swap(plain, harmless);
    names
}
