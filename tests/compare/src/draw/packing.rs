//! Calls of packing and unpacking.

use crate::call::{Call, Kind};
use crate::rng::Rng;

pub fn call(rng: &mut Rng, kind: Kind) -> Call {
    let numbers = match kind {
        Kind::Pack => [0; 4].map(|_: u64| exponent(rng)),
        _ => [word(rng), 0, 0, 0],
    };
    Call::on_numbers(kind, 0, numbers)
}

fn exponent(rng: &mut Rng) -> u64 {
    match rng.below(32) {
        0 => rng.pick(&[32_768, 65_535, 65_536, 1 << 32, 1 << 48, 1 << 63, u64::MAX]),
        1..=3 => 32_767,
        4..=6 => 0,
        _ => rng.below(32_768),
    }
}

/// Any word, one without guard bits, or one with a single guard bit.
fn word(rng: &mut Rng) -> u64 {
    let word = rng.word();
    let good = word & 0x7fff_7fff_7fff_7fff;
    match rng.below(4) {
        0 => word,
        1 => good | 0x8000 << (16 * rng.below(4)),
        _ => good,
    }
}
