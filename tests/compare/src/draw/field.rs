//! Calls of the single field operations.

use crate::call::{Call, Kind};
use crate::moduli::Moduli;
use crate::rng::Rng;

pub fn call(rng: &mut Rng, moduli: &Moduli, kind: Kind) -> Call {
    let p = moduli.good(rng);
    let numbers = match kind {
        Kind::Residue => [u64::from(signed(rng, p)), 0, 0, 0],
        _ => [residue(rng, p), residue(rng, p), 0, 0],
    };
    Call::on_numbers(kind, p, numbers)
}

/// Mostly below p, often at an end or just past it.
fn residue(rng: &mut Rng, p: u64) -> u64 {
    match rng.below(16) {
        0 => 0,
        1 => 1,
        2 => p.wrapping_sub(1),
        3 => p,
        4 => (p / 2) + rng.below(2),
        5 => rng.pick(&[p.wrapping_add(1), 1 << 32, (1 << 32) + 1, 1 << 63, u64::MAX]),
        _ => rng.below(p.max(1)),
    }
}

/// The bits of a signed 32-bit number.
fn signed(rng: &mut Rng, p: u64) -> u32 {
    let p = p as i32;
    let n = match rng.below(8) {
        0 => i32::MIN + rng.below(2) as i32,
        1 => i32::MAX - rng.below(2) as i32,
        2 => rng.below(3) as i32 - 1,
        3 => p.wrapping_neg(),
        4 => p,
        5 => (p / 2).wrapping_neg(),
        _ => rng.word() as i32,
    };
    n as u32
}
