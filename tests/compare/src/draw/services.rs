//! Calls of check, profile and run.

use crate::call::{Call, Kind};
use crate::moduli::Moduli;
use crate::polynomials::{any_shape, count, full, polynomial, words, Shape};
use crate::rng::Rng;

pub fn on_polynomial(rng: &mut Rng, moduli: &Moduli, kind: Kind) -> Call {
    let p = moduli.good(rng);
    let a = if rng.one_in(1_000) {
        full(rng, p)
    } else {
        let (shape, terms) = (any_shape(rng), count(rng));
        polynomial(rng, p, shape, terms)
    };
    let none = Vec::new;
    Call::on_arrays(kind, p, [words(&a), none(), none(), none(), none()])
}

pub fn run(rng: &mut Rng, moduli: &Moduli) -> Call {
    let mut call = on_polynomial(rng, moduli, Kind::Run);
    if rng.one_in(2) {
        let terms = rng.size(40);
        call.arrays[0] = words(&polynomial(rng, 101, Shape::Dense, terms));
    }
    call.numbers[0] = power(rng, &call.arrays[0]);
    call
}

/// A power that is there, one beside it, and one that is above every exponent but ends in its bits.
fn power(rng: &mut Rng, a: &[u64]) -> u64 {
    let there = match a.len() / 2 {
        0 => 0,
        terms => a[2 * rng.size(terms)] >> 48,
    };
    match rng.below(8) {
        0 => rng.below(5),
        1 => there + 1,
        2 => there + 65_536,
        3 => there | 1 << 63,
        4 => rng.pick(&[32_767, 32_768, u64::MAX]),
        _ => there,
    }
}
