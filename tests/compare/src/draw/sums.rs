//! Calls of sum and difference.

use crate::call::{Call, Kind};
use crate::moduli::Moduli;
use crate::polynomials::{any_shape, count, full, polynomial, room, words, Shape};
use crate::rng::Rng;
use second::polynomial::{minus, plus, Polynomial};

pub fn call(rng: &mut Rng, moduli: &Moduli, kind: Kind) -> Call {
    let p = moduli.good(rng);
    let (a, b) = pair(rng, p);
    let result = match kind {
        Kind::Sum => plus(p, &a, &b),
        _ => minus(p, &a, &b),
    };
    let room = room(rng, result.len());
    let arrays = [words(&a), words(&b), room, Vec::new(), Vec::new()];
    Call::on_arrays(kind, p, arrays)
}

/// Two polynomials that share many monomials, or few; some cancel each other nearly or wholly.
fn pair(rng: &mut Rng, p: u64) -> (Polynomial, Polynomial) {
    let shape = any_shape(rng);
    let a = some(rng, p, shape);
    let b = some(rng, p, shape);
    let zero = Polynomial::new();
    match rng.below(8) {
        0 => (a.clone(), a),
        1 => (a.clone(), minus(p, &zero, &a)),
        2 => (a.clone(), plus(p, &a, &polynomial(rng, p, shape, 2))),
        3 => (a.clone(), minus(p, &polynomial(rng, p, shape, 2), &a)),
        _ => (a, b),
    }
}

fn some(rng: &mut Rng, p: u64, shape: Shape) -> Polynomial {
    if rng.one_in(1_000) {
        return full(rng, p);
    }
    let terms = count(rng);
    polynomial(rng, p, shape, terms)
}
