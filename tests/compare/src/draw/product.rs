//! Calls of the product.

use crate::call::{Call, Kind};
use crate::moduli::Moduli;
use crate::polynomials::{
    any_shape, coefficient, count, full, inner_shape, monomial, polynomial, power, room, words,
    work, Shape,
};
use crate::rng::Rng;
use second::packing::LARGEST_EXPONENT;
use second::polynomial::{add_term, minus, plus, times, Polynomial};
use second::product::least_work;

pub fn call(rng: &mut Rng, moduli: &Moduli) -> Call {
    let p = moduli.good(rng);
    let (a, b) = factors(rng, p);
    let room = room(rng, times(p, &a, &b).len());
    let (a, b) = (words(&a), words(&b));
    let work = work(rng, least_work(&a, &b));
    Call::on_arrays(Kind::Product, p, [a, b, room, Vec::new(), work])
}

fn factors(rng: &mut Rng, p: u64) -> (Polynomial, Polynomial) {
    if rng.one_in(2_000) {
        return one_full(rng, p);
    }
    match rng.below(10) {
        0 => conjugates(rng, p),
        1 => stair(rng, p),
        2 => {
            let shape = inner_shape(rng);
            let a = some(rng, p, shape);
            (a.clone(), a)
        }
        3 | 4 => at_the_edge(rng, p),
        5 => {
            let (s, t) = (any_shape(rng), any_shape(rng));
            (some(rng, p, s), some(rng, p, t))
        }
        _ => {
            let shape = inner_shape(rng);
            (some(rng, p, shape), some(rng, p, shape))
        }
    }
}

fn some(rng: &mut Rng, p: u64, shape: Shape) -> Polynomial {
    let terms = count(rng);
    polynomial(rng, p, shape, terms)
}

/// One factor with as many terms as it may have, the other with few.
fn one_full(rng: &mut Rng, p: u64) -> (Polynomial, Polynomial) {
    let shape = inner_shape(rng);
    let (a, b) = (full(rng, p), polynomial(rng, p, shape, 8));
    if rng.one_in(2) {
        (a, b)
    } else {
        (b, a)
    }
}

/// u + v and u − v: the mixed products cancel.
fn conjugates(rng: &mut Rng, p: u64) -> (Polynomial, Polynomial) {
    let shape = inner_shape(rng);
    let (u, v) = (some(rng, p, shape), some(rng, p, shape));
    (plus(p, &u, &v), minus(p, &u, &v))
}

/// 1 + m + m² + … and m − 1: all but two of the products cancel.
fn stair(rng: &mut Rng, p: u64) -> (Polynomial, Polynomial) {
    let m = monomial(rng, Shape::Dense);
    let steps = 1 + rng.below(40);
    let mut stairs = Polynomial::new();
    for i in 0..steps {
        add_term(&mut stairs, p, m.map(|e| e * i), 1);
    }
    let mut step = Polynomial::from([(m, 1)]);
    add_term(&mut step, p, [0; 4], p - 1);
    (stairs, step)
}

/// Two factors whose largest exponents of one letter add up to 32,767, or to one less or one more.
pub fn at_the_edge(rng: &mut Rng, p: u64) -> (Polynomial, Polynomial) {
    let shape = Shape::Dense;
    let (mut a, mut b) = (some(rng, p, shape), some(rng, p, shape));
    let v = rng.size(4);
    let somewhere = 4 + rng.below(32_760);
    let high = rng.pick(&[4, 16_383, 16_384, 32_760, somewhere]);
    let rest = LARGEST_EXPONENT - 1 + rng.below(3) - high;
    add_term(&mut a, p, power(v, high), coefficient(rng, p));
    add_term(&mut b, p, power(v, rest), coefficient(rng, p));
    (a, b)
}
