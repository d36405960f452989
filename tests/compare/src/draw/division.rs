//! Calls of division and of the divide test.

use super::product::at_the_edge;
use crate::call::{Call, Kind};
use crate::moduli::Moduli;
use crate::polynomials::{
    any_shape, coefficient, count, dirty, full, inner_shape, monomial, nonzero, polynomial, power,
    room, words, work, Shape,
};
use crate::rng::Rng;
use second::division::{least_work, walk};
use second::packing::LARGEST_EXPONENT;
use second::polynomial::{add_term, largest_exponents, over, plus, times, Polynomial};
use second::refusals::INPUT_TERMS;

pub fn call(rng: &mut Rng, moduli: &Moduli, kind: Kind) -> Call {
    let p = moduli.good(rng);
    let (f, g) = pair(rng, p);
    let (q_terms, r_terms) = terms_of_walk(p, &f, &g);
    let q = if rng.one_in(500) {
        dirty(rng, 2 * INPUT_TERMS)
    } else {
        room(rng, q_terms)
    };
    let r = match kind {
        Kind::Divide => room(rng, r_terms),
        _ => Vec::new(),
    };
    let work = work(rng, least_work(&q));
    Call::on_arrays(kind, p, [words(&f), words(&g), q, r, work])
}

/// How many terms a walk in moderate rooms puts out.
fn terms_of_walk(p: u64, f: &Polynomial, g: &Polynomial) -> (usize, usize) {
    if g.is_empty() {
        return (f.len(), f.len());
    }
    let walk = walk(p, f, g, 200, 2_000);
    (walk.quotient.len(), walk.remainder.len())
}

/// A dividend and a divisor.
fn pair(rng: &mut Rng, p: u64) -> (Polynomial, Polynomial) {
    match rng.below(16) {
        0..=2 => multiple(rng, p),
        3 | 4 => near_multiple(rng, p),
        5 | 6 => with_remainder(rng, p),
        7 => powers(rng, p),
        8..=10 => runaway(rng, p),
        11 => itself(rng, p),
        12 => by_one_term(rng, p),
        _ => strangers(rng, p),
    }
}

/// A true multiple of its divisor, some with exponents up to the largest.
fn multiple(rng: &mut Rng, p: u64) -> (Polynomial, Polynomial) {
    let (a, g) = if rng.one_in(3) {
        at_the_edge(rng, p)
    } else {
        let shape = inner_shape(rng);
        let terms = count(rng);
        (polynomial(rng, p, shape, terms), nonzero(rng, p, shape))
    };
    let f = times(p, &a, &g);
    if over(largest_exponents(&f), [LARGEST_EXPONENT; 4]) {
        return (a, g);
    }
    (f, g)
}

/// A multiple with one term changed.
fn near_multiple(rng: &mut Rng, p: u64) -> (Polynomial, Polynomial) {
    let (mut f, g) = multiple(rng, p);
    let m = match f.len() {
        0 => monomial(rng, Shape::Dense),
        terms => *f.keys().nth(rng.size(terms)).expect("a term"),
    };
    add_term(&mut f, p, m, coefficient(rng, p));
    (f, g)
}

/// A multiple and a few terms more, of which some may be divided again.
fn with_remainder(rng: &mut Rng, p: u64) -> (Polynomial, Polynomial) {
    let (f, g) = multiple(rng, p);
    let shape = inner_shape(rng);
    let more = polynomial(rng, p, shape, 4);
    (plus(p, &f, &more), g)
}

/// m^n − 1 by m^k − 1.
fn powers(rng: &mut Rng, p: u64) -> (Polynomial, Polynomial) {
    let m = monomial(rng, Shape::Dense);
    let k = 1 + rng.below(4);
    let n = k * rng.below(50) + rng.below(8) / 7;
    let minus_one = |e: u64| {
        let mut a = Polynomial::from([(m.map(|f| f * e), 1)]);
        add_term(&mut a, p, [0; 4], p - 1);
        a
    };
    (minus_one(n), minus_one(k))
}

/// v^k, with or without a power of a lower letter w, by v − w^c: the exponents of w climb to k·c,
/// which lies about the largest exponent, or about that of the dividend.
fn runaway(rng: &mut Rng, p: u64) -> (Polynomial, Polynomial) {
    let v = rng.size(3);
    let w = v + 1 + rng.size(3 - v);
    let k = 1 + rng.below(8);
    let c = match rng.below(3) {
        0 => rng.below(6),
        1 => LARGEST_EXPONENT / k,
        _ => (LARGEST_EXPONENT / k + 1).min(LARGEST_EXPONENT),
    };
    let mut f = Polynomial::from([(power(v, k), 1)]);
    let mut g = Polynomial::from([(power(v, 1), 1)]);
    add_term(&mut g, p, power(w, c), p - 1);
    if rng.one_in(2) {
        let end = (k * c + rng.below(3)).clamp(1, LARGEST_EXPONENT + 1) - 1;
        add_term(&mut f, p, power(w, end), p - 1);
    }
    if rng.one_in(3) {
        add_term(&mut f, p, monomial(rng, Shape::Dense), coefficient(rng, p));
        add_term(&mut g, p, power(w, rng.below(4)), coefficient(rng, p));
    }
    (f, g)
}

/// A polynomial by itself, or zero by it.
fn itself(rng: &mut Rng, p: u64) -> (Polynomial, Polynomial) {
    let shape = any_shape(rng);
    let g = nonzero(rng, p, shape);
    if rng.one_in(3) {
        return (Polynomial::new(), g);
    }
    (g.clone(), g)
}

fn by_one_term(rng: &mut Rng, p: u64) -> (Polynomial, Polynomial) {
    let f = if rng.one_in(40) {
        full(rng, p)
    } else {
        let shape = any_shape(rng);
        nonzero(rng, p, shape)
    };
    (f, polynomial(rng, p, Shape::Dense, 1))
}

fn strangers(rng: &mut Rng, p: u64) -> (Polynomial, Polynomial) {
    let (s, t) = (any_shape(rng), inner_shape(rng));
    let (f_terms, g_terms) = (count(rng), rng.size(5));
    let f = polynomial(rng, p, s, f_terms);
    let g_shape = if rng.one_in(2) { s } else { t };
    (f, polynomial(rng, p, g_shape, g_terms))
}
