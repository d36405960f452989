//! Random polynomials, and the arrays they are lent in.

use crate::rng::Rng;
use second::polynomial::{add_term, Monomial, Polynomial};
use second::refusals::INPUT_TERMS;
use second::rooms;

/// What the monomials of a polynomial look like.
#[derive(Clone, Copy)]
pub enum Shape {
    /// Small exponents, so that terms meet and cancel.
    Dense,
    /// A single letter.
    Letter(usize),
    Middle,
    /// Sparse, as in formulas; two of them can still be multiplied.
    Wide,
    /// Exponents at both ends of the range and in its middle.
    Edge,
}

const EDGES: [u64; 8] = [0, 0, 1, 2, 16_383, 16_384, 32_766, 32_767];

/// A shape whose products stay in the range of exponents.
pub fn inner_shape(rng: &mut Rng) -> Shape {
    match rng.below(8) {
        0..=3 => Shape::Dense,
        4 | 5 => Shape::Letter(rng.size(4)),
        6 => Shape::Middle,
        _ => Shape::Wide,
    }
}

pub fn any_shape(rng: &mut Rng) -> Shape {
    if rng.one_in(5) {
        Shape::Edge
    } else {
        inner_shape(rng)
    }
}

pub fn monomial(rng: &mut Rng, shape: Shape) -> Monomial {
    match shape {
        Shape::Dense => [0; 4].map(|_: u64| rng.below(4)),
        Shape::Letter(v) => power(v, rng.below(24)),
        Shape::Middle => [0; 4].map(|_: u64| rng.below(200)),
        Shape::Wide => [0; 4].map(|_: u64| rng.below(16_001)),
        Shape::Edge => [0; 4].map(|_: u64| rng.pick(&EDGES)),
    }
}

/// The letter v to the power e.
pub fn power(v: usize, e: u64) -> Monomial {
    let mut m = [0; 4];
    m[v] = e;
    m
}

/// A coefficient from 1 to p − 1, often at one of its ends.
pub fn coefficient(rng: &mut Rng, p: u64) -> u64 {
    match rng.below(4) {
        0 => 1,
        1 => p - 1,
        _ => 1 + rng.below(p - 1),
    }
}

/// A polynomial of at most so many terms.
pub fn polynomial(rng: &mut Rng, p: u64, shape: Shape, terms: usize) -> Polynomial {
    let mut a = Polynomial::new();
    for _ in 0..terms {
        let m = monomial(rng, shape);
        add_term(&mut a, p, m, coefficient(rng, p));
    }
    a
}

/// A number of terms: mostly few, sometimes many.
pub fn count(rng: &mut Rng) -> usize {
    match rng.below(40) {
        0..=29 => rng.size(7),
        30..=37 => rng.size(16),
        _ => rng.size(60),
    }
}

/// A polynomial of some number of terms that is not zero.
pub fn nonzero(rng: &mut Rng, p: u64, shape: Shape) -> Polynomial {
    let terms = 1 + count(rng);
    let mut a = polynomial(rng, p, shape, terms);
    if a.is_empty() {
        a.insert(monomial(rng, shape), coefficient(rng, p));
    }
    a
}

/// As many terms as an input may have.
pub fn full(rng: &mut Rng, p: u64) -> Polynomial {
    let terms = 0..INPUT_TERMS as u64;
    terms
        .map(|i| ([i / 512, i / 64 % 8, i / 8 % 8, i % 8], coefficient(rng, p)))
        .collect()
}

/// The words of a polynomial.
pub fn words(a: &Polynomial) -> Vec<u64> {
    let mut words = vec![0; 2 * a.len()];
    rooms::fill(&mut words, a);
    words
}

/// An array as it was left by somebody else.
pub fn dirty(rng: &mut Rng, length: usize) -> Vec<u64> {
    if rng.one_in(8) {
        return vec![u64::MAX; length];
    }
    (0..length).map(|_| rng.word()).collect()
}

/// A room for a result of n terms: exact, one short, one more, shorter, longer, and rarely longer than
/// an input may be.
pub fn room(rng: &mut Rng, n: usize) -> Vec<u64> {
    if rng.one_in(1_000) {
        let terms = INPUT_TERMS + rng.size(100);
        return dirty(rng, 2 * terms);
    }
    let terms = match rng.below(8) {
        0..=2 => n,
        3 => n.saturating_sub(1),
        4 => n + 1,
        5 => rng.size(n + 1),
        _ => n + rng.size(20),
    };
    dirty(rng, 2 * terms)
}

/// A work array about its least length; any length is good that is not below it.
pub fn work(rng: &mut Rng, least: usize) -> Vec<u64> {
    let length = match rng.below(16) {
        0 => least.saturating_sub(1),
        1..=3 => least + 1 + rng.size(9),
        _ => least,
    };
    dirty(rng, length)
}
