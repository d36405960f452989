//! The polynomials of the tasks, the same in every run.

use std::collections::BTreeMap;

/// The modulus of every task.
pub const P: u64 = 32_003;

/// Each exponent of a random term is at most this, so that a product of two stays in range.
const MOST: u64 = 16_000;

/// Random numbers by SplitMix64, from a fixed start.
pub struct Rng {
    state: u64,
}

impl Rng {
    pub fn new(seed: u64) -> Self {
        Rng { state: seed }
    }

    fn below(&mut self, n: u64) -> u64 {
        self.state = self.state.wrapping_add(0x9e37_79b9_7f4a_7c15);
        let mut z = self.state;
        z = (z ^ (z >> 30)).wrapping_mul(0xbf58_476d_1ce4_e5b9);
        z = (z ^ (z >> 27)).wrapping_mul(0x94d0_49bb_1331_11eb);
        (z ^ (z >> 31)) % n
    }
}

/// A random polynomial of so many terms.
pub fn sparse(rng: &mut Rng, terms: usize) -> Vec<u64> {
    sparse_below(rng, terms, MOST + 1)
}

/// The same with exponents of x below a bound.
pub fn sparse_below(rng: &mut Rng, terms: usize, x: u64) -> Vec<u64> {
    let mut a = BTreeMap::new();
    while a.len() < terms {
        let bounds = [x, MOST + 1, MOST + 1, MOST + 1];
        let m = bounds
            .iter()
            .fold(0, |word, &bound| word << 16 | rng.below(bound));
        a.insert(m, 1 + rng.below(P - 1));
    }
    words(&a)
}

/// The product of two polynomials, by the schoolbook.
pub fn product(a: &[u64], b: &[u64]) -> Vec<u64> {
    let mut product = BTreeMap::new();
    for r in a.chunks_exact(2) {
        for s in b.chunks_exact(2) {
            let sum = product.entry(r[0] + s[0]).or_insert(0);
            *sum = (*sum + r[1] * s[1]) % P;
        }
    }
    product.retain(|_, c| *c != 0);
    words(&product)
}

/// The sum of two polynomials that share no monomial.
pub fn disjoint_sum(a: &[u64], b: &[u64]) -> Vec<u64> {
    let terms = a.chunks_exact(2).chain(b.chunks_exact(2));
    words(&terms.map(|r| (r[0], r[1])).collect())
}

/// x + a·y + b·z + c·t + d to a power.
pub fn dense_power(k: u32, [a, b, c, d]: [u64; 4]) -> Vec<u64> {
    let base = [1 << 48, 1, 1 << 32, a, 1 << 16, b, 1, c, 0, d];
    (0..k).fold(vec![0, 1], |power, _| product(&power, &base))
}

/// x^n − 1.
pub fn minus_one(n: u64) -> Vec<u64> {
    vec![n << 48, 1, 0, P - 1]
}

fn words(a: &BTreeMap<u64, u64>) -> Vec<u64> {
    a.iter().rev().flat_map(|(&m, &c)| [m, c]).collect()
}
