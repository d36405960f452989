//! Polynomials as maps, and the arithmetic of the textbook ring on them.

use crate::field::inverse_modulo;
use crate::packing;
use std::collections::BTreeMap;

/// The exponents of x, y, z and t. Two arrays compare letter by letter from the front, which is the
/// lexicographic order of RULES Order.
pub type Monomial = [u64; 4];

/// The coefficient at each monomial that has one; a coefficient of 0 is never kept.
pub type Polynomial = BTreeMap<Monomial, u64>;

/// A monomial with its coefficient.
pub type Term = (Monomial, u64);

/// The polynomial in a slice that has passed the refusals 1 to 6.
pub fn read(words: &[u64]) -> Polynomial {
    words
        .chunks_exact(2)
        .map(|record| (packing::unpack(record[0]).exponents, record[1]))
        .collect()
}

/// Adds one term, modulo p.
pub fn add_term(a: &mut Polynomial, p: u64, m: Monomial, c: u64) {
    let sum = (a.get(&m).copied().unwrap_or(0) + c) % p;
    if sum == 0 {
        a.remove(&m);
    } else {
        a.insert(m, sum);
    }
}

pub fn plus(p: u64, a: &Polynomial, b: &Polynomial) -> Polynomial {
    let mut sum = a.clone();
    for (&m, &c) in b {
        add_term(&mut sum, p, m, c);
    }
    sum
}

pub fn minus(p: u64, a: &Polynomial, b: &Polynomial) -> Polynomial {
    let mut difference = a.clone();
    subtract(&mut difference, p, b);
    difference
}

pub fn subtract(a: &mut Polynomial, p: u64, b: &Polynomial) {
    for (&m, &c) in b {
        add_term(a, p, m, p - c);
    }
}

/// RULES Ring: every pair of terms adds to the coefficient at the product of their monomials.
pub fn times(p: u64, a: &Polynomial, b: &Polynomial) -> Polynomial {
    let mut product = Polynomial::new();
    for (&m, &c) in a {
        for (&n, &d) in b {
            add_term(&mut product, p, multiply(m, n), c * d % p);
        }
    }
    product
}

/// The greatest term, if there is one.
pub fn greatest(a: &Polynomial) -> Option<Term> {
    a.last_key_value().map(|(&m, &c)| (m, c))
}

/// The lead term of a divisor, which refusal 7 has shown not to be zero.
pub fn lead(g: &Polynomial) -> Term {
    greatest(g).expect("a divisor is not zero")
}

/// One term divided by another, if its monomial divides.
pub fn divide_term(p: u64, (n, d): Term, (m, c): Term) -> Option<Term> {
    divides(m, n).then(|| (quotient(n, m), d * inverse_modulo(p, c) % p))
}

/// RULES Largest: M(a, v) for each letter v, and 0 where a is zero.
pub fn largest_exponents(a: &Polynomial) -> Monomial {
    let mut largest = [0; 4];
    for m in a.keys() {
        for v in 0..4 {
            largest[v] = largest[v].max(m[v]);
        }
    }
    largest
}

/// The largest sum of the four exponents of one term.
pub fn largest_total(a: &Polynomial) -> u64 {
    a.keys().map(|m| m.iter().sum()).max().unwrap_or(0)
}

pub fn multiply(m: Monomial, n: Monomial) -> Monomial {
    [m[0] + n[0], m[1] + n[1], m[2] + n[2], m[3] + n[3]]
}

/// RULES Divisibility: m divides n.
pub fn divides(m: Monomial, n: Monomial) -> bool {
    (0..4).all(|v| m[v] <= n[v])
}

/// n divided by m, where m divides n.
pub fn quotient(n: Monomial, m: Monomial) -> Monomial {
    [n[0] - m[0], n[1] - m[1], n[2] - m[2], n[3] - m[3]]
}

/// Some exponent of m is over its bound.
pub fn over(m: Monomial, bounds: Monomial) -> bool {
    (0..4).any(|v| m[v] > bounds[v])
}

#[cfg(test)]
mod tests {
    use super::*;

    fn x(n: u64) -> Monomial {
        [n, 0, 0, 0]
    }

    #[test]
    fn a_term_that_cancels_is_gone() {
        let mut a = Polynomial::from([(x(1), 40), (x(0), 1)]);
        add_term(&mut a, 101, x(1), 61);
        assert_eq!(a, Polynomial::from([(x(0), 1)]));
    }

    #[test]
    fn difference_undoes_sum() {
        let a = Polynomial::from([(x(5), 3), (x(2), 100), (x(0), 7)]);
        let b = Polynomial::from([(x(5), 98), (x(1), 1), (x(0), 7)]);
        assert_eq!(minus(101, &plus(101, &a, &b), &b), a);
        assert_eq!(minus(101, &a, &a), Polynomial::new());
    }

    #[test]
    fn squares_modulo_two_lose_the_middle_term() {
        let a = Polynomial::from([(x(1), 1), (x(0), 1)]);
        assert_eq!(times(2, &a, &a), Polynomial::from([(x(2), 1), (x(0), 1)]));
    }

    #[test]
    fn a_product_takes_the_values_of_its_factors() {
        let p = 10_007;
        let a = Polynomial::from([([3, 1, 0, 2], 5), ([0, 4, 1, 0], 9_999), ([0; 4], 8)]);
        let b = Polynomial::from([([2, 0, 2, 1], 10_006), ([1, 1, 1, 1], 77)]);
        let at = [3, 1_000, 29, 9_001];
        let product = value(p, &a, at) * value(p, &b, at) % p;
        assert_eq!(value(p, &times(p, &a, &b), at), product);
    }

    fn value(p: u64, a: &Polynomial, at: [u64; 4]) -> u64 {
        let mut sum = 0;
        for (m, &c) in a {
            let mut term = c;
            for v in 0..4 {
                for _ in 0..m[v] {
                    term = term * at[v] % p;
                }
            }
            sum = (sum + term) % p;
        }
        sum
    }

    #[test]
    fn x_stands_above_any_power_of_y() {
        let a = Polynomial::from([([0, 32_767, 0, 0], 1), (x(1), 2)]);
        assert_eq!(greatest(&a), Some((x(1), 2)));
    }

    #[test]
    fn division_of_monomials_looks_at_each_letter() {
        assert!(!divides([0, 5, 0, 0], x(1)));
        assert!(divides([1, 0, 2, 0], [1, 7, 2, 0]));
        assert_eq!(quotient([1, 7, 2, 0], [1, 0, 2, 0]), [0, 7, 0, 0]);
    }

    #[test]
    fn degrees_of_zero_are_zero() {
        let a = Polynomial::from([([9, 0, 0, 1], 1), ([0, 8, 1, 1], 1)]);
        assert_eq!(largest_exponents(&a), [9, 8, 1, 1]);
        assert_eq!(largest_total(&a), 10);
        assert_eq!(largest_exponents(&Polynomial::new()), [0; 4]);
        assert_eq!(largest_total(&Polynomial::new()), 0);
    }
}
