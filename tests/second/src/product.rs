//! The product of two polynomials.

use crate::packing::LARGEST_EXPONENT;
use crate::polynomial::{largest_exponents, multiply, over, read, times, Polynomial};
use crate::refusals::{Faults, ROOM_TERMS};
use crate::report::{done, stopped, Report};
use crate::rooms::{clear, fill, places};

pub fn product(p: u64, a: &[u64], b: &[u64], room: &mut [u64], work: &mut [u64]) -> Report {
    if let Some(refusal) = refusal(p, a, b, room, work) {
        return refusal;
    }
    clear(work);
    match true_product(p, &read(a), &read(b), places(room)) {
        Ok(product) => {
            fill(room, &product);
            done(product.len(), 0)
        }
        Err(number) => {
            clear(room);
            stopped(number)
        }
    }
}

/// RULES Product: zero, else 9 by the largest exponents, else 10 by the terms that are left.
fn true_product(p: u64, a: &Polynomial, b: &Polynomial, room: usize) -> Result<Polynomial, u64> {
    if a.is_empty() || b.is_empty() {
        return Ok(Polynomial::new());
    }
    let largest = multiply(largest_exponents(a), largest_exponents(b));
    if over(largest, [LARGEST_EXPONENT; 4]) {
        return Err(9);
    }
    let product = times(p, a, b);
    if product.len() > room {
        return Err(10);
    }
    Ok(product)
}

/// RULES Work, of the product.
pub fn least_work(a: &[u64], b: &[u64]) -> usize {
    4 * places(a).min(places(b))
}

fn refusal(p: u64, a: &[u64], b: &[u64], room: &[u64], work: &[u64]) -> Option<Report> {
    let mut faults = Faults::default();
    faults.modulus(p);
    faults.input(p, 1, a);
    faults.input(p, 2, b);
    faults.room(3, room, ROOM_TERMS);
    faults.work(work, least_work(a, b));
    faults.least()
}

#[cfg(test)]
mod tests {
    use super::*;

    fn x(n: u64) -> Polynomial {
        Polynomial::from([([n, 0, 0, 0], 1)])
    }

    #[test]
    fn exponents_may_reach_the_largest() {
        assert_eq!(true_product(101, &x(16_383), &x(16_384), 1), Ok(x(32_767)));
        assert_eq!(true_product(101, &x(32_767), &x(1), 1), Err(9));
        assert_eq!(true_product(101, &x(32_767), &x(1), 0), Err(9));
    }

    #[test]
    fn zero_needs_no_room_and_has_no_degrees() {
        let zero = Polynomial::new();
        assert_eq!(true_product(101, &x(32_767), &zero, 0), Ok(zero));
    }

    #[test]
    fn room_is_counted_after_cancellation() {
        let sum = Polynomial::from([([1, 0, 0, 0], 1), ([0, 1, 0, 0], 1)]);
        let difference = Polynomial::from([([1, 0, 0, 0], 1), ([0, 1, 0, 0], 100)]);
        let squares = Polynomial::from([([2, 0, 0, 0], 1), ([0, 2, 0, 0], 100)]);
        assert_eq!(true_product(101, &sum, &difference, 2), Ok(squares));
        assert_eq!(true_product(101, &sum, &difference, 1), Err(10));
    }
}
