//! The divide test.

use crate::division::least_work;
use crate::polynomial::{
    divide_term, greatest, largest_exponents, lead, multiply, over, read, subtract, times,
    Polynomial,
};
use crate::refusals::{Faults, INPUT_TERMS};
use crate::report::{done, stopped, Report};
use crate::rooms::{clear, fill, places};

pub fn divides(p: u64, f: &[u64], g: &[u64], q: &mut [u64], work: &mut [u64]) -> Report {
    if let Some(refusal) = refusal(p, f, g, q, work) {
        return refusal;
    }
    clear(work);
    match exact_quotient(p, &read(f), &read(g), places(q)) {
        Ok(quotient) => {
            fill(q, &quotient);
            done(quotient.len(), 0)
        }
        Err(number) => {
            clear(q);
            stopped(number)
        }
    }
}

/// The walk of RULES Divide test. Zero ends it at once, with quotient zero.
fn exact_quotient(p: u64, f: &Polynomial, g: &Polynomial, room: usize) -> Result<Polynomial, u64> {
    let mut remains = f.clone();
    let mut quotient = Polynomial::new();
    while let Some(term) = greatest(&remains) {
        // 12 where the lead monomial doesn't divide.
        let (m, c) = divide_term(p, term, lead(g)).ok_or(12u64)?;
        // 12 where the quotient term times g would have a higher degree than f, in some letter.
        if over(multiply(m, largest_exponents(g)), largest_exponents(f)) {
            return Err(12);
        }
        // 10 where no place is left.
        if quotient.len() == room {
            return Err(10);
        }
        quotient.insert(m, c);
        subtract(&mut remains, p, &times(p, &Polynomial::from([(m, c)]), g));
    }
    Ok(quotient)
}

fn refusal(p: u64, f: &[u64], g: &[u64], q: &[u64], work: &[u64]) -> Option<Report> {
    let mut faults = Faults::default();
    faults.modulus(p);
    faults.input(p, 1, f);
    faults.input(p, 2, g);
    faults.room(3, q, INPUT_TERMS);
    faults.divisor(g);
    faults.work(work, least_work(q));
    faults.least()
}

#[cfg(test)]
mod tests {
    use super::*;

    fn minus_one(n: u64) -> Polynomial {
        Polynomial::from([([n, 0, 0, 0], 1), ([0; 4], 100)])
    }

    #[test]
    fn a_product_is_divided_by_its_factor() {
        let a = Polynomial::from([([4, 0, 0, 1], 2), ([3, 0, 5, 0], 3), ([1, 0, 0, 0], 4)]);
        let b = Polynomial::from([([0, 5, 0, 0], 1), ([0, 3, 3, 3], 5), ([0; 4], 7)]);
        assert_eq!(exact_quotient(101, &times(101, &a, &b), &a, 3), Ok(b));
    }

    #[test]
    fn no_and_no_room_are_told_apart() {
        assert_eq!(
            exact_quotient(101, &minus_one(3), &minus_one(1), 2),
            Err(10)
        );
        assert_eq!(
            exact_quotient(101, &minus_one(3), &minus_one(2), 2),
            Err(12)
        );
        // The walk would meet "no" only at its second term, which the room stops before.
        assert_eq!(
            exact_quotient(101, &minus_one(3), &minus_one(2), 0),
            Err(10)
        );
    }

    #[test]
    fn the_degrees_of_the_dividend_stop_the_walk() {
        let f = Polynomial::from([([2, 0, 0, 0], 1)]);
        let g = Polynomial::from([([1, 0, 0, 0], 1), ([0, 1, 0, 0], 100)]);
        assert_eq!(exact_quotient(101, &f, &g, 0), Err(12));
    }
}
