//! Division with remainder.

use crate::packing::LARGEST_EXPONENT;
use crate::polynomial::{
    divide_term, greatest, largest_exponents, lead, multiply, over, read, subtract, times,
    Polynomial, Term,
};
use crate::refusals::{Faults, INPUT_TERMS, ROOM_TERMS};
use crate::report::{done, stopped, Report};
use crate::rooms::{clear, fill, places};

pub fn divide(
    p: u64,
    f: &[u64],
    g: &[u64],
    q: &mut [u64],
    r: &mut [u64],
    work: &mut [u64],
) -> Report {
    if let Some(refusal) = refusal(p, f, g, q, r, work) {
        return refusal;
    }
    clear(work);
    let walk = walk(p, &read(f), &read(g), places(q), places(r));
    if let Some(trouble) = walk.trouble {
        clear(q);
        clear(r);
        return stopped(trouble);
    }
    fill(q, &walk.quotient);
    fill(r, &walk.remainder);
    done(walk.quotient.len(), walk.remainder.len())
}

/// Where a walk ended, and the trouble that ended it, if any.
pub struct Walk {
    pub remains: Polynomial,
    pub quotient: Polynomial,
    pub remainder: Polynomial,
    pub trouble: Option<u64>,
}

/// The walk of RULES Division: the greatest term of what remains is handled until nothing remains, or
/// until trouble ends the walk. The divisor is not zero.
pub fn walk(p: u64, f: &Polynomial, g: &Polynomial, q_room: usize, r_room: usize) -> Walk {
    let mut walk = Walk {
        remains: f.clone(),
        quotient: Polynomial::new(),
        remainder: Polynomial::new(),
        trouble: None,
    };
    while let Some(term) = greatest(&walk.remains) {
        walk.trouble = match divide_term(p, term, lead(g)) {
            Some(quotient_term) => walk.put_in_quotient(p, quotient_term, g, q_room),
            None => walk.move_to_remainder(term, r_room),
        };
        if walk.trouble.is_some() {
            break;
        }
    }
    walk
}

impl Walk {
    /// 9 where the quotient term times g would have too big an exponent, then 10 where no place is
    /// left.
    fn put_in_quotient(
        &mut self,
        p: u64,
        (m, c): Term,
        g: &Polynomial,
        room: usize,
    ) -> Option<u64> {
        if over(multiply(m, largest_exponents(g)), [LARGEST_EXPONENT; 4]) {
            return Some(9);
        }
        if self.quotient.len() == room {
            return Some(10);
        }
        self.quotient.insert(m, c);
        subtract(
            &mut self.remains,
            p,
            &times(p, &Polynomial::from([(m, c)]), g),
        );
        None
    }

    /// 11 where no place is left.
    fn move_to_remainder(&mut self, (m, c): Term, room: usize) -> Option<u64> {
        if self.remainder.len() == room {
            return Some(11);
        }
        self.remains.remove(&m);
        self.remainder.insert(m, c);
        None
    }
}

/// RULES Work, of division and divide test.
pub fn least_work(q: &[u64]) -> usize {
    4 * places(q)
}

fn refusal(p: u64, f: &[u64], g: &[u64], q: &[u64], r: &[u64], work: &[u64]) -> Option<Report> {
    let mut faults = Faults::default();
    faults.modulus(p);
    faults.input(p, 1, f);
    faults.input(p, 2, g);
    faults.room(3, q, INPUT_TERMS);
    faults.room(4, r, ROOM_TERMS);
    faults.divisor(g);
    faults.work(work, least_work(q));
    faults.least()
}

#[cfg(test)]
mod tests {
    use super::*;
    use crate::polynomial::{divides, plus};

    /// A polynomial with as many terms as there are numbers, all small.
    fn small(numbers: &[u64]) -> Polynomial {
        let exponents = |n: u64| [n % 4, n / 4 % 4, n / 16 % 4, n / 64 % 2];
        numbers.iter().map(|&n| (exponents(n), 1 + n % 6)).collect()
    }

    #[test]
    fn quotient_and_remainder_make_up_the_dividend() {
        let p = 7;
        let f = small(&[3, 17, 38, 59, 71, 90, 110, 127]);
        for g in [small(&[5, 1]), small(&[66, 33, 20]), small(&[0])] {
            let walk = walk(p, &f, &g, 1_000, 1_000);
            assert_eq!(walk.trouble, None);
            let sum = plus(p, &times(p, &walk.quotient, &g), &walk.remainder);
            assert_eq!(sum, f);
            let (m, _) = lead(&g);
            assert!(walk.remainder.keys().all(|&n| !divides(m, n)));
        }
    }

    #[test]
    fn rooms_are_full_only_when_a_term_does_not_fit() {
        let f = Polynomial::from([([3, 0, 0, 0], 1), ([0; 4], 100)]);
        let g = Polynomial::from([([1, 0, 0, 0], 1), ([0; 4], 100)]);
        assert_eq!(walk(101, &f, &g, 3, 0).trouble, None);
        assert_eq!(walk(101, &f, &g, 2, 0).trouble, Some(10));
        let h = Polynomial::from([([2, 0, 0, 0], 1)]);
        assert_eq!(walk(101, &f, &h, 1, 1).trouble, None);
        assert_eq!(walk(101, &f, &h, 1, 0).trouble, Some(11));
    }

    #[test]
    fn nine_comes_before_ten() {
        let f = Polynomial::from([([2, 0, 0, 0], 1)]);
        let g = Polynomial::from([([1, 0, 0, 0], 1), ([0, 20_000, 0, 0], 100)]);
        assert_eq!(walk(101, &f, &g, 9, 9).trouble, Some(9));
        assert_eq!(walk(101, &f, &g, 1, 9).trouble, Some(9));
        assert_eq!(walk(101, &f, &g, 0, 9).trouble, Some(10));
    }
}
