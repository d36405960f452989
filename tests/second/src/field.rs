//! The single field operations, and the arithmetic modulo p that the other calls use.

/// RULES Single numbers: a reply and a value, 0 where it is refused.
#[derive(Clone, Copy, Debug, PartialEq, Eq)]
pub struct Value {
    pub number: u64,
    pub value: u64,
}

/// The same with the value of RULES Balanced.
#[derive(Clone, Copy, Debug, PartialEq, Eq)]
pub struct Balance {
    pub number: u64,
    pub value: i32,
}

/// RULES Limits: p is in range, and no d from 2 on whose square is at most p divides it.
pub fn is_modulus(p: u64) -> bool {
    if !(2..=2_147_483_647).contains(&p) {
        return false;
    }
    let mut d = 2;
    while d * d <= p {
        if p % d == 0 {
            return false;
        }
        d += 1;
    }
    true
}

/// RULES Field: 1 before 6.
fn refusal(p: u64, operands: &[u64]) -> Option<u64> {
    if !is_modulus(p) {
        return Some(1);
    }
    if operands.iter().any(|&a| a >= p) {
        return Some(6);
    }
    None
}

fn answer(refusal: Option<u64>, value: impl FnOnce() -> u64) -> Value {
    match refusal {
        Some(number) => Value { number, value: 0 },
        None => Value {
            number: 0,
            value: value(),
        },
    }
}

pub fn sum(p: u64, a: u64, b: u64) -> Value {
    answer(refusal(p, &[a, b]), || (a + b) % p)
}

pub fn product(p: u64, a: u64, b: u64) -> Value {
    answer(refusal(p, &[a, b]), || a * b % p)
}

/// 0 has no inverse, which is 6 too.
pub fn inverse(p: u64, a: u64) -> Value {
    let zero = if a == 0 { Some(6) } else { None };
    answer(refusal(p, &[a]).or(zero), || inverse_modulo(p, a))
}

/// RULES Balanced.
pub fn balanced(p: u64, c: u64) -> Balance {
    if let Some(number) = refusal(p, &[c]) {
        return Balance { number, value: 0 };
    }
    let signed = c as i64;
    let value = if 2 * c <= p {
        signed
    } else {
        signed - p as i64
    };
    Balance {
        number: 0,
        value: value as i32,
    }
}

/// The way back of RULES Balanced.
pub fn residue(p: u64, n: i32) -> Value {
    answer(refusal(p, &[]), || i64::from(n).rem_euclid(p as i64) as u64)
}

/// By Fermat: a to the power p − 2 is the inverse of a.
pub fn inverse_modulo(p: u64, a: u64) -> u64 {
    let mut result = 1;
    let mut square = a % p;
    let mut power = p - 2;
    while power > 0 {
        if power % 2 == 1 {
            result = result * square % p;
        }
        square = square * square % p;
        power /= 2;
    }
    result % p
}

#[cfg(test)]
mod tests {
    use super::*;

    #[test]
    fn primes_are_those_with_two_divisors() {
        for p in 0..500 {
            let divisors = (1..=p).filter(|d| p % d == 0).count();
            assert_eq!(is_modulus(p), divisors == 2, "{p}");
        }
    }

    #[test]
    fn the_range_ends_at_the_largest_31_bit_number() {
        assert!(is_modulus(2_147_483_647));
        // A prime, but past the range.
        assert!(!is_modulus(2_147_483_659));
        assert!(!is_modulus(u64::MAX));
    }

    #[test]
    fn an_inverse_times_its_number_is_one() {
        for p in [2, 3, 5, 101, 251] {
            for a in 1..p {
                let inverse = inverse(p, a).value;
                assert!(inverse < p);
                assert_eq!(inverse * a % p, 1);
            }
        }
        let p = 2_147_483_647;
        assert_eq!(inverse(p, p - 1).value, p - 1);
        assert_eq!(inverse(p, 2).value, 1 << 30);
    }

    #[test]
    fn balanced_values_come_back() {
        for p in [2, 3, 101] {
            for c in 0..p {
                let n = balanced(p, c).value;
                assert!(2 * i64::from(n).abs() <= p as i64);
                assert_eq!(residue(p, n).value, c);
            }
        }
        assert_eq!(residue(3, i32::MIN).value, 1);
        assert_eq!(residue(2_147_483_647, i32::MIN).value, 2_147_483_646);
    }

    #[test]
    fn refusals_in_their_order() {
        let refused = |number| Value { number, value: 0 };
        assert_eq!(sum(4, 9, 9), refused(1));
        assert_eq!(sum(5, 1, 5), refused(6));
        assert_eq!(product(5, 5, 1), refused(6));
        assert_eq!(inverse(5, 0), refused(6));
        assert_eq!(inverse(1, 0), refused(1));
        assert_eq!(balanced(5, 5).number, 6);
        assert_eq!(residue(9, -1), refused(1));
    }
}
