//! The run of one power of x.

use crate::packing::unpack;
use crate::refusals::Faults;
use std::ops::Range;

/// RULES Run: where the terms with this exponent of x are, in words.
pub fn run(a: &[u64], power: u64) -> Range<usize> {
    let mut faults = Faults::default();
    faults.shape(1, a);
    if faults.least().is_some() {
        return 0..0;
    }
    let has_power = |record: &[u64]| unpack(record[0]).exponents[0] == power;
    let Some(first) = a.chunks_exact(2).position(has_power) else {
        return 0..0;
    };
    let terms = a.chunks_exact(2).filter(|record| has_power(record)).count();
    2 * first..2 * (first + terms)
}

#[cfg(test)]
mod tests {
    use super::*;

    #[test]
    fn terms_of_one_power_lie_side_by_side() {
        let x = 1 << 48;
        // 0 and 500 are no coefficients; the run doesn't look at them.
        let a = [2 * x, 0, x + 5, 500, x + 1, 1, 3, 1];
        assert_eq!(run(&a, 2), 0..2);
        assert_eq!(run(&a, 1), 2..6);
        assert_eq!(run(&a, 0), 6..8);
        assert_eq!(run(&a, 3), 0..0);
        assert_eq!(run(&a, 65_537), 0..0);
        assert_eq!(run(&a[..7], 2), 0..0);
        assert_eq!(run(&[], 0), 0..0);
    }
}
