//! Good and bad moduli.

use crate::rng::Rng;
use second::field::is_modulus;

const SMALL: [u64; 8] = [2, 2, 3, 5, 7, 13, 101, 101];
const MIDDLE: [u64; 5] = [251, 32_003, 46_337, 65_521, 65_537];
const LARGE: [u64; 3] = [2_147_483_647, 2_147_483_629, 1_073_741_827];

/// No primes in range: the ends of the range, squares of primes, Carmichael numbers with small
/// factors and with large ones only, strong pseudoprimes to several bases,
/// primes past the range, and numbers whose lower half is a prime.
const BAD: [u64; 47] = [
    0,
    1,
    4,
    6,
    9,
    25,
    49,
    100,
    10_201,
    1_024_192_009,
    2_147_117_569,
    2_148_229_801,
    561,
    1_105,
    1_729,
    2_465,
    2_821,
    6_601,
    8_911,
    41_041,
    825_265,
    321_197_185,
    29_341,
    46_657,
    252_601,
    56_052_361,
    118_901_521,
    1_299_963_601,
    960_946_321,
    2_047,
    1_373_653,
    25_326_001,
    3_215_031_751,
    2_147_483_646,
    2_147_483_648,
    2_147_483_659,
    4_294_967_291,
    1 << 32,
    (1 << 32) + 2,
    (1 << 32) + 101,
    (1 << 33) + 32_003,
    1 << 63,
    (1 << 63) + 101,
    (1 << 63) - 25,
    u64::MAX - 58,
    u64::MAX - 1,
    u64::MAX,
];

/// Large primes are slow to find, so that some are drawn once for each seed.
pub struct Moduli {
    primes: Vec<u64>,
}

impl Moduli {
    pub fn new(seed: u64) -> Self {
        let mut rng = Rng::new(seed, u64::MAX);
        let mut primes = Vec::new();
        while primes.len() < 64 {
            let bits = 2 + rng.below(30);
            let p = rng.below(1 << bits);
            if is_modulus(p) {
                primes.push(p);
            }
        }
        Moduli { primes }
    }

    /// A prime in range; the large ones are rare, because a prime test by division is slow there.
    pub fn good(&self, rng: &mut Rng) -> u64 {
        match rng.below(32) {
            0..=19 => rng.pick(&SMALL),
            20..=27 => rng.pick(&MIDDLE),
            28..=30 => rng.pick(&self.primes),
            _ => rng.pick(&LARGE),
        }
    }

    pub fn bad(rng: &mut Rng) -> u64 {
        match rng.below(4) {
            0 => rng.word() << 1,
            1 => rng.word() | 1 << 31,
            _ => rng.pick(&BAD),
        }
    }
}

#[cfg(test)]
mod tests {
    use super::*;

    #[test]
    fn good_and_bad_are_what_they_say() {
        let good = SMALL.iter().chain(&MIDDLE).chain(&LARGE);
        assert!(good.copied().all(is_modulus));
        assert!(!BAD.iter().copied().any(is_modulus));
    }
}
