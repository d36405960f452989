//! The check of one polynomial.

use crate::refusals::Faults;
use crate::report::{done, Report};

/// RULES Check: a refusal 1 to 6, or the number of terms.
pub fn check(p: u64, a: &[u64]) -> Report {
    let mut faults = Faults::default();
    faults.modulus(p);
    faults.input(p, 1, a);
    faults.least().unwrap_or(done(a.len() / 2, 0))
}
