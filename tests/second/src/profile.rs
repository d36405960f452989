//! The profile of a polynomial.

use crate::check::check;
use crate::polynomial::{largest_exponents, largest_total, read, Monomial};
use crate::report::Report;

/// The numbers of RULES Profile, which are all 0 beside a refusal.
#[derive(Clone, Copy, Debug, Default, PartialEq, Eq)]
pub struct Profile {
    pub terms: u64,
    pub exponents: Monomial,
    pub total: u64,
}

/// The report is that of the check.
pub fn profile_of(p: u64, a: &[u64]) -> (Report, Profile) {
    let report = check(p, a);
    if report.number != 0 {
        return (report, Profile::default());
    }
    let polynomial = read(a);
    let profile = Profile {
        terms: polynomial.len() as u64,
        exponents: largest_exponents(&polynomial),
        total: largest_total(&polynomial),
    };
    (report, profile)
}
