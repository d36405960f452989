//! The profile of a polynomial.

use crate::raw;
use crate::report::Report;

/// The term count, the largest exponents of x, y, z and t, and the largest total degree.
#[repr(C)]
#[derive(Clone, Copy, Debug, Default, PartialEq, Eq)]
pub struct Profile {
    pub terms: u64,
    pub exponents: [u64; 4],
    pub total: u64,
}

/// A profile beside its report; every number of it is 0 where the report refuses.
#[repr(C)]
#[derive(Clone, Copy, Debug, Default, PartialEq, Eq)]
pub struct Profiled {
    pub report: Report,
    pub profile: Profile,
}

/// The profile of a polynomial modulo p.
pub fn profile_of(p: u64, a: &[u64]) -> Profiled {
    // SAFETY: `a` is borrowed for the whole call, which only reads it.
    unsafe { raw::garantepo_profile_of(p, a.as_ptr(), a.len()) }
}
