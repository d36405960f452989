//! The product of two polynomials.

use crate::raw;
use crate::report::Report;

/// The product of `a` and `b` modulo p, in the room `out`; for each term of the factor that has fewer
/// the work array has 4 words or more.
pub fn product(p: u64, a: &[u64], b: &[u64], out: &mut [u64], work: &mut [u64]) -> Report {
    // SAFETY: all four are borrowed for the whole call, which only reads `a` and `b`; `out` and
    // `work` are borrowed alone, so they overlap nothing.
    unsafe {
        raw::garantepo_product(
            p,
            a.as_ptr(),
            a.len(),
            b.as_ptr(),
            b.len(),
            out.as_mut_ptr(),
            out.len(),
            work.as_mut_ptr(),
            work.len(),
        )
    }
}
