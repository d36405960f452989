//! The difference of two polynomials.

use crate::raw;
use crate::report::Report;

/// The difference of `a` and `b` modulo p, in the room `out`.
pub fn difference(p: u64, a: &[u64], b: &[u64], out: &mut [u64]) -> Report {
    // SAFETY: all three are borrowed for the whole call, which only reads `a` and `b`; `out` is
    // borrowed alone, so it overlaps neither.
    unsafe {
        raw::garantepo_difference(
            p,
            a.as_ptr(),
            a.len(),
            b.as_ptr(),
            b.len(),
            out.as_mut_ptr(),
            out.len(),
        )
    }
}
