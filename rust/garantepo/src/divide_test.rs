//! The divide test.

use crate::raw;
use crate::report::Report;

/// Whether `g` divides `f` modulo p, with the quotient in the room `q`; for each term that `q` can
/// hold the work array has 4 words or more.
pub fn divides(p: u64, f: &[u64], g: &[u64], q: &mut [u64], work: &mut [u64]) -> Report {
    // SAFETY: all four are borrowed for the whole call, which only reads `f` and `g`; `q` and `work`
    // are borrowed alone, so they overlap nothing.
    unsafe {
        raw::garantepo_divides(
            p,
            f.as_ptr(),
            f.len(),
            g.as_ptr(),
            g.len(),
            q.as_mut_ptr(),
            q.len(),
            work.as_mut_ptr(),
            work.len(),
        )
    }
}
