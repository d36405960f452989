//! Division with remainder.

use crate::raw;
use crate::report::Report;

/// Divides `f` by `g` modulo p: the quotient in the room `q`, the remainder in the room `r`; for each
/// term that `q` can hold the work array has 4 words or more.
pub fn divide(
    p: u64,
    f: &[u64],
    g: &[u64],
    q: &mut [u64],
    r: &mut [u64],
    work: &mut [u64],
) -> Report {
    // SAFETY: all five are borrowed for the whole call, which only reads `f` and `g`; `q`, `r` and
    // `work` are borrowed alone, so they overlap nothing.
    unsafe {
        raw::garantepo_divide(
            p,
            f.as_ptr(),
            f.len(),
            g.as_ptr(),
            g.len(),
            q.as_mut_ptr(),
            q.len(),
            r.as_mut_ptr(),
            r.len(),
            work.as_mut_ptr(),
            work.len(),
        )
    }
}
