//! The check of one polynomial.

use crate::raw;
use crate::report::Report;

/// Whether a slice is a polynomial modulo p, and its term count.
pub fn check(p: u64, a: &[u64]) -> Report {
    // SAFETY: `a` is borrowed for the whole call, which only reads it.
    unsafe { raw::garantepo_check(p, a.as_ptr(), a.len()) }
}
