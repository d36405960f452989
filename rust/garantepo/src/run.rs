//! The run of one power of x.

use crate::raw;

/// From one word of a slice up to another.
#[repr(C)]
#[derive(Clone, Copy)]
pub(crate) struct Part {
    start: usize,
    end: usize,
}

/// The terms of `a` with this power of x, which lie side by side; the empty part at the front where
/// no term has it, or where `a` is no polynomial in falling order.
pub fn run(a: &[u64], power: u64) -> &[u64] {
    // SAFETY: `a` is borrowed for the whole call, which only reads it.
    let part = unsafe { raw::garantepo_run(a.as_ptr(), a.len(), power) };
    &a[part.start..part.end]
}
