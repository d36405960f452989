//! Packing and unpacking of a monomial.

use crate::field::Value;
use crate::raw;

/// A reply's number and the exponents of x, y, z and t, four zeros beside a refusal.
#[repr(C)]
#[derive(Clone, Copy, Debug, Default, PartialEq, Eq)]
pub struct Exponents {
    pub number: u64,
    pub exponents: [u64; 4],
}

/// The monomial word of four exponents, each at most 32,767.
pub fn pack(x: u64, y: u64, z: u64, t: u64) -> Value {
    // SAFETY: only numbers are passed.
    unsafe { raw::garantepo_pack(x, y, z, t) }
}

/// The four exponents of a monomial word.
pub fn unpack(word: u64) -> Exponents {
    // SAFETY: only a number is passed.
    unsafe { raw::garantepo_unpack(word) }
}
