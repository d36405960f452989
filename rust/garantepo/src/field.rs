//! Numbers modulo p.

use crate::raw;

/// A reply's number and a value, which is 0 beside a refusal.
#[repr(C)]
#[derive(Clone, Copy, Debug, Default, PartialEq, Eq)]
pub struct Value {
    pub number: u64,
    pub value: u64,
}

/// A reply's number and a signed value, which is 0 beside a refusal.
#[repr(C)]
#[derive(Clone, Copy, Debug, Default, PartialEq, Eq)]
pub struct Balance {
    pub number: u64,
    pub value: i32,
}

/// The sum of two residues.
pub fn field_sum(p: u64, a: u64, b: u64) -> Value {
    // SAFETY: only numbers are passed.
    unsafe { raw::garantepo_field_sum(p, a, b) }
}

/// The product of two residues.
pub fn field_product(p: u64, a: u64, b: u64) -> Value {
    // SAFETY: only numbers are passed.
    unsafe { raw::garantepo_field_product(p, a, b) }
}

/// The inverse of a residue other than 0.
pub fn field_inverse(p: u64, a: u64) -> Value {
    // SAFETY: only numbers are passed.
    unsafe { raw::garantepo_field_inverse(p, a) }
}

/// The residue of a signed number, from 0 to p − 1: the way back from the balanced value.
pub fn residue(p: u64, n: i32) -> Value {
    // SAFETY: only numbers are passed.
    unsafe { raw::garantepo_residue(p, n) }
}

/// The balanced value of a residue c: c as long as 2c doesn't pass p, beyond that c − p.
pub fn balanced(p: u64, c: u64) -> Balance {
    // SAFETY: only numbers are passed.
    unsafe { raw::garantepo_balanced(p, c) }
}
