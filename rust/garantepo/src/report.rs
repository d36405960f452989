//! The report that every call on polynomials answers with.

/// The reply's number, the operand it blames, the index of a term, and the terms of the first and
/// the second output. Operands: 1 and 2 the inputs, 3 and 4 the outputs, 5 the work array, 0 none.
#[repr(C)]
#[derive(Clone, Copy, Debug, Default, PartialEq, Eq)]
pub struct Report {
    pub number: u64,
    pub operand: u64,
    pub index: u64,
    pub first: u64,
    pub second: u64,
}
