//! The numbers that a call answers with, under the names that `include/garantepo.h` has for them.

/// Done; the divide test: yes.
pub const DONE: u64 = 0;
/// The modulus is no prime, or over its limit.
pub const BAD_MODULUS: u64 = 1;
/// An input or output has an odd number of words.
pub const ODD_LENGTH: u64 = 2;
/// An input or room has more terms than its limit.
pub const TOO_LONG: u64 = 3;
/// A guard bit is set, or an exponent to be packed is over its limit.
pub const BAD_MONOMIAL: u64 = 4;
/// A monomial word is as large as the one before it, or larger.
pub const BAD_ORDER: u64 = 5;
/// A coefficient is 0, or the modulus, or larger.
pub const BAD_COEFFICIENT: u64 = 6;
/// The divisor is zero.
pub const ZERO_DIVISOR: u64 = 7;
/// The work array is too short.
pub const SHORT_WORK: u64 = 8;
/// An exponent of the result would pass its limit.
pub const BIG_EXPONENT: u64 = 9;
/// The sum, difference, product or quotient does not fit in its room.
pub const NO_ROOM: u64 = 10;
/// The remainder does not fit in its room.
pub const NO_REMAINDER_ROOM: u64 = 11;
/// The divide test: no.
pub const NOT_DIVISIBLE: u64 = 12;
