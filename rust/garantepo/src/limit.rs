//! What the engine takes, under the names that `include/garantepo.h` has for it.

/// A modulus is a prime from 2 to this.
pub const LARGEST_MODULUS: u64 = 2_147_483_647;
pub const LARGEST_EXPONENT: u64 = 32_767;
/// Most terms of an input, and of the room for a quotient. A term is two words.
pub const INPUT_TERMS: usize = 4_096;
/// Most terms of the room for a sum, a difference, a product or a remainder.
pub const ROOM_TERMS: usize = 16_777_216;
/// The least number of work words for each term: of the factor that has fewer terms (product), or of
/// those that the quotient room can hold (division, divide test).
pub const WORK_WORDS: usize = 4;
