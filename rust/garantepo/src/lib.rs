//! Safe calls of Garantepo, a proved engine for sparse polynomials in x, y, z and t with coefficients
//! modulo a prime.
//!
//! A polynomial is a slice of 64-bit words, two to a term: the monomial word and the coefficient.
//! `pack` makes a monomial word. Terms stand in falling order, and the empty slice is zero. A caller
//! lends every array: inputs, rooms for results, and the work array of a product or a division.
//!
//! No call has a precondition. What is malformed is refused with a number, see [`reply`], and then
//! nothing is changed. How large things may be is told in [`limit`], and every rule in
//! `docs/RULES.md`.
//!
//! The engine is a static library: `rt lib` in `crates/garantepo` makes its `out/libgarantepo.a`, which
//! `build.rs` links. A copy of it elsewhere is named by the variable `GARANTEPO_LIB`, a folder.
//!
//! # Why these calls are safe
//!
//! Each function of the engine takes a slice as a pointer and a number of words, reads and writes
//! nothing but the slices it was lent, keeps no pointer, has no state and doesn't unwind. It asks
//! that outputs and work overlap nothing, which the borrows `&mut` say, and that a pointer is not
//! null and aligned even if the slice is empty, which holds for every Rust slice.

pub mod check;
pub mod difference;
pub mod divide_test;
pub mod division;
pub mod field;
pub mod limit;
pub mod packing;
pub mod product;
pub mod profile;
mod raw;
pub mod reply;
pub mod report;
pub mod run;
pub mod sum;

pub use check::check;
pub use difference::difference;
pub use divide_test::divides;
pub use division::divide;
pub use field::{balanced, field_inverse, field_product, field_sum, residue, Balance, Value};
pub use packing::{pack, unpack, Exponents};
pub use product::product;
pub use profile::{profile_of, Profile, Profiled};
pub use report::Report;
pub use run::run;
pub use sum::sum;
