//! The second program: every call of docs/RULES.md, written a second time to compare the engine with.
//!
//! A polynomial is a map from four exponents to a coefficient. All arithmetic is the schoolbook's,
//! and each rule is cited where it is followed. Nothing is done for speed, and nothing is taken from
//! the engine: what both have in common is that page.

pub mod check;
pub mod divide_test;
pub mod division;
pub mod field;
pub mod packing;
pub mod polynomial;
pub mod product;
pub mod profile;
pub mod refusals;
pub mod report;
pub mod rooms;
pub mod run;
pub mod sums;
