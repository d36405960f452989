//! The engine's functions as C declares them: `include/garantepo.h` in Rust's words.

use crate::field::{Balance, Value};
use crate::packing::Exponents;
use crate::profile::Profiled;
use crate::report::Report;
use crate::run::Part;

extern "C" {
    pub fn garantepo_check(p: u64, a: *const u64, a_len: usize) -> Report;
    pub fn garantepo_profile_of(p: u64, a: *const u64, a_len: usize) -> Profiled;
    pub fn garantepo_run(a: *const u64, a_len: usize, power: u64) -> Part;
    pub fn garantepo_sum(
        p: u64,
        a: *const u64,
        a_len: usize,
        b: *const u64,
        b_len: usize,
        out: *mut u64,
        out_len: usize,
    ) -> Report;
    pub fn garantepo_difference(
        p: u64,
        a: *const u64,
        a_len: usize,
        b: *const u64,
        b_len: usize,
        out: *mut u64,
        out_len: usize,
    ) -> Report;
    pub fn garantepo_product(
        p: u64,
        a: *const u64,
        a_len: usize,
        b: *const u64,
        b_len: usize,
        out: *mut u64,
        out_len: usize,
        work: *mut u64,
        work_len: usize,
    ) -> Report;
    pub fn garantepo_divide(
        p: u64,
        f: *const u64,
        f_len: usize,
        g: *const u64,
        g_len: usize,
        q: *mut u64,
        q_len: usize,
        r: *mut u64,
        r_len: usize,
        work: *mut u64,
        work_len: usize,
    ) -> Report;
    pub fn garantepo_divides(
        p: u64,
        f: *const u64,
        f_len: usize,
        g: *const u64,
        g_len: usize,
        q: *mut u64,
        q_len: usize,
        work: *mut u64,
        work_len: usize,
    ) -> Report;
    pub fn garantepo_field_sum(p: u64, a: u64, b: u64) -> Value;
    pub fn garantepo_field_product(p: u64, a: u64, b: u64) -> Value;
    pub fn garantepo_field_inverse(p: u64, a: u64) -> Value;
    pub fn garantepo_residue(p: u64, n: i32) -> Value;
    pub fn garantepo_balanced(p: u64, c: u64) -> Balance;
    pub fn garantepo_pack(x: u64, y: u64, z: u64, t: u64) -> Value;
    pub fn garantepo_unpack(word: u64) -> Exponents;
}
