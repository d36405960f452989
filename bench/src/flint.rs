//! FLINT as a contender.

use crate::contest::{Contender, Operation, Task};
use std::ffi::{c_char, c_int, CStr};

#[repr(C)]
struct Contest {
    hidden: [u8; 0],
}

extern "C" {
    fn shim_version() -> *const c_char;
    fn shim_contest(
        p: u64,
        a: *const u64,
        a_len: usize,
        b: *const u64,
        b_len: usize,
    ) -> *mut Contest;
    fn shim_sum(contest: *mut Contest);
    fn shim_difference(contest: *mut Contest);
    fn shim_product(contest: *mut Contest);
    fn shim_division(contest: *mut Contest);
    fn shim_test(contest: *mut Contest) -> c_int;
    fn shim_terms(contest: *mut Contest, output: c_int) -> usize;
    fn shim_words(contest: *mut Contest, output: c_int, words: *mut u64);
    fn shim_end(contest: *mut Contest);
}

/// Of the library that is linked.
pub fn version() -> String {
    // SAFETY: it is a constant text of C.
    let text = unsafe { CStr::from_ptr(shim_version()) };
    text.to_string_lossy().into_owned()
}

pub struct Flint {
    operation: Operation,
    contest: *mut Contest,
}

impl Flint {
    pub fn new(task: &Task) -> Self {
        let (a, b) = (&task.first, &task.second);
        // SAFETY: both slices live through the call, which copies them.
        let contest = unsafe { shim_contest(task.p, a.as_ptr(), a.len(), b.as_ptr(), b.len()) };
        Flint {
            operation: task.operation,
            contest,
        }
    }

    fn output(&self, i: c_int) -> Vec<u64> {
        // SAFETY: the contest is live until it is dropped, and the words are as many as it writes.
        unsafe {
            let mut words = vec![0; 2 * shim_terms(self.contest, i)];
            shim_words(self.contest, i, words.as_mut_ptr());
            words
        }
    }
}

impl Contender for Flint {
    /// FLINT's outputs keep their memory from call to call; they have nothing to be cleared.
    fn clear(&mut self) {}

    fn call(&mut self) {
        // SAFETY: the contest is live until it is dropped.
        unsafe {
            match self.operation {
                Operation::Sum => shim_sum(self.contest),
                Operation::Difference => shim_difference(self.contest),
                Operation::Product => shim_product(self.contest),
                Operation::Division => shim_division(self.contest),
                Operation::Test => assert_eq!(shim_test(self.contest), 1),
            }
        }
    }

    fn answer(&self) -> [Vec<u64>; 2] {
        [self.output(0), self.output(1)]
    }
}

impl Drop for Flint {
    fn drop(&mut self) {
        // SAFETY: the contest is live, and nobody has it after this.
        unsafe { shim_end(self.contest) }
    }
}
