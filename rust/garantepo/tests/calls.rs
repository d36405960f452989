//! What the wrapper itself adds to the engine: that slices and records cross the boundary whole.

use garantepo::*;

const X: u64 = 1 << 48;

#[test]
fn empty_slices_may_point_nowhere() {
    assert_eq!(check(101, &[]), Report::default());
    let done = divide(101, &[], &[X, 1], &mut [], &mut [], &mut []);
    assert_eq!(done, Report::default());
    assert_eq!(run(&[], 0), &[]);
}

#[test]
fn two_inputs_may_be_one_slice() {
    let a = [X, 1, 0, 1];
    let mut out = [9; 6];
    let mut work = [9; 8];
    let report = product(2, &a, &a, &mut out, &mut work);
    assert_eq!((report.number, report.first), (reply::DONE, 2));
    assert_eq!(out, [2 * X, 1, 0, 1, 0, 0]);
    assert_eq!(work, [0; 8]);
}

#[test]
fn the_run_is_a_part_of_the_slice() {
    let a = [2 * X, 1, X + 1, 1, X, 1, 0, 1];
    assert_eq!(run(&a, 1).as_ptr_range(), a[2..6].as_ptr_range());
    assert_eq!(run(&a, 7).as_ptr_range(), a[..0].as_ptr_range());
}

#[test]
fn every_number_of_a_record_arrives() {
    let a = [X + 5, 3, 7, 4];
    let profiled = profile_of(101, &a);
    assert_eq!((profiled.report.first, profiled.report.second), (2, 0));
    let profile = profiled.profile;
    assert_eq!((profile.terms, profile.total), (2, 7));
    assert_eq!(profile.exponents, [1, 0, 0, 7]);
    let refused = check(101, &[X, 1, 0, 101]);
    let numbers = (refused.number, refused.operand, refused.index);
    assert_eq!(numbers, (reply::BAD_COEFFICIENT, 1, 1));
    assert_eq!(balanced(101, 51).value, -50);
    assert_eq!(unpack(0x0001_0002_0003_0004).exponents, [1, 2, 3, 4]);
}

/// x^(n−1) + … + x + 1.
fn powers(n: usize) -> Vec<u64> {
    (0..n as u64).rev().flat_map(|e| [e << 48, 1]).collect()
}

#[test]
fn limits_are_those_of_the_engine() {
    let over = limit::LARGEST_EXPONENT + 1;
    assert_eq!(pack(over - 1, 0, 0, 0).number, reply::DONE);
    assert_eq!(pack(over, 0, 0, 0).number, reply::BAD_MONOMIAL);
    let over = limit::LARGEST_MODULUS + 1;
    assert_eq!(check(over - 1, &[]).number, reply::DONE);
    assert_eq!(check(over, &[]).number, reply::BAD_MODULUS);
    let over = powers(limit::INPUT_TERMS + 1);
    assert_eq!(check(2, &over[2..]).number, reply::DONE);
    assert_eq!(check(2, &over).number, reply::TOO_LONG);
    // Neither room is touched: where 3 is not due, the bad coefficient is told.
    let mut over = vec![0; 2 * limit::ROOM_TERMS + 2];
    let least = sum(2, &[0, 2], &[], &mut over[2..]);
    assert_eq!(least.number, reply::BAD_COEFFICIENT);
    assert_eq!(sum(2, &[0, 2], &[], &mut over).number, reply::TOO_LONG);
    let (mut q, mut work) = ([0; 4], [0; 2 * limit::WORK_WORDS]);
    let enough = divides(2, &[], &[X, 1], &mut q, &mut work);
    assert_eq!(enough.number, reply::DONE);
    let short = divides(2, &[], &[X, 1], &mut q, &mut work[1..]);
    assert_eq!(short.number, reply::SHORT_WORK);
}
