//! Faults put into a call on purpose, for the refusals 1 to 8.

use crate::call::{Call, Kind};
use crate::moduli::Moduli;
use crate::polynomials::{dirty, full, words};
use crate::rng::Rng;
use second::refusals::INPUT_TERMS;

/// A fault, and the operand that has it.
#[derive(Clone, Copy)]
pub enum Fault {
    Modulus,
    Odd(usize),
    Long(usize),
    Guard(usize),
    Order(usize),
    Coefficient(usize),
    ZeroDivisor,
    ShortWork,
}

/// Every fault that a call can have, but for rooms that are too long with 16,777,216 terms.
pub fn all(kind: Kind) -> Vec<Fault> {
    let mut faults = Vec::new();
    if kind.has_modulus() {
        faults.push(Fault::Modulus);
    }
    for &operand in kind.inputs() {
        faults.extend([
            Fault::Odd(operand),
            Fault::Long(operand),
            Fault::Guard(operand),
            Fault::Order(operand),
            Fault::Coefficient(operand),
        ]);
    }
    faults.extend(kind.outputs().iter().map(|&operand| Fault::Odd(operand)));
    if kind.divides() {
        faults.extend([Fault::Long(3), Fault::ZeroDivisor]);
    }
    if kind.has_work() {
        faults.push(Fault::ShortWork);
    }
    faults
}

pub fn put(rng: &mut Rng, call: &mut Call, fault: Fault) {
    match fault {
        Fault::Modulus => call.p = Moduli::bad(rng),
        Fault::Odd(operand) => odd(rng, call.operand(operand)),
        Fault::Long(3) => *call.operand(3) = long_room(rng),
        Fault::Long(operand) => *call.operand(operand) = long_input(rng),
        Fault::Guard(operand) => {
            let i = term(rng, call.operand(operand), 0);
            call.operand(operand)[2 * i] |= 0x8000 << (16 * rng.below(4));
        }
        Fault::Order(operand) => rise(rng, call.operand(operand)),
        Fault::Coefficient(operand) => {
            let i = term(rng, call.operand(operand), 0);
            call.operand(operand)[2 * i + 1] = no_coefficient(rng, call.p);
        }
        Fault::ZeroDivisor => call.operand(2).clear(),
        Fault::ShortWork => shorten(rng, call.operand(5)),
    }
}

fn odd(rng: &mut Rng, array: &mut Vec<u64>) {
    if array.len() % 2 == 1 {
        return;
    }
    if array.is_empty() || rng.one_in(2) {
        array.push(rng.word());
    } else {
        array.pop();
    }
}

fn long_room(rng: &mut Rng) -> Vec<u64> {
    let terms = INPUT_TERMS + 1 + rng.size(2);
    dirty(rng, 2 * terms)
}

/// One term more than an input may have, else without fault.
fn long_input(rng: &mut Rng) -> Vec<u64> {
    let mut array = vec![0x7fff_0000_0000_0000, 1];
    array.extend(words(&full(rng, 2)));
    array
}

/// The index of a term from a given one on; an array too short for that becomes x·y + 1.
fn term(rng: &mut Rng, array: &mut Vec<u64>, from: usize) -> usize {
    if array.len() / 2 <= from {
        *array = vec![0x0001_0001_0000_0000, 1, 0, 1];
    }
    from + rng.size(array.len() / 2 - from)
}

/// Makes a monomial equal to the one before it, or greater.
fn rise(rng: &mut Rng, array: &mut Vec<u64>) {
    let i = term(rng, array, 1);
    let before = array[2 * i - 2];
    array[2 * i] = if rng.one_in(2) {
        before
    } else {
        before.saturating_add(1 << (16 * rng.below(4)))
    };
}

fn no_coefficient(rng: &mut Rng, p: u64) -> u64 {
    match rng.below(6) {
        0 | 1 => 0,
        2 => p,
        3 => p.saturating_add(1),
        4 => (1 << 32) + 1,
        _ => u64::MAX - rng.below(4),
    }
}

fn shorten(rng: &mut Rng, work: &mut Vec<u64>) {
    let length = work.len();
    if rng.one_in(2) {
        work.pop();
    } else {
        work.truncate(rng.size(length + 1));
    }
}
