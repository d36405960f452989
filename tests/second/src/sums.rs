//! The sum and the difference of two polynomials.

use crate::polynomial::{minus, plus, read, Polynomial};
use crate::refusals::{Faults, ROOM_TERMS};
use crate::report::{done, stopped, Report};
use crate::rooms::{clear, fill, places};

pub fn sum(p: u64, a: &[u64], b: &[u64], room: &mut [u64]) -> Report {
    refusal(p, a, b, room).unwrap_or_else(|| written(&plus(p, &read(a), &read(b)), room))
}

pub fn difference(p: u64, a: &[u64], b: &[u64], room: &mut [u64]) -> Report {
    refusal(p, a, b, room).unwrap_or_else(|| written(&minus(p, &read(a), &read(b)), room))
}

/// RULES Sum and difference: 10 where the room can't hold what is left when terms have cancelled.
fn written(result: &Polynomial, room: &mut [u64]) -> Report {
    if result.len() > places(room) {
        clear(room);
        return stopped(10);
    }
    fill(room, result);
    done(result.len(), 0)
}

fn refusal(p: u64, a: &[u64], b: &[u64], room: &[u64]) -> Option<Report> {
    let mut faults = Faults::default();
    faults.modulus(p);
    faults.input(p, 1, a);
    faults.input(p, 2, b);
    faults.room(3, room, ROOM_TERMS);
    faults.least()
}
