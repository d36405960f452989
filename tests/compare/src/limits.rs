//! Calls at the largest sizes, each tried once.

use crate::call::{Call, Kind};
use crate::compare::compare;
use crate::polynomials::{dirty, full, words};
use crate::rng::Rng;
use crate::tally::Tally;
use garantepo::Report;
use second::polynomial::Polynomial;
use second::refusals::{INPUT_TERMS, ROOM_TERMS};

pub fn run(seed: u64, tally: &mut Tally) -> Result<(), String> {
    let rng = &mut Rng::new(seed, u64::MAX - 2);
    largest_product(rng, tally)?;
    longest_quotient(rng, tally)?;
    longest_rooms(tally)?;
    too_long_rooms(tally)
}

/// Two factors with as many terms as they may have.
fn largest_product(rng: &mut Rng, tally: &mut Tally) -> Result<(), String> {
    let [a, b] = [0, 1].map(|_| words(&full(rng, 32_003)));
    let room = dirty(rng, 2 * 60_000);
    let work = dirty(rng, 4 * INPUT_TERMS);
    let arrays = [a, b, room, Vec::new(), work];
    compare(&Call::on_arrays(Kind::Product, 32_003, arrays), tally)?;
    Ok(())
}

/// x^n − 1 by x − 1 fills the largest quotient room, or needs one term more.
fn longest_quotient(rng: &mut Rng, tally: &mut Tally) -> Result<(), String> {
    for n in [4_096, 4_097] {
        let [f, g] = [n, 1].map(|e| Polynomial::from([([e, 0, 0, 0], 1), ([0; 4], 100)]));
        for kind in [Kind::Divide, Kind::Divides] {
            let q = dirty(rng, 2 * INPUT_TERMS);
            let work = dirty(rng, 4 * INPUT_TERMS);
            let arrays = [words(&f), words(&g), q, Vec::new(), work];
            compare(&Call::on_arrays(kind, 101, arrays), tally)?;
        }
    }
    Ok(())
}

const X: [u64; 2] = [1 << 48, 1];

/// The calls that have a large room, and its operand.
const LARGE_ROOMS: [(Kind, u64); 4] = [
    (Kind::Sum, 3),
    (Kind::Difference, 3),
    (Kind::Product, 3),
    (Kind::Divide, 4),
];

/// A call on x and x with a large room; a quotient and work array of one term have their own.
fn on_x(kind: Kind, room: &mut [u64], quotient: &mut [u64], work: &mut [u64]) -> Report {
    match kind {
        Kind::Sum => garantepo::sum(101, &X, &X, room),
        Kind::Difference => garantepo::difference(101, &X, &X, room),
        Kind::Product => garantepo::product(101, &X, &X, room, work),
        _ => garantepo::divide(101, &X, &X, quotient, room, work),
    }
}

/// A room of 16,777,216 terms is accepted, and cleared to its end.
fn longest_rooms(tally: &mut Tally) -> Result<(), String> {
    let mut room = vec![0; 2 * ROOM_TERMS];
    let last = room.len() - 1;
    for (kind, _) in LARGE_ROOMS {
        room[last] = 7;
        let report = on_x(kind, &mut room, &mut [7; 2], &mut [7; 4]);
        let result: &[u64] = match kind {
            Kind::Sum => &[1 << 48, 2],
            Kind::Product => &[2 << 48, 1],
            _ => &[],
        };
        let (terms, rest) = room.split_at(result.len());
        if report.number != 0 || terms != result || rest.iter().any(|&word| word != 0) {
            return Err(format!("{kind:?} in the longest room: {report:?}"));
        }
        tally.add(kind, &[report.number, report.operand]);
    }
    Ok(())
}

/// One term more is reply 3. The room is one array of zero pages, which nobody may touch.
fn too_long_rooms(tally: &mut Tally) -> Result<(), String> {
    let mut room = vec![0; 2 * (ROOM_TERMS + 1)];
    for (kind, operand) in LARGE_ROOMS {
        let (mut quotient, mut work) = ([7; 2], [7; 4]);
        let report = on_x(kind, &mut room, &mut quotient, &mut work);
        let refusal = Report {
            number: 3,
            operand,
            ..Report::default()
        };
        if report != refusal || quotient != [7; 2] || work != [7; 4] {
            return Err(format!("{kind:?} in a room that is too long: {report:?}"));
        }
        tally.add(kind, &[report.number, report.operand]);
    }
    if room.iter().any(|&word| word != 0) {
        return Err("a room that is too long was changed".to_string());
    }
    Ok(())
}
