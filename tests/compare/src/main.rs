//! The comparison of the engine with the second program.
//!
//! `compare [SEED [CALLS]]` runs the sheet of examples, every pair of faults, so many random calls of
//! every kind, and the largest sizes. The first disagreement is printed whole and fails. So does a
//! reply that a call can give and that no call gave.

mod call;
mod compare;
mod draw;
mod engine;
mod faults;
mod lent;
mod limits;
mod moduli;
mod polynomials;
mod reference;
mod rng;
mod sheet;
mod tally;

use call::Kind;
use compare::compare;
use moduli::Moduli;
use rng::Rng;
use std::process::ExitCode;
use std::sync::atomic::{AtomicBool, Ordering};
use std::time::{SystemTime, UNIX_EPOCH};
use tally::Tally;

/// Random calls of each kind, unless said otherwise.
const CALLS: u64 = 100_000;

/// How often each pair of faults is tried, each time in another call.
const ROUNDS: u64 = 12;

fn main() -> ExitCode {
    let seed = argument(1).unwrap_or_else(clock);
    let calls = argument(2).unwrap_or(CALLS);
    println!("seed {seed}");
    let tally = match run(seed, calls) {
        Ok(tally) => tally,
        Err(text) => {
            println!("seed {seed}, {text}");
            return ExitCode::FAILURE;
        }
    };
    tally.print();
    let missing = tally.missing();
    for (kind, number, operand) in &missing {
        println!("never met: {kind:?}, reply {number}, operand {operand}");
    }
    println!("{} calls, 0 disagreements", tally.calls());
    ExitCode::from(!missing.is_empty() as u8)
}

fn argument(n: usize) -> Option<u64> {
    let text = std::env::args().nth(n)?;
    Some(text.parse().expect("SEED and CALLS are whole numbers"))
}

fn clock() -> u64 {
    let since = SystemTime::now().duration_since(UNIX_EPOCH);
    since.map_or(0, |time| time.as_nanos() as u64)
}

fn run(seed: u64, calls: u64) -> Result<Tally, String> {
    let mut tally = Tally::default();
    let moduli = Moduli::new(seed);
    sheet::run(seed, &moduli, &mut tally)?;
    pairs_of_faults(seed, &moduli, &mut tally).map_err(|text| format!("faults: {text}"))?;
    tally.join(random_calls(seed, &moduli, calls)?);
    limits::run(seed, &mut tally).map_err(|text| format!("largest sizes: {text}"))?;
    Ok(tally)
}

/// Every fault alone and every two faults together, in each call that can have them.
fn pairs_of_faults(seed: u64, moduli: &Moduli, tally: &mut Tally) -> Result<(), String> {
    let rng = &mut Rng::new(seed, u64::MAX - 3);
    for kind in Kind::ALL {
        let faults = faults::all(kind);
        for (i, &one) in faults.iter().enumerate() {
            for &other in &faults[i..] {
                for _ in 0..ROUNDS {
                    let mut call = draw::plain(rng, moduli, kind);
                    faults::put(rng, &mut call, one);
                    compare(&call, tally)?;
                    faults::put(rng, &mut call, other);
                    compare(&call, tally)?;
                }
            }
        }
    }
    Ok(())
}

/// The random calls, shared out to as many threads as there are processors.
fn random_calls(seed: u64, moduli: &Moduli, calls: u64) -> Result<Tally, String> {
    let threads = std::thread::available_parallelism().map_or(1, |n| n.get());
    let stop = &AtomicBool::new(false);
    std::thread::scope(|scope| {
        let shares: Vec<_> = (0..threads)
            .map(|k| (k as u64..calls).step_by(threads))
            .map(|numbers| scope.spawn(move || share(seed, moduli, numbers, stop)))
            .collect();
        let mut tally = Tally::default();
        for share in shares {
            tally.join(share.join().expect("a share without panic")?);
        }
        Ok(tally)
    })
}

/// The random calls of some numbers, of every kind; each has random numbers of its own.
fn share(
    seed: u64,
    moduli: &Moduli,
    numbers: impl Iterator<Item = u64>,
    stop: &AtomicBool,
) -> Result<Tally, String> {
    let mut tally = Tally::default();
    for number in numbers {
        for kind in Kind::ALL {
            if stop.load(Ordering::Relaxed) {
                return Ok(tally);
            }
            let rng = &mut Rng::new(seed, number << 8 | kind as u64);
            let call = draw::any(rng, moduli, kind);
            if let Err(text) = compare(&call, &mut tally) {
                stop.store(true, Ordering::Relaxed);
                return Err(format!("random call {number} of {kind:?}: {text}"));
            }
        }
    }
    Ok(tally)
}
