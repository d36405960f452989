//! A task, and the contenders that are timed at it in turn.

use crate::clock::processor_time;

#[derive(Clone, Copy, PartialEq, Eq)]
pub enum Operation {
    Sum,
    Difference,
    Product,
    Division,
    Test,
}

/// What is asked: an operation, its inputs, and the rooms in terms.
pub struct Task {
    pub operation: Operation,
    pub p: u64,
    pub first: Vec<u64>,
    pub second: Vec<u64>,
    pub rooms: [usize; 2],
}

pub trait Contender {
    /// Clears the outputs, before the clock starts.
    fn clear(&mut self);

    /// Does the task once; this is what is timed.
    fn call(&mut self);

    /// The result terms of both outputs.
    fn answer(&self) -> [Vec<u64>; 2];
}

/// What was measured of a contender: the median of its times in seconds, and the median of what its
/// time was to that of the first contender in the same round.
#[derive(Clone, Copy)]
pub struct Measure {
    pub time: f64,
    pub ratio: f64,
}

/// Processor time of a whole contest, unless its fewest rounds take longer.
const SECONDS: f64 = 2.0;
const FEWEST_ROUNDS: usize = 5;
const MOST_ROUNDS: usize = 2_001;

/// Times all contenders. They take turns, so that a slow spell of the machine meets all of them, and
/// they must all give the same answer.
pub fn measure(contenders: &mut [Box<dyn Contender + '_>]) -> Vec<Measure> {
    let once: f64 = contenders.iter_mut().map(timed).sum();
    let all_alike = contenders
        .windows(2)
        .all(|w| w[0].answer() == w[1].answer());
    assert!(all_alike, "the contenders don't agree");
    let overhead = clock_overhead();
    let rounds = ((SECONDS / once) as usize).clamp(FEWEST_ROUNDS, MOST_ROUNDS);
    let mut times: Vec<Vec<f64>> = Vec::new();
    for _ in 0..rounds {
        let round = contenders.iter_mut().map(timed);
        times.push(round.map(|time| time - overhead).collect());
    }
    let of = |i: usize| Measure {
        time: median(times.iter().map(|round| round[i]).collect()),
        ratio: median(times.iter().map(|round| round[i] / round[0]).collect()),
    };
    (0..contenders.len()).map(of).collect()
}

/// What reading the clock twice takes by itself.
fn clock_overhead() -> f64 {
    let nothing = |_| {
        let start = processor_time();
        processor_time() - start
    };
    median((0..1_001).map(nothing).collect())
}

fn timed(contender: &mut Box<dyn Contender + '_>) -> f64 {
    contender.clear();
    let start = processor_time();
    contender.call();
    processor_time() - start
}

fn median(mut times: Vec<f64>) -> f64 {
    times.sort_by(f64::total_cmp);
    times[times.len() / 2]
}
