//! Which replies were met, how often, and which of them had to be.

use crate::call::Kind;
use std::collections::BTreeMap;

/// Stands for a reply number where a run is the empty part; a run that is found stands under 0.
const EMPTY: u64 = 13;

/// How often each call gave each number with each operand.
#[derive(Default)]
pub struct Tally {
    met: BTreeMap<(Kind, u64, u64), u64>,
}

impl Tally {
    pub fn add(&mut self, kind: Kind, numbers: &[u64]) {
        let (number, operand) = match kind {
            Kind::Run if numbers[0] == numbers[1] => (EMPTY, 0),
            Kind::Run => (0, 0),
            _ if kind.inputs().is_empty() => (numbers[0], 0),
            _ => (numbers[0], numbers[1]),
        };
        *self.met.entry((kind, number, operand)).or_default() += 1;
    }

    pub fn join(&mut self, other: Tally) {
        for (key, count) in other.met {
            *self.met.entry(key).or_default() += count;
        }
    }

    pub fn calls(&self) -> u64 {
        self.met.values().sum()
    }

    /// The replies that a call can give and that were never met.
    pub fn missing(&self) -> Vec<(Kind, u64, u64)> {
        let all = Kind::ALL.iter().flat_map(|&kind| possible(kind));
        all.filter(|key| !self.met.contains_key(key)).collect()
    }

    pub fn print(&self) {
        let titles = (0..=12).map(|number| format!("{number:>8}"));
        println!("{:<13}{}   empty", "", titles.collect::<String>());
        for kind in Kind::ALL {
            let row: String = (0..=EMPTY).map(|n| self.cell(kind, n)).collect();
            println!("{:<13}{row}", format!("{kind:?}"));
        }
    }

    fn cell(&self, kind: Kind, number: u64) -> String {
        let keys = self.met.range((kind, number, 0)..=(kind, number, 5));
        match keys.map(|(_, count)| count).sum() {
            0u64 => format!("{:>8}", "."),
            count => format!("{count:>8}"),
        }
    }
}

/// Every number with every operand that docs/RULES.md lets a call give.
fn possible(kind: Kind) -> Vec<(Kind, u64, u64)> {
    let mut all = vec![(kind, 0, 0)];
    all.extend(other_stops(kind).iter().map(|&number| (kind, number, 0)));
    if kind.has_modulus() {
        all.push((kind, 1, 0));
    }
    if kind == Kind::Run {
        return all;
    }
    for &operand in kind.inputs() {
        all.extend((2..=6).map(|number| (kind, number, operand as u64)));
    }
    for &operand in kind.outputs() {
        all.extend((2..=3).map(|number| (kind, number, operand as u64)));
    }
    if kind.divides() {
        all.push((kind, 7, 2));
    }
    if kind.has_work() {
        all.push((kind, 8, 5));
    }
    all
}

/// The numbers without an operand that a call has beside 0 and 1.
fn other_stops(kind: Kind) -> &'static [u64] {
    match kind {
        Kind::Check | Kind::ProfileOf | Kind::Residue => &[],
        Kind::Run => &[EMPTY],
        Kind::Sum | Kind::Difference => &[10],
        Kind::Product => &[9, 10],
        Kind::Divide => &[9, 10, 11],
        Kind::Divides => &[10, 12],
        Kind::FieldSum | Kind::FieldProduct | Kind::FieldInverse | Kind::Balanced => &[6],
        Kind::Pack | Kind::Unpack => &[4],
    }
}
