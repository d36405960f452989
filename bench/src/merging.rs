//! The straightforward sum and division. A sum merges both inputs by comparing their terms in front.
//! In a division what remains is one sorted list, and each quotient term times the divisor is merged
//! into it. Both have the engine's records, refusals and stops, so that all do the same for the same
//! arrays; the two lists of a division are its own.

use crate::contest::{Contender, Operation, Task};
use garantepo::limit;

/// A monomial word and a coefficient.
type Term = (u64, u64);

const GUARDS: u64 = 0x8000_8000_8000_8000;

/// Result terms of the two outputs, or the number of a refusal.
type Reply = Result<[usize; 2], u64>;

pub struct Merging<'a> {
    task: &'a Task,
    outputs: [Vec<u64>; 2],
    reply: Reply,
}

impl<'a> Merging<'a> {
    pub fn new(task: &'a Task) -> Self {
        Merging {
            task,
            outputs: task.rooms.map(|terms| vec![0; 2 * terms]),
            reply: Ok([0, 0]),
        }
    }
}

impl Contender for Merging<'_> {
    fn clear(&mut self) {
        self.outputs.iter_mut().for_each(|output| output.fill(0));
    }

    fn call(&mut self) {
        let Task {
            p, first, second, ..
        } = self.task;
        let [q, r] = &mut self.outputs;
        self.reply = match self.task.operation {
            Operation::Sum => combine(*p, first, second, q, false),
            Operation::Difference => combine(*p, first, second, q, true),
            Operation::Product => unreachable!("merging has no product"),
            Operation::Division => divide(*p, first, second, q, r, false),
            Operation::Test => divide(*p, first, second, q, r, true),
        };
    }

    fn answer(&self) -> [Vec<u64>; 2] {
        let [first, second] = self.reply.expect("a task without refusals");
        let [q, r] = &self.outputs;
        [q[..2 * first].to_vec(), r[..2 * second].to_vec()]
    }
}

/// The sum, or the difference.
fn combine(p: u64, a: &[u64], b: &[u64], room: &mut [u64], minus: bool) -> Reply {
    check_inputs(p, [a, b], &[], &[room])?;
    let reply = merge(p, a, b, room, minus);
    room[2 * reply.unwrap_or(0)..].fill(0);
    reply.map(|held| [held, 0])
}

fn merge(p: u64, a: &[u64], b: &[u64], room: &mut [u64], minus: bool) -> Result<usize, u64> {
    let signed = |c| if minus { p - c } else { c };
    let (mut i, mut j, mut held) = (0, 0, 0);
    while i < a.len() || j < b.len() {
        let term = if j == b.len() || i < a.len() && b[j] < a[i] {
            i += 2;
            (a[i - 2], a[i - 1])
        } else if i == a.len() || a[i] < b[j] {
            j += 2;
            (b[j - 2], signed(b[j - 1]))
        } else {
            i += 2;
            j += 2;
            let sum = a[i - 1] + signed(b[j - 1]);
            (a[i - 2], if sum < p { sum } else { sum - p })
        };
        if term.1 != 0 {
            held = put(room, held, term).ok_or(10u64)?;
        }
    }
    Ok(held)
}

/// Division with remainder, or the divide test.
fn divide(p: u64, f: &[u64], g: &[u64], q: &mut [u64], r: &mut [u64], test: bool) -> Reply {
    check_inputs(p, [f, g], &[q], &[r])?;
    if g.is_empty() {
        return Err(7);
    }
    let reply = walk(p, f, g, q, r, test);
    let [first, second] = reply.unwrap_or([0, 0]);
    q[2 * first..].fill(0);
    r[2 * second..].fill(0);
    reply
}

fn walk(p: u64, f: &[u64], g: &[u64], q: &mut [u64], r: &mut [u64], test: bool) -> Reply {
    let (divisor, dividend) = (largest_exponents(g), largest_exponents(f));
    let g = terms(g);
    let (lead, tail) = (g[0], &g[1..]);
    let inverse = inverse(p, lead.1);
    let mut remains = terms(f);
    let mut merged = Vec::with_capacity(2 * remains.len());
    let (mut start, mut quotients, mut remainders) = (0, 0, 0);
    while let Some(&(m, c)) = remains.get(start) {
        start += 1;
        if !divides(lead.0, m) {
            if test {
                return Err(12);
            }
            remainders = put(r, remainders, (m, c)).ok_or(11u64)?;
            continue;
        }
        let term = (m - lead.0, c * inverse % p);
        let reach = term.0 + divisor;
        if test && !divides(reach, dividend) {
            return Err(12);
        }
        if reach & GUARDS != 0 {
            return Err(9);
        }
        quotients = put(q, quotients, term).ok_or(10u64)?;
        subtract(p, &remains[start..], term, tail, &mut merged);
        std::mem::swap(&mut remains, &mut merged);
        start = 0;
    }
    Ok([quotients, remainders])
}

/// Merges what remains with minus a term times the divisor's tail.
fn subtract(p: u64, remains: &[Term], (m, c): Term, tail: &[Term], merged: &mut Vec<Term>) {
    merged.clear();
    let mut i = 0;
    for &(n, d) in tail {
        let word = m + n;
        let minus = p - c * d % p;
        while i < remains.len() && remains[i].0 > word {
            merged.push(remains[i]);
            i += 1;
        }
        if i < remains.len() && remains[i].0 == word {
            let sum = remains[i].1 + minus;
            if sum != p {
                merged.push((word, if sum < p { sum } else { sum - p }));
            }
            i += 1;
        } else {
            merged.push((word, minus));
        }
    }
    merged.extend_from_slice(&remains[i..]);
}

/// Writes a term into a room, and answers how many it holds then, if it has place.
fn put(room: &mut [u64], held: usize, (m, c): Term) -> Option<usize> {
    let record = room.get_mut(2 * held..2 * held + 2)?;
    record.copy_from_slice(&[m, c]);
    Some(held + 1)
}

fn terms(words: &[u64]) -> Vec<Term> {
    words.chunks_exact(2).map(|r| (r[0], r[1])).collect()
}

/// The guard bits of n keep each field's borrow from the next.
fn divides(m: u64, n: u64) -> bool {
    ((n | GUARDS) - m) & GUARDS == GUARDS
}

/// The word of the largest exponents.
fn largest_exponents(words: &[u64]) -> u64 {
    let mut largest = [0; 4];
    for record in words.chunks_exact(2) {
        for (v, most) in largest.iter_mut().enumerate() {
            *most = (record[0] >> (48 - 16 * v) & 0xffff).max(*most);
        }
    }
    largest.iter().fold(0, |word, e| word << 16 | e)
}

/// By Euclid's algorithm.
fn inverse(p: u64, a: u64) -> u64 {
    let (mut rest, mut next) = (p as i64, a as i64);
    let (mut s, mut t) = (0, 1);
    while next != 0 {
        let quotient = rest / next;
        (rest, next) = (next, rest - quotient * next);
        (s, t) = (t, s - quotient * t);
    }
    s.rem_euclid(p as i64) as u64
}

/// The refusals 1 to 6 of two inputs, of rooms for a quotient, and of other rooms.
fn check_inputs(
    p: u64,
    inputs: [&[u64]; 2],
    quotients: &[&mut [u64]],
    rooms: &[&mut [u64]],
) -> Result<(), u64> {
    if !is_modulus(p) {
        return Err(1);
    }
    let short = inputs.iter().map(|words| words.len());
    let short = short.chain(quotients.iter().map(|words| words.len()));
    let long = rooms.iter().map(|words| words.len());
    if short.clone().chain(long.clone()).any(|len| len % 2 == 1) {
        return Err(2);
    }
    if short.max() > Some(2 * limit::INPUT_TERMS) || long.max() > Some(2 * limit::ROOM_TERMS) {
        return Err(3);
    }
    match inputs.iter().filter_map(|a| term_fault(p, a)).min() {
        Some(number) => Err(number),
        None => Ok(()),
    }
}

/// The least of the refusals 4 to 6 that is due of one input.
fn term_fault(p: u64, words: &[u64]) -> Option<u64> {
    let mut guards = 0;
    let mut falls = true;
    let mut good = true;
    let mut before = u64::MAX;
    for record in words.chunks_exact(2) {
        guards |= record[0] & GUARDS;
        falls &= record[0] < before;
        good &= record[1] != 0 && record[1] < p;
        before = record[0];
    }
    let due = [(guards != 0, 4), (!falls, 5), (!good, 6)];
    due.iter()
        .find(|(is_due, _)| *is_due)
        .map(|(_, number)| *number)
}

fn is_modulus(p: u64) -> bool {
    if !(2..=limit::LARGEST_MODULUS).contains(&p) {
        return false;
    }
    let mut d = 2;
    while d * d <= p {
        if p % d == 0 {
            return false;
        }
        d += 1;
    }
    true
}
