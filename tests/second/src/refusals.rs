//! The refusals 1 to 8, and RULES First refusal.
//!
//! A call notes every fault it has, in any order, and the least one is its answer.

use crate::field;
use crate::report::Report;

/// RULES Limits, of an input and of a quotient room.
pub const INPUT_TERMS: usize = 4_096;

/// RULES Limits, of any other room.
pub const ROOM_TERMS: usize = 16_777_216;

/// The top bit of each sixteen.
const GUARD_BITS: u64 = 0x8000_8000_8000_8000;

/// Number, operand, term index: tuples compare in this order.
type Fault = (u64, u64, u64);

#[derive(Default)]
pub struct Faults {
    found: Vec<Fault>,
}

impl Faults {
    /// 1, which blames nobody.
    pub fn modulus(&mut self, p: u64) {
        self.note(!field::is_modulus(p), (1, 0, 0));
    }

    /// 2 to 6 of an input polynomial.
    pub fn input(&mut self, p: u64, operand: u64, words: &[u64]) {
        self.shape(operand, words);
        for (i, record) in words.chunks_exact(2).enumerate() {
            let bad = record[1] == 0 || record[1] >= p;
            self.note(bad, (6, operand, i as u64));
        }
    }

    /// 2 to 5 of an input polynomial: all that doesn't need a modulus.
    pub fn shape(&mut self, operand: u64, words: &[u64]) {
        self.room(operand, words, INPUT_TERMS);
        let monomials: Vec<u64> = words.chunks_exact(2).map(|record| record[0]).collect();
        for (i, word) in monomials.iter().enumerate() {
            self.note(word & GUARD_BITS != 0, (4, operand, i as u64));
            // Of two neighbours the second is named.
            let rises = i > 0 && *word >= monomials[i - 1];
            self.note(rises, (5, operand, i as u64));
        }
    }

    /// 2 and 3 of an output, which an input has in common with it.
    pub fn room(&mut self, operand: u64, words: &[u64], most_terms: usize) {
        self.note(words.len() % 2 == 1, (2, operand, 0));
        self.note(words.len() / 2 > most_terms, (3, operand, 0));
    }

    /// 7, which blames operand 2.
    pub fn divisor(&mut self, g: &[u64]) {
        self.note(g.is_empty(), (7, 2, 0));
    }

    /// 8, which blames operand 5.
    pub fn work(&mut self, work: &[u64], least: usize) {
        self.note(work.len() < least, (8, 5, 0));
    }

    /// The refusal that wins, if there is a fault at all.
    pub fn least(self) -> Option<Report> {
        let (number, operand, index) = self.found.into_iter().min()?;
        Some(Report {
            number,
            operand,
            index,
            first: 0,
            second: 0,
        })
    }

    fn note(&mut self, is_there: bool, fault: Fault) {
        if is_there {
            self.found.push(fault);
        }
    }
}

#[cfg(test)]
mod tests {
    use super::*;

    fn answer(p: u64, a: &[u64], b: &[u64]) -> (u64, u64, u64) {
        let mut faults = Faults::default();
        faults.input(p, 2, b);
        faults.input(p, 1, a);
        faults.modulus(p);
        let report = faults.least().unwrap_or_default();
        (report.number, report.operand, report.index)
    }

    #[test]
    fn the_number_wins_over_the_operand() {
        let out_of_order = [1, 1, 1, 1];
        let guard = [1 << 15, 1];
        assert_eq!(answer(101, &out_of_order, &guard), (4, 2, 0));
        assert_eq!(answer(100, &out_of_order, &guard), (1, 0, 0));
    }

    #[test]
    fn the_operand_wins_over_the_term() {
        assert_eq!(answer(101, &[2, 1, 1, 0], &[2, 0]), (6, 1, 1));
    }

    #[test]
    fn the_lowest_term_wins() {
        assert_eq!(answer(101, &[9, 1, 9, 1, 8, 1, 8, 1], &[]), (5, 1, 1));
        assert_eq!(answer(101, &[9, 1, 8, 101, 7, 0], &[]), (6, 1, 1));
    }

    #[test]
    fn an_odd_slice_that_is_too_long_is_odd() {
        assert_eq!(answer(101, &[0; 8_193], &[]), (2, 1, 0));
        assert_eq!(answer(101, &[0; 8_194], &[]), (3, 1, 0));
    }

    #[test]
    fn a_coefficient_is_a_whole_word() {
        assert_eq!(answer(101, &[0, (1 << 32) + 1], &[]), (6, 1, 0));
    }

    #[test]
    fn zero_is_a_polynomial() {
        assert_eq!(answer(101, &[], &[]), (0, 0, 0));
    }
}
