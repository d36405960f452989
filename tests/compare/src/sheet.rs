//! The sheet of examples, every row: RULES Sheet.

use crate::call::{Call, Kind};
use crate::compare::expect;
use crate::moduli::Moduli;
use crate::polynomials::{any_shape, dirty, nonzero, power, words};
use crate::rng::Rng;
use crate::tally::Tally;
use second::polynomial::{Monomial, Polynomial};

type Outcome = Result<(), String>;

pub fn run(seed: u64, moduli: &Moduli, tally: &mut Tally) -> Outcome {
    let rng = &mut Rng::new(seed, u64::MAX - 1);
    let rows: [fn(&mut Sheet) -> Outcome; 13] = [
        row_1, row_2, row_3, row_4, row_5, row_6, row_7, row_8, row_9, row_10, row_11, row_12,
        row_13,
    ];
    let sheet = &mut Sheet { rng, moduli, tally };
    for (i, row) in rows.iter().enumerate() {
        row(sheet).map_err(|text| format!("row {} of the sheet: {text}", i + 1))?;
    }
    Ok(())
}

struct Sheet<'a> {
    rng: &'a mut Rng,
    moduli: &'a Moduli,
    tally: &'a mut Tally,
}

impl Sheet<'_> {
    /// A call in dirty rooms of so many terms, with a dirty work array that is just long enough.
    fn call(&mut self, kind: Kind, p: u64, a: &[u64], b: &[u64], rooms: [usize; 2]) -> Call {
        let least = match kind {
            Kind::Product => 2 * a.len().min(b.len()),
            _ => 4 * rooms[0],
        };
        let [c, d] = rooms.map(|terms| dirty(self.rng, 2 * terms));
        let work = dirty(self.rng, least);
        Call::on_arrays(kind, p, [a.to_vec(), b.to_vec(), c, d, work])
    }

    fn product(
        &mut self,
        p: u64,
        a: &[u64],
        b: &[u64],
        room: usize,
        expected: Expected,
    ) -> Outcome {
        let call = self.call(Kind::Product, p, a, b, [room, 0]);
        self.expect(&call, expected)
    }

    fn divide(&mut self, f: &[u64], g: &[u64], rooms: [usize; 2], expected: Expected) -> Outcome {
        let call = self.call(Kind::Divide, 101, f, g, rooms);
        self.expect(&call, expected)
    }

    fn divides(&mut self, f: &[u64], g: &[u64], room: usize, expected: Expected) -> Outcome {
        let call = self.call(Kind::Divides, 101, f, g, [room, 0]);
        self.expect(&call, expected)
    }

    fn expect(&mut self, call: &Call, expected: Expected) -> Outcome {
        match expected {
            Done(results) => {
                let terms = |i: usize| results.get(i).map_or(0, |words| words.len() as u64 / 2);
                let report = [0, 0, 0, terms(0), terms(1)];
                expect(call, &report, results, self.tally)
            }
            Reply(number, operand) => expect(call, &[number, operand, 0, 0, 0], &[], self.tally),
        }
    }
}

/// Done with these results, or a reply with its operand.
#[derive(Clone, Copy)]
enum Expected<'a> {
    Done(&'a [Vec<u64>]),
    Reply(u64, u64),
}
use Expected::{Done, Reply};

/// The words of a polynomial modulo p whose coefficients are given as signed numbers.
fn modulo(p: u64, terms: &[(i64, Monomial)]) -> Vec<u64> {
    let residue = |c: i64| c.rem_euclid(p as i64) as u64;
    let terms = terms.iter().map(|&(c, m)| (m, residue(c)));
    words(&terms.collect::<Polynomial>())
}

fn poly(terms: &[(i64, Monomial)]) -> Vec<u64> {
    modulo(101, terms)
}

fn x(e: u64) -> Monomial {
    power(0, e)
}

fn y(e: u64) -> Monomial {
    power(1, e)
}

const ONE: Monomial = [0; 4];

fn first_factor() -> Vec<u64> {
    poly(&[(2, x(4)), (3, x(3)), (4, x(1))])
}

fn second_factor() -> Vec<u64> {
    poly(&[(1, x(5)), (5, x(3)), (7, ONE)])
}

fn their_product() -> Vec<u64> {
    let high = [(2, x(9)), (3, x(8)), (10, x(7)), (19, x(6))];
    let low = [(34, x(4)), (21, x(3)), (28, x(1))];
    poly(&[&high[..], &low[..]].concat())
}

fn x_minus_one(e: u64) -> Vec<u64> {
    poly(&[(1, x(e)), (-1, ONE)])
}

fn row_1(sheet: &mut Sheet) -> Outcome {
    let (a, b, product) = (first_factor(), second_factor(), their_product());
    sheet.product(101, &a, &b, 7, Done(&[product]))?;
    sheet.product(101, &a, &b, 6, Reply(10, 0))
}

fn row_2(sheet: &mut Sheet) -> Outcome {
    let (f, g, quotient) = (their_product(), first_factor(), [second_factor()]);
    sheet.divide(&f, &g, [3, 0], Done(&quotient))?;
    sheet.divides(&f, &g, 3, Done(&quotient))
}

fn row_3(sheet: &mut Sheet) -> Outcome {
    let f = poly(&[(1, [2, 1, 0, 0]), (1, [1, 2, 0, 0]), (1, y(2))]);
    let g = poly(&[(1, [1, 1, 0, 0]), (-1, ONE)]);
    let quotient = vec![0x0001_0000_0000_0000, 1, 0x0000_0001_0000_0000, 1];
    let remainder = poly(&[(1, x(1)), (1, y(2)), (1, y(1))]);
    sheet.divide(&f, &g, [3, 3], Done(&[quotient, remainder]))?;
    sheet.divides(&f, &g, 3, Reply(12, 0))
}

fn row_4(sheet: &mut Sheet) -> Outcome {
    let sum = poly(&[(1, x(1)), (1, y(1))]);
    let difference = poly(&[(1, x(1)), (-1, y(1))]);
    let product = poly(&[(1, x(2)), (-1, y(2))]);
    sheet.product(101, &sum, &difference, 2, Done(&[product]))
}

fn row_5(sheet: &mut Sheet) -> Outcome {
    let a = modulo(2, &[(1, x(1)), (1, ONE)]);
    let square = modulo(2, &[(1, x(2)), (1, ONE)]);
    sheet.product(2, &a, &a, 2, Done(&[square]))
}

fn row_6(sheet: &mut Sheet) -> Outcome {
    let power = |e| poly(&[(1, x(e))]);
    let highest = [power(32_767)];
    sheet.product(101, &power(16_383), &power(16_384), 1, Done(&highest))?;
    sheet.product(101, &highest[0], &power(1), 1, Reply(9, 0))
}

fn row_7(sheet: &mut Sheet) -> Outcome {
    let f = poly(&[(1, x(2))]);
    let g = poly(&[(1, x(1)), (-1, y(20_000))]);
    sheet.divide(&f, &g, [4, 4], Reply(9, 0))?;
    sheet.divide(&f, &g, [1, 4], Reply(9, 0))?;
    sheet.divides(&f, &g, 4, Reply(12, 0))
}

fn row_8(sheet: &mut Sheet) -> Outcome {
    let (f, g) = (x_minus_one(3), x_minus_one(1));
    let quotient = [poly(&[(1, x(2)), (1, x(1)), (1, ONE)])];
    sheet.divide(&f, &g, [3, 1], Done(&quotient))?;
    sheet.divides(&f, &g, 3, Done(&quotient))?;
    sheet.divide(&f, &g, [2, 1], Reply(10, 0))?;
    sheet.divides(&f, &g, 2, Reply(10, 0))
}

fn row_9(sheet: &mut Sheet) -> Outcome {
    let (f, g) = (x_minus_one(5_000), x_minus_one(1));
    sheet.divide(&f, &g, [4_096, 1], Reply(10, 0))?;
    sheet.divides(&f, &g, 4_096, Reply(10, 0))
}

fn row_10(sheet: &mut Sheet) -> Outcome {
    let x = poly(&[(1, x(1))]);
    sheet.divide(&[], &x, [0, 0], Done(&[]))?;
    sheet.divides(&[], &x, 0, Done(&[]))?;
    sheet.divide(&x, &[], [1, 1], Reply(7, 2))?;
    sheet.divides(&x, &[], 1, Reply(7, 2))
}

/// The example itself, and every nonzero f by itself on random input.
fn row_11(sheet: &mut Sheet) -> Outcome {
    let one = [poly(&[(1, ONE)])];
    let f = first_factor();
    sheet.divide(&f, &f, [1, 0], Done(&one))?;
    for _ in 0..5_000 {
        let p = sheet.moduli.good(sheet.rng);
        let shape = any_shape(sheet.rng);
        let f = words(&nonzero(sheet.rng, p, shape));
        let rooms = [1, sheet.rng.size(3)];
        let call = sheet.call(Kind::Divide, p, &f, &f, rooms);
        sheet.expect(&call, Done(&one))?;
    }
    Ok(())
}

fn row_12(sheet: &mut Sheet) -> Outcome {
    for p in [1, 4, 2_147_483_646, 2_147_483_648] {
        let check = sheet.call(Kind::Check, p, &[], &[], [0, 0]);
        sheet.expect(&check, Reply(1, 0))?;
        let sum = Call::on_numbers(Kind::FieldSum, p, [1, 1, 0, 0]);
        expect(&sum, &[1, 0], &[], sheet.tally)?;
    }
    for p in [2, 2_147_483_647] {
        let check = sheet.call(Kind::Check, p, &[], &[], [0, 0]);
        sheet.expect(&check, Done(&[]))?;
        let sum = Call::on_numbers(Kind::FieldSum, p, [p - 1, 1, 0, 0]);
        expect(&sum, &[0, 0], &[], sheet.tally)?;
    }
    Ok(())
}

fn row_13(sheet: &mut Sheet) -> Outcome {
    for (p, c, value) in [(101, 50, 50), (101, 51, -50), (101, 100, -1), (2, 1, 1)] {
        let call = Call::on_numbers(Kind::Balanced, p, [c, 0, 0, 0]);
        expect(&call, &[0, i64::from(value) as u64], &[], sheet.tally)?;
    }
    Ok(())
}
