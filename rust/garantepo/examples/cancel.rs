//! Cancels a common factor: a fraction of two polynomials and a candidate factor of both. Where it
//! divides both, the reduced fraction is printed; otherwise which of "no" and "no room" was met. The
//! same program in C is `examples/cancel.c`.

use garantepo::{balanced, divides, limit, pack, reply, residue, unpack, Report};

const P: u64 = 101;

/// The longest quotient room there is.
const ROOM: usize = limit::INPUT_TERMS;

/// A coefficient and the exponents of x, y, z and t.
type Term = (i32, [u64; 4]);

fn main() {
    both_divided();
    only_one_divided();
    quotient_too_long();
}

/// Both are multiples of x^5+5*x^3+7.
fn both_divided() {
    let x = |e| [e, 0, 0, 0];
    let xy = |e| [e, 1, 0, 0];
    let high = [(2, x(9)), (3, x(8)), (10, x(7)), (19, x(6))];
    let low = [(34, x(4)), (21, x(3)), (28, x(1))];
    let with_y = [(1, xy(6)), (-1, x(5)), (5, xy(4))];
    let rest = [(-5, x(3)), (7, xy(1)), (-7, x(0))];
    cancel(
        &[&high[..], &low].concat(),
        &[with_y, rest].concat(),
        &[(1, x(5)), (5, x(3)), (7, x(0))],
    );
}

/// Only the first is a multiple of x*y-1.
fn only_one_divided() {
    let m = |x, y| [x, y, 0, 0];
    cancel(
        &[(1, m(2, 1)), (1, m(1, 2)), (-1, m(1, 0)), (-1, m(0, 1))],
        &[(1, m(2, 1)), (1, m(1, 2)), (1, m(0, 2))],
        &[(1, m(1, 1)), (-1, m(0, 0))],
    );
}

/// x-1 divides both, but the first quotient has 5,000 terms.
fn quotient_too_long() {
    let minus_one = |e| [(1, [e, 0, 0, 0]), (-1, [0; 4])];
    cancel(&minus_one(5_000), &minus_one(3), &minus_one(1));
}

fn cancel(upper: &[Term], lower: &[Term], factor: &[Term]) {
    let [upper, lower, factor] = [upper, lower, factor].map(words);
    println!("{} by {}", fraction(&upper, &lower), readable(&factor));
    let reduced = divide_out(&upper, &factor)
        .map_err(|report| trouble("first", report))
        .and_then(|upper| match divide_out(&lower, &factor) {
            Ok(lower) => Ok(fraction(&upper, &lower)),
            Err(report) => Err(trouble("second", report)),
        });
    match reduced {
        Ok(text) | Err(text) => println!("  {text}"),
    }
}

/// The quotient, or the report where the divide test didn't say yes.
fn divide_out(f: &[u64], factor: &[u64]) -> Result<Vec<u64>, Report> {
    let mut quotient = vec![0; 2 * ROOM];
    let mut work = vec![0; limit::WORK_WORDS * ROOM];
    let report = divides(P, f, factor, &mut quotient, &mut work);
    if report.number != reply::DONE {
        return Err(report);
    }
    quotient.truncate(2 * report.first as usize);
    Ok(quotient)
}

fn trouble(which: &str, met: Report) -> String {
    match met.number {
        reply::NOT_DIVISIBLE => format!("no: the factor does not divide the {which} polynomial"),
        reply::NO_ROOM => {
            format!("no room: {ROOM} terms cannot hold a quotient of the {which} polynomial")
        }
        number => format!(
            "refused: reply {number}, operand {}, term {}",
            met.operand, met.index
        ),
    }
}

/// The words of a polynomial whose terms are given in falling order.
fn words(terms: &[Term]) -> Vec<u64> {
    let record = |&(c, [x, y, z, t]): &Term| [pack(x, y, z, t).value, residue(P, c).value];
    terms.iter().flat_map(record).collect()
}

fn fraction(upper: &[u64], lower: &[u64]) -> String {
    format!("({}) / ({})", readable(upper), readable(lower))
}

/// As 2*x^9-3*x^8+1, with balanced coefficients.
fn readable(words: &[u64]) -> String {
    let terms: String = words.chunks_exact(2).map(readable_term).collect();
    match terms.strip_prefix('+').unwrap_or(&terms) {
        "" => "0".to_string(),
        text => text.to_string(),
    }
}

/// One term with its sign in front.
fn readable_term(record: &[u64]) -> String {
    let c = balanced(P, record[1]).value;
    let mut factors = Vec::new();
    for (letter, e) in ["x", "y", "z", "t"].iter().zip(unpack(record[0]).exponents) {
        match e {
            0 => {}
            1 => factors.push(letter.to_string()),
            _ => factors.push(format!("{letter}^{e}")),
        }
    }
    if c.abs() != 1 || factors.is_empty() {
        factors.insert(0, c.abs().to_string());
    }
    let sign = if c < 0 { '-' } else { '+' };
    format!("{sign}{}", factors.join("*"))
}
