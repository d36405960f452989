//! The engine's answer to a call, each array between canaries.

use crate::call::{Answer, Call, Kind};
use crate::lent::Lent;
use garantepo::{Exponents, Profiled, Report, Value};

pub fn answer(call: &Call) -> Result<Answer, String> {
    let mut lent = call.arrays.each_ref().map(|array| Lent::new(array));
    let numbers = numbers(call, &mut lent);
    match lent.iter().position(|array| !array.canaries_live()) {
        Some(i) => Err(format!("a word beside operand {} was changed", i + 1)),
        None => Ok(Answer {
            numbers,
            arrays: lent.map(|array| array.words().to_vec()),
        }),
    }
}

fn numbers(call: &Call, lent: &mut [Lent; 5]) -> Vec<u64> {
    let [a, b, c, d, work] = lent;
    let (a, b) = inputs(a, b);
    let (c, d, work) = (c.words_mut(), d.words_mut(), work.words_mut());
    let p = call.p;
    match call.kind {
        Kind::Check => report(garantepo::check(p, a)),
        Kind::ProfileOf => profiled(garantepo::profile_of(p, a)),
        Kind::Run => part(a, garantepo::run(a, call.numbers[0])),
        Kind::Sum => report(garantepo::sum(p, a, b, c)),
        Kind::Difference => report(garantepo::difference(p, a, b, c)),
        Kind::Product => report(garantepo::product(p, a, b, c, work)),
        Kind::Divide => report(garantepo::divide(p, a, b, c, d, work)),
        Kind::Divides => report(garantepo::divides(p, a, b, c, work)),
        _ => on_numbers(call.kind, p, call.numbers),
    }
}

fn on_numbers(kind: Kind, p: u64, [k, l, m, n]: [u64; 4]) -> Vec<u64> {
    match kind {
        Kind::FieldSum => value(garantepo::field_sum(p, k, l)),
        Kind::FieldProduct => value(garantepo::field_product(p, k, l)),
        Kind::FieldInverse => value(garantepo::field_inverse(p, k)),
        Kind::Residue => value(garantepo::residue(p, k as i32)),
        Kind::Balanced => {
            let balance = garantepo::balanced(p, k);
            vec![balance.number, balance.value as u64]
        }
        Kind::Pack => value(garantepo::pack(k, l, m, n)),
        Kind::Unpack => exponents(garantepo::unpack(k)),
        _ => unreachable!("{kind:?} is a call on arrays"),
    }
}

/// Inputs that are alike are lent as one slice, which a caller may do.
fn inputs<'a>(a: &'a Lent, b: &'a Lent) -> (&'a [u64], &'a [u64]) {
    if a.words() == b.words() {
        (a.words(), a.words())
    } else {
        (a.words(), b.words())
    }
}

fn report(r: Report) -> Vec<u64> {
    vec![r.number, r.operand, r.index, r.first, r.second]
}

fn profiled(answer: Profiled) -> Vec<u64> {
    let mut numbers = report(answer.report);
    numbers.push(answer.profile.terms);
    numbers.extend(answer.profile.exponents);
    numbers.push(answer.profile.total);
    numbers
}

/// Where a part lies in its slice, in words.
fn part(whole: &[u64], part: &[u64]) -> Vec<u64> {
    let bytes = part.as_ptr() as usize - whole.as_ptr() as usize;
    let start = bytes / size_of::<u64>();
    vec![start as u64, (start + part.len()) as u64]
}

fn value(answer: Value) -> Vec<u64> {
    vec![answer.number, answer.value]
}

fn exponents(answer: Exponents) -> Vec<u64> {
    let mut numbers = vec![answer.number];
    numbers.extend(answer.exponents);
    numbers
}
