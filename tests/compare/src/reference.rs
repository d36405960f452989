//! The second program's answer to a call.

use crate::call::{Answer, Call, Kind};
use second::field::{self, Value};
use second::packing::{self, Packed};
use second::profile::Profile;
use second::report::Report;

pub fn answer(call: &Call) -> Answer {
    let mut arrays = call.arrays.clone();
    let numbers = numbers(call, &mut arrays);
    Answer { numbers, arrays }
}

fn numbers(call: &Call, [a, b, c, d, work]: &mut [Vec<u64>; 5]) -> Vec<u64> {
    let p = call.p;
    match call.kind {
        Kind::Check => report(second::check::check(p, a)),
        Kind::ProfileOf => profiled(second::profile::profile_of(p, a)),
        Kind::Run => {
            let part = second::run::run(a, call.numbers[0]);
            vec![part.start as u64, part.end as u64]
        }
        Kind::Sum => report(second::sums::sum(p, a, b, c)),
        Kind::Difference => report(second::sums::difference(p, a, b, c)),
        Kind::Product => report(second::product::product(p, a, b, c, work)),
        Kind::Divide => report(second::division::divide(p, a, b, c, d, work)),
        Kind::Divides => report(second::divide_test::divides(p, a, b, c, work)),
        _ => on_numbers(call.kind, p, call.numbers),
    }
}

fn on_numbers(kind: Kind, p: u64, numbers: [u64; 4]) -> Vec<u64> {
    let [k, l, ..] = numbers;
    match kind {
        Kind::FieldSum => value(field::sum(p, k, l)),
        Kind::FieldProduct => value(field::product(p, k, l)),
        Kind::FieldInverse => value(field::inverse(p, k)),
        Kind::Residue => value(field::residue(p, k as i32)),
        Kind::Balanced => {
            let balance = field::balanced(p, k);
            vec![balance.number, balance.value as u64]
        }
        Kind::Pack => {
            let Packed { number, value } = packing::pack(numbers);
            vec![number, value]
        }
        Kind::Unpack => {
            let unpacked = packing::unpack(k);
            [vec![unpacked.number], unpacked.exponents.to_vec()].concat()
        }
        _ => unreachable!("{kind:?} is a call on arrays"),
    }
}

fn report(r: Report) -> Vec<u64> {
    vec![r.number, r.operand, r.index, r.first, r.second]
}

fn profiled((beside, profile): (Report, Profile)) -> Vec<u64> {
    let mut numbers = report(beside);
    numbers.push(profile.terms);
    numbers.extend(profile.exponents);
    numbers.push(profile.total);
    numbers
}

fn value(answer: Value) -> Vec<u64> {
    vec![answer.number, answer.value]
}
