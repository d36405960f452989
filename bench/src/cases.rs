//! The tasks of the tables.

use crate::contest::{Operation, Task};
use crate::inputs::{dense_power, disjoint_sum, minus_one, product, sparse, sparse_below, Rng, P};
use garantepo::limit;

/// A task and what a reader calls it.
pub struct Case {
    pub title: String,
    /// RULES Speed asks for a speed here.
    pub asked: bool,
    pub task: Task,
}

/// The most terms of an input or a quotient room.
const FULL: usize = limit::INPUT_TERMS;

/// The inputs of RULES Speed first, then those of other shapes.
pub fn tasks() -> Vec<Case> {
    let mut cases = of_the_rule();
    cases.extend(sums());
    cases.extend(long_by_short());
    cases.extend(with_remainder());
    cases.extend(dense());
    cases.extend(powers_of_x());
    cases
}

/// Two random factors of 64 terms, and their product divided by one of them.
fn of_the_rule() -> Vec<Case> {
    let rng = &mut Rng::new(5);
    let (a, b) = (sparse(rng, 64), sparse(rng, 64));
    let f = product(&a, &b);
    let mut cases = vec![case("product, 64 by 64 terms", multiply(&a, &b))];
    for (name, operation) in [
        ("division", Operation::Division),
        ("divide test", Operation::Test),
    ] {
        for (room, in_words) in [(64, "64"), (FULL, "4,096")] {
            let title = format!("{name} of that product by a factor, quotient room {in_words}");
            let task = divide(operation, &f, &b, [room, 0]);
            cases.push(Case {
                title,
                asked: operation == Operation::Division,
                task,
            });
        }
    }
    cases
}

/// Long ones alone: of a short sum that is taken again and again a processor learns the order of the
/// terms by heart.
fn sums() -> [Case; 3] {
    let rng = &mut Rng::new(4);
    let [a, b] = [(); 2].map(|_| sparse(rng, FULL));
    [
        case(
            "sum, 4,096 and 4,096 terms",
            combine(Operation::Sum, &a, &b),
        ),
        case(
            "difference, 4,096 and 4,096 terms",
            combine(Operation::Difference, &a, &b),
        ),
        case(
            "sum, 4,096 terms and the same",
            combine(Operation::Sum, &a, &a),
        ),
    ]
}

fn long_by_short() -> [Case; 2] {
    let rng = &mut Rng::new(6);
    let (long, middle, short) = (sparse(rng, FULL), sparse(rng, FULL / 8), sparse(rng, 8));
    let f = product(&middle, &short);
    [
        case("product, 4,096 by 8 terms", multiply(&long, &short)),
        case(
            "division, 4,096 by 8 terms",
            divide(Operation::Division, &f, &short, [512, 0]),
        ),
    ]
}

/// Half of the dividend is a multiple, and no term of the other half can be divided; and a dense
/// power by another that is no factor of it, where quotient terms come from terms already divided.
fn with_remainder() -> [Case; 2] {
    let rng = &mut Rng::new(7);
    let (a, g) = (sparse(rng, 64), sparse(rng, 32));
    let lead_x = g[0] >> 48;
    let f = disjoint_sum(&product(&a, &g), &sparse_below(rng, 2_048, lead_x));
    let (power, other) = (dense_power(12, [1; 4]), dense_power(3, [1, 2, 3, 4]));
    [
        case(
            "division, 4,096 by 32 terms, remainder of 2,048",
            divide(Operation::Division, &f, &g, [64, 2_048]),
        ),
        case(
            "division, s^12 by (x + y + 2z + 3t + 4)^3, 1,820 by 35 terms, remainder of 445",
            divide(Operation::Division, &power, &other, [703, 445]),
        ),
    ]
}

fn dense() -> [Case; 3] {
    let [a, b] = [7, 8].map(|k| dense_power(k, [1; 4]));
    let f = product(&a, &b);
    [
        case("product, s^8 by s^8, 495 terms each", multiply(&b, &b)),
        case(
            "division, s^15 by s^8, 3,876 by 495 terms",
            divide(Operation::Division, &f, &b, [330, 0]),
        ),
        case(
            "divide test, s^15 by s^8",
            divide(Operation::Test, &f, &b, [330, 0]),
        ),
    ]
}

fn powers_of_x() -> [Case; 2] {
    let (f, g) = (minus_one(4_000), minus_one(1));
    [
        case(
            "division, x^4000 − 1 by x − 1",
            divide(Operation::Division, &f, &g, [4_000, 0]),
        ),
        case(
            "divide test, x^4000 − 1 by x − 1",
            divide(Operation::Test, &f, &g, [4_000, 0]),
        ),
    ]
}

/// Products of n by n terms.
pub fn growing_products() -> Vec<(usize, Task)> {
    let rng = &mut Rng::new(8);
    sizes()
        .map(|n| (n, multiply(&sparse(rng, n), &sparse(rng, n))))
        .collect()
}

/// Products of n terms divided by one factor; both factors have about √n terms.
pub fn growing_divisions() -> Vec<(usize, Task)> {
    let rng = &mut Rng::new(9);
    sizes()
        .map(|n| {
            let short = 1 << (n.ilog2() / 2);
            let (a, g) = (sparse(rng, n / short), sparse(rng, short));
            let f = product(&a, &g);
            (n, divide(Operation::Division, &f, &g, [n / short, 0]))
        })
        .collect()
}

fn sizes() -> impl Iterator<Item = usize> {
    (6..=12).map(|k| 1 << k)
}

fn case(title: &str, task: Task) -> Case {
    Case {
        title: title.to_string(),
        asked: false,
        task,
    }
}

fn combine(operation: Operation, a: &[u64], b: &[u64]) -> Task {
    Task {
        operation,
        p: P,
        first: a.to_vec(),
        second: b.to_vec(),
        rooms: [(a.len() + b.len()) / 2, 0],
    }
}

fn multiply(a: &[u64], b: &[u64]) -> Task {
    Task {
        operation: Operation::Product,
        p: P,
        first: a.to_vec(),
        second: b.to_vec(),
        rooms: [a.len() / 2 * (b.len() / 2), 0],
    }
}

fn divide(operation: Operation, f: &[u64], g: &[u64], rooms: [usize; 2]) -> Task {
    Task {
        operation,
        p: P,
        first: f.to_vec(),
        second: g.to_vec(),
        rooms,
    }
}
