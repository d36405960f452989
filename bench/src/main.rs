//! The benchmark: the engine against plain merging and against FLINT, in one process.
//!
//! `bench DATE` writes docs/BENCHMARK.md, docs/growth.svg and the table of README.md under the current
//! folder.

mod cases;
mod clock;
mod contest;
mod engine;
mod flint;
mod inputs;
mod merging;
mod plot;
mod readme;
mod report;

use cases::Case;
use contest::{measure, Contender, Measure, Operation, Task};
use plot::Panel;
use report::Row;

/// What was measured at one task; the merging program has no product.
#[derive(Clone, Copy)]
pub struct Times {
    pub engine: Measure,
    pub merging: Option<Measure>,
    pub flint: Measure,
}

fn main() {
    let date = std::env::args().nth(1).expect("the date as an argument");
    let tasks: Vec<Row> = cases::tasks().into_iter().map(row).collect();
    let products = growth(cases::growing_products());
    let divisions = growth(cases::growing_divisions());
    let panels = [
        panel("product of n by n terms", &products),
        panel("n terms divided by about √n terms", &divisions),
    ];
    plot::write("docs/growth.svg", &panels);
    let [products, divisions] = [products, divisions].map(|points| {
        let row = |(n, times): (usize, Times)| Row {
            title: format!("n = {n}"),
            asked: false,
            times,
        };
        points.into_iter().map(row).collect::<Vec<_>>()
    });
    report::write("docs/BENCHMARK.md", &date, &tasks, &products, &divisions);
    readme::write("README.md", &date, &tasks);
}

fn row(case: Case) -> Row {
    let times = contest(&case.task);
    print(&case.title, times);
    Row {
        title: case.title,
        asked: case.asked,
        times,
    }
}

fn growth(tasks: Vec<(usize, Task)>) -> Vec<(usize, Times)> {
    let mut points = Vec::new();
    for (n, task) in tasks {
        let times = contest(&task);
        print(&format!("n = {n}"), times);
        points.push((n, times));
    }
    points
}

fn panel<'a>(title: &'a str, points: &[(usize, Times)]) -> Panel<'a> {
    let points = points.to_vec();
    Panel { title, points }
}

fn contest(task: &Task) -> Times {
    let mut contenders: Vec<Box<dyn Contender + '_>> = vec![
        Box::new(engine::Engine::new(task)),
        Box::new(flint::Flint::new(task)),
    ];
    if task.operation != Operation::Product {
        contenders.push(Box::new(merging::Merging::new(task)));
    }
    let times = measure(&mut contenders);
    Times {
        engine: times[0],
        flint: times[1],
        merging: times.get(2).copied(),
    }
}

fn print(title: &str, times: Times) {
    let merging = times
        .merging
        .map_or("–".to_string(), |merging| format!("{:.2}", merging.ratio));
    println!(
        "{title}: engine {:.1} µs, merging ÷ engine {merging}, FLINT ÷ engine {:.2}",
        times.engine.time * 1e6,
        times.flint.ratio
    );
}
