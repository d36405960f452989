//! The engine as a contender.

use crate::contest::{Contender, Operation, Task};
use garantepo::{limit, Report};

pub struct Engine<'a> {
    task: &'a Task,
    outputs: [Vec<u64>; 2],
    work: Vec<u64>,
    report: Report,
}

impl<'a> Engine<'a> {
    pub fn new(task: &'a Task) -> Self {
        let terms = match task.operation {
            Operation::Sum | Operation::Difference => 0,
            Operation::Product => task.first.len().min(task.second.len()) / 2,
            Operation::Division | Operation::Test => task.rooms[0],
        };
        Engine {
            task,
            outputs: task.rooms.map(|terms| vec![0; 2 * terms]),
            work: vec![0; limit::WORK_WORDS * terms],
            report: Report::default(),
        }
    }
}

impl Contender for Engine<'_> {
    fn clear(&mut self) {
        self.outputs.iter_mut().for_each(|output| output.fill(0));
        self.work.fill(0);
    }

    fn call(&mut self) {
        let Task {
            p, first, second, ..
        } = self.task;
        let [q, r] = &mut self.outputs;
        let work = &mut self.work;
        self.report = match self.task.operation {
            Operation::Sum => garantepo::sum(*p, first, second, q),
            Operation::Difference => garantepo::difference(*p, first, second, q),
            Operation::Product => garantepo::product(*p, first, second, q, work),
            Operation::Division => garantepo::divide(*p, first, second, q, r, work),
            Operation::Test => garantepo::divides(*p, first, second, q, work),
        };
    }

    fn answer(&self) -> [Vec<u64>; 2] {
        let Report {
            number,
            first,
            second,
            ..
        } = self.report;
        assert_eq!(number, 0, "the engine refused a task");
        [first, second]
            .map(|terms| 2 * terms as usize)
            .into_iter()
            .zip(&self.outputs)
            .map(|(words, output)| output[..words].to_vec())
            .collect::<Vec<_>>()
            .try_into()
            .expect("two outputs")
    }
}
