//! The table of README.md, between its two marker lines.

use crate::flint;
use crate::report::{cells, machine, readable, Row};
use std::fmt::Write;
use std::fs;

const FROM: &str = "<!-- bench/run writes the lines from here -->\n";
const TO: &str = "<!-- to here -->\n";

pub fn write(path: &str, date: &str, tasks: &[Row]) {
    let page = fs::read_to_string(path).expect("README.md can be read");
    let measured = format!(
        "\nMeasured on {date} on {}, with FLINT {}.\n\n",
        machine(),
        flint::version()
    );
    let lines = [measured, table(tasks), slower(tasks)].concat();
    fs::write(path, between_markers(&page, &lines)).expect("README.md can be written");
}

fn between_markers(page: &str, lines: &str) -> String {
    let (before, rest) = page.split_once(FROM).expect("the first marker line");
    let (_, after) = rest.split_once(TO).expect("the second marker line");
    [before, FROM, lines, TO, after].concat()
}

fn table(tasks: &[Row]) -> String {
    let mut text =
        "| task | engine | merging ÷ engine | FLINT ÷ engine |\n|---|---|---|---|\n".to_string();
    for Row { title, times, .. } in tasks {
        let engine = readable(times.engine.time);
        let (_, merging) = cells(times.merging);
        let (_, flint) = cells(Some(times.flint));
        writeln!(text, "| {title} | {engine} | {merging} | {flint} |").expect("a string");
    }
    text
}

/// In how many tasks a peer is quicker, and by how much at most.
fn slower(tasks: &[Row]) -> String {
    let peers: Vec<_> = tasks.iter().map(Row::quicker_peers).collect();
    let lost = peers.iter().filter(|peers| !peers.is_empty()).count();
    let factors = peers.iter().flatten().map(|&(_, factor)| factor);
    let all = tasks.len();
    match factors.max_by(f64::total_cmp) {
        None => format!("\nNo peer is quicker in any of the {all} tasks.\n\n"),
        Some(most) => {
            let worst = format!("at worst the engine takes {most:.2} times as long");
            format!("\nA peer is quicker in {lost} of the {all} tasks; {worst}.\n\n")
        }
    }
}
