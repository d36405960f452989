//! The tables of docs/BENCHMARK.md.

use crate::contest::Measure;
use crate::flint;
use crate::Times;
use std::fmt::Write;
use std::fs;

/// One line of a table: what was done, and how long each contender took.
pub struct Row {
    pub title: String,
    /// RULES Speed asks for a speed here.
    pub asked: bool,
    pub times: Times,
}

impl Row {
    /// The peers that are quicker, and how many times as long the engine takes.
    pub fn quicker_peers(&self) -> Vec<(&'static str, f64)> {
        let peers = [
            ("merging", self.times.merging),
            ("FLINT", Some(self.times.flint)),
        ];
        peers
            .iter()
            .filter_map(|&(peer, measure)| Some((peer, 1.0 / measure?.ratio)))
            .filter(|&(_, factor)| factor > 1.0)
            .collect()
    }
}

pub fn write(path: &str, date: &str, tasks: &[Row], products: &[Row], divisions: &[Row]) {
    let mut page = introduction(date);
    page += "\n## Tasks\n\n";
    page += &table("task", tasks);
    page += &of_the_rule(tasks);
    page += &slower(tasks);
    page += "\n## Growth\n\n![time against terms](growth.svg)\n\nProducts of n by n terms:\n\n";
    page += &table("size", products);
    page += &slower(products);
    page += "\nDivisions of a product of n terms by one of its factors; ";
    page += "both factors have about √n terms:\n\n";
    page += &table("size", divisions);
    page += &slower(divisions);
    fs::write(path, page).expect("docs/ can be written");
}

fn introduction(date: &str) -> String {
    include_str!("introduction.md")
        .replace("{date}", date)
        .replace("{machine}", &machine())
        .replace("{flint}", &flint::version())
}

pub fn machine() -> String {
    let info = fs::read_to_string("/proc/cpuinfo").unwrap_or_default();
    let models: Vec<&str> = info
        .lines()
        .filter_map(|line| line.strip_prefix("model name")?.split_once(": "))
        .map(|(_, model)| model)
        .collect();
    let model = models.first().unwrap_or(&"an unknown processor");
    format!("{model}, {} cores", models.len())
}

fn table(first_column: &str, rows: &[Row]) -> String {
    let mut text = format!(
        "| {first_column} | engine | merging | FLINT | merging ÷ engine | FLINT ÷ engine |\n\
         |---|---|---|---|---|---|\n"
    );
    for Row { title, times, .. } in rows {
        let (merging, merging_ratio) = cells(times.merging);
        let (flint, flint_ratio) = cells(Some(times.flint));
        let engine = readable(times.engine.time);
        writeln!(
            text,
            "| {title} | {engine} | {merging} | {flint} | {merging_ratio} | {flint_ratio} |"
        )
        .expect("a string");
    }
    text
}

/// The time and the ratio of a contender, if it has been at this task.
pub fn cells(measure: Option<Measure>) -> (String, String) {
    match measure {
        Some(Measure { time, ratio }) => (readable(time), format!("{ratio:.2}")),
        None => ("–".to_string(), "–".to_string()),
    }
}

/// Seconds with three figures.
pub fn readable(seconds: f64) -> String {
    let (number, unit) = match seconds {
        s if s < 1e-3 => (s * 1e6, "µs"),
        s if s < 1.0 => (s * 1e3, "ms"),
        s => (s, "s"),
    };
    let decimals = match number {
        n if n < 10.0 => 2,
        n if n < 100.0 => 1,
        _ => 0,
    };
    format!("{number:.decimals$} {unit}")
}

/// What RULES Speed asks for, and what was measured.
fn of_the_rule(rows: &[Row]) -> String {
    let mut text =
        "\nRULES Speed asks that merging takes at least twice as long as the engine:\n\n"
            .to_string();
    for row in rows.iter().filter(|row| row.asked) {
        let factor = row.times.merging.expect("the rule is about division").ratio;
        let met = if factor >= 2.0 { "met" } else { "not met" };
        writeln!(text, "- {}: {factor:.2}, {met}", row.title).expect("a string");
    }
    text
}

/// Where a peer is quicker, said in words.
fn slower(rows: &[Row]) -> String {
    let mut slower = Vec::new();
    for row in rows {
        for (peer, factor) in row.quicker_peers() {
            let title = &row.title;
            slower.push(format!("- {title}: {factor:.2} times as long as {peer}"));
        }
    }
    if slower.is_empty() {
        return "\nThe engine is slower than neither peer in any line of this table.\n".to_string();
    }
    format!(
        "\nWhere the engine is slower than a peer:\n\n{}\n",
        slower.join("\n")
    )
}
