//! The plot of growth: time against number of terms, both on logarithmic axes.

use crate::Times;
use std::fmt::Write;
use std::fs;
use std::ops::RangeInclusive;

pub struct Panel<'a> {
    pub title: &'a str,
    pub points: Vec<(usize, Times)>,
}

const WIDTH: f64 = 380.0;
const HEIGHT: f64 = 320.0;
const LEFT: f64 = 110.0;
const TOP: f64 = 50.0;
const BOTTOM: f64 = TOP + HEIGHT;

/// Name, colour, and which time it is.
type Contender = (&'static str, &'static str, fn(&Times) -> Option<f64>);

const CONTENDERS: [Contender; 3] = [
    ("engine", "#1f5fa8", |times| Some(times.engine.time)),
    ("merging", "#3a8a3a", |times| {
        times.merging.map(|merging| merging.time)
    }),
    ("FLINT", "#c8641e", |times| Some(times.flint.time)),
];

pub fn write(path: &str, panels: &[Panel]) {
    let width = panels.len() as f64 * (WIDTH + LEFT) + 30.0;
    let height = BOTTOM + 60.0;
    let mut svg = format!(
        "<svg xmlns=\"http://www.w3.org/2000/svg\" width=\"{width}\" height=\"{height}\" \
         viewBox=\"0 0 {width} {height}\" font-family=\"sans-serif\" font-size=\"13\">\n\
         <rect width=\"{width}\" height=\"{height}\" fill=\"white\"/>\n"
    );
    for (i, panel) in panels.iter().enumerate() {
        let left = LEFT + i as f64 * (WIDTH + LEFT);
        let decades = decades(panel);
        axes(&mut svg, left, panel, &decades);
        curves(&mut svg, left, panel, &decades);
    }
    svg += "</svg>\n";
    fs::write(path, svg).expect("docs/ can be written");
}

/// The decades of seconds in which all times of a panel lie.
fn decades(panel: &Panel) -> RangeInclusive<i32> {
    let times = panel.points.iter().flat_map(|(_, times)| {
        CONTENDERS
            .iter()
            .filter_map(|(_, _, of)| of(times))
            .map(f64::log10)
    });
    let (low, high) = times.fold((f64::MAX, f64::MIN), |(low, high), t| {
        (low.min(t), high.max(t))
    });
    low.floor() as i32..=high.ceil() as i32
}

fn axes(svg: &mut String, left: f64, panel: &Panel, decades: &RangeInclusive<i32>) {
    let centre = left + WIDTH / 2.0;
    text(svg, centre, TOP - 20.0, "middle", "#111", panel.title);
    text(
        svg,
        centre,
        BOTTOM + 45.0,
        "middle",
        "#111",
        "number of terms n",
    );
    let (x, y) = (left - 70.0, TOP + HEIGHT / 2.0);
    writeln!(svg, "<g transform=\"rotate(-90 {x} {y})\">").expect("a string");
    text(svg, x, y, "middle", "#111", "processor time of one call");
    *svg += "</g>\n";
    for decade in decades.clone() {
        let y = y_of(10f64.powi(decade), decades);
        line(svg, [left, y], [left + WIDTH, y], "#ddd");
        text(svg, left - 8.0, y + 4.0, "end", "#333", &name_of(decade));
    }
    for &(n, _) in &panel.points {
        let x = left + x_of(n);
        line(svg, [x, TOP], [x, BOTTOM], "#eee");
        text(svg, x, BOTTOM + 20.0, "middle", "#333", &n.to_string());
    }
    line(svg, [left, TOP], [left, BOTTOM], "#333");
    line(svg, [left, BOTTOM], [left + WIDTH, BOTTOM], "#333");
}

/// A curve for each contender, and its name beside a piece of it in the upper corner.
fn curves(svg: &mut String, left: f64, panel: &Panel, decades: &RangeInclusive<i32>) {
    let mut legend = TOP + 22.0;
    for (name, colour, of) in CONTENDERS {
        let place = |(n, times): &(usize, Times)| {
            let y = y_of(of(times)?, decades);
            Some([left + x_of(*n), y])
        };
        let places: Vec<[f64; 2]> = panel.points.iter().filter_map(place).collect();
        if places.is_empty() {
            continue;
        }
        for pair in places.windows(2) {
            line(svg, pair[0], pair[1], colour);
        }
        for &place in &places {
            dot(svg, place, colour);
        }
        line(svg, [left + 16.0, legend], [left + 44.0, legend], colour);
        dot(svg, [left + 30.0, legend], colour);
        text(svg, left + 52.0, legend + 4.0, "start", colour, name);
        legend += 20.0;
    }
}

/// From 64 to 4,096 terms.
fn x_of(n: usize) -> f64 {
    (n as f64 / 64.0).log2() / 6.0 * WIDTH
}

fn y_of(seconds: f64, decades: &RangeInclusive<i32>) -> f64 {
    let (low, high) = (f64::from(*decades.start()), f64::from(*decades.end()));
    TOP + HEIGHT * (high - seconds.log10()) / (high - low)
}

fn name_of(decade: i32) -> String {
    match decade {
        -6..=-4 => format!("{} µs", 10i32.pow((decade + 6) as u32)),
        -3..=-1 => format!("{} ms", 10i32.pow((decade + 3) as u32)),
        _ => format!("{} s", 10f64.powi(decade)),
    }
}

fn line(svg: &mut String, [x, y]: [f64; 2], [to_x, to_y]: [f64; 2], colour: &str) {
    writeln!(
        svg,
        "<line x1=\"{x:.1}\" y1=\"{y:.1}\" x2=\"{to_x:.1}\" y2=\"{to_y:.1}\" stroke=\"{colour}\"/>"
    )
    .expect("a string");
}

fn dot(svg: &mut String, [x, y]: [f64; 2], colour: &str) {
    writeln!(
        svg,
        "<circle cx=\"{x:.1}\" cy=\"{y:.1}\" r=\"3\" fill=\"{colour}\"/>"
    )
    .expect("a string");
}

fn text(svg: &mut String, x: f64, y: f64, anchor: &str, colour: &str, words: &str) {
    writeln!(
        svg,
        "<text x=\"{x:.1}\" y=\"{y:.1}\" text-anchor=\"{anchor}\" fill=\"{colour}\">{words}</text>"
    )
    .expect("a string");
}
