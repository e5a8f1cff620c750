//! Nanoseconds an event against the steps of the type that the events are in, as an SVG: what the rows gain over going over all of a type's
//! steps.
use crate::measure::{Asked, agree, heading, median, row};
use crate::reading::{FileCase, READERS, steps_grow, time_file};
use std::fmt::Display;
use std::fs::write;
use std::ops::Range;
use std::path::Path;

/// A line of the plot: its name, its colour, the outline of its marker around 0,0, and what reads its files.
struct Line {
    name: &'static str,
    colour: &'static str,
    marker: &'static str,
    reader: usize,
}

/// From the slowest to the fastest; `reader` is a place of `READERS`.
const LINES: [Line; 3] = [
    Line {
        name: "all steps of the type (plain Rust)",
        colour: "#d55e00",
        marker: "M-4,-4H4V4H-4Z",
        reader: 2,
    },
    Line {
        name: "rows (proved)",
        colour: "#0072b2",
        marker: "M-5,0a5,5 0 1,0 10,0a5,5 0 1,0 -10,0Z",
        reader: 0,
    },
    Line {
        name: "rows (plain Rust)",
        colour: "#009e73",
        marker: "M0,-6L5,4H-5Z",
        reader: 1,
    },
];

/// The nanoseconds an event of each reader, at a number of steps.
struct Point {
    steps: f64,
    nanoseconds: [f64; READERS.len()],
}

/// The part: measures, and writes the SVG. Whether all answers agree.
pub fn run(path: &Path) -> bool {
    heading("Event files, steps grow", "bytes", &["plain", "by steps"]);
    let mut same = true;
    let points: Vec<Point> = steps_grow()
        .map(|case| {
            let (times, agreed) = time_file(&case.schema, &case.file, &READERS);
            row(
                &case.name,
                &case.file.len().to_string(),
                &times,
                Asked::NOTHING,
            );
            same &= agree(agreed);
            point(&case, &times)
        })
        .collect();
    write(path, svg(&points)).expect("the plot is written");
    println!("plot: {}", path.display());
    same
}

fn point(case: &FileCase, times: &[Vec<f64>]) -> Point {
    let steps = case.schema.steps.iter().map(|&n| f64::from(n)).sum();
    // Each event has two bytes, but for the finish.
    let events = case.file.len().div_ceil(2) as f64;
    let nanoseconds = [0, 1, 2].map(|reader| median(&times[reader]) * 1e3 / events);
    Point { steps, nanoseconds }
}

/// A logarithmic axis: the numbers at its ends, and where they stand.
struct Axis {
    numbers: Range<f64>,
    places: Range<f64>,
}

impl Axis {
    fn place(&self, number: f64) -> f64 {
        let share =
            (number / self.numbers.start).ln() / (self.numbers.end / self.numbers.start).ln();
        self.places.start + share * (self.places.end - self.places.start)
    }
}

const WIDTH: f64 = 720.0;
const HEIGHT: f64 = 460.0;

/// The plot's own area.
const ACROSS: Range<f64> = 70.0..700.0;
const DOWN: Range<f64> = 50.0..400.0;

fn svg(points: &[Point]) -> String {
    let steps: Vec<f64> = points.iter().map(|point| point.steps).collect();
    let ticks = ticks(points);
    let x = Axis {
        numbers: steps[0]..steps[steps.len() - 1],
        places: ACROSS.start + 20.0..ACROSS.end - 20.0,
    };
    let y = Axis {
        numbers: ticks[0]..ticks[ticks.len() - 1],
        places: DOWN.end..DOWN.start,
    };
    let mut parts = vec![text(
        WIDTH / 2.0,
        28.0,
        "middle",
        "Nanoseconds an event, in a file of 32,765 bytes",
    )];
    parts.extend(ticks.iter().map(|&tick| y_tick(tick, y.place(tick))));
    parts.extend(steps.iter().map(|&tick| x_tick(tick, x.place(tick))));
    parts.push(text(
        (ACROSS.start + ACROSS.end) / 2.0,
        442.0,
        "middle",
        "steps of the type",
    ));
    parts.push(frame());
    parts.extend(LINES.iter().map(|line| line.through(points, &x, &y)));
    parts.extend(LINES.iter().zip(0..).map(|(line, n)| line.legend(n)));
    format!(
        "<svg xmlns=\"http://www.w3.org/2000/svg\" viewBox=\"0 0 {WIDTH} {HEIGHT}\" width=\"{WIDTH}\" height=\"{HEIGHT}\" \
         font-family=\"sans-serif\" font-size=\"13\">\n<rect width=\"100%\" height=\"100%\" fill=\"white\"/>\n{}\n</svg>\n",
        parts.join("\n")
    )
}

/// The numbers 1, 2 and 5 times a power of ten from the last below all points to the first above them.
fn ticks(points: &[Point]) -> Vec<f64> {
    let all: Vec<f64> = points.iter().flat_map(|point| point.nanoseconds).collect();
    let (low, high) = all
        .iter()
        .fold((f64::MAX, 0.0_f64), |(low, high), &number| {
            (low.min(number), high.max(number))
        });
    let candidates: Vec<f64> = (-2..7)
        .flat_map(|power| [1.0, 2.0, 5.0].map(|n| n * 10_f64.powi(power)))
        .collect();
    let first = candidates
        .iter()
        .rposition(|&tick| tick <= low)
        .unwrap_or(0);
    let last = candidates.iter().position(|&tick| high <= tick);
    candidates[first..=last.unwrap_or(candidates.len() - 1)].to_vec()
}

impl Line {
    fn through(&self, points: &[Point], x: &Axis, y: &Axis) -> String {
        let places: Vec<(f64, f64)> = points
            .iter()
            .map(|point| {
                (
                    x.place(point.steps),
                    y.place(point.nanoseconds[self.reader]),
                )
            })
            .collect();
        let corners: Vec<String> = places
            .iter()
            .map(|(x, y)| format!("{x:.1},{y:.1}"))
            .collect();
        let markers: Vec<String> = places.iter().map(|&(x, y)| self.mark(x, y)).collect();
        format!(
            "<polyline points=\"{}\" fill=\"none\" stroke=\"{}\" stroke-width=\"2\"/>\n{}",
            corners.join(" "),
            self.colour,
            markers.join("\n")
        )
    }

    fn mark(&self, x: f64, y: f64) -> String {
        let Line { marker, colour, .. } = self;
        format!("<path d=\"{marker}\" transform=\"translate({x:.1},{y:.1})\" fill=\"{colour}\"/>")
    }

    /// The line's name, in the corner that lines which rise leave free.
    fn legend(&self, n: i32) -> String {
        let (x, y) = (ACROSS.start + 20.0, DOWN.start + 22.0 + 20.0 * f64::from(n));
        let stroke = segment((x, y), (x + 30.0, y), self.colour, 2.0);
        let name = text(x + 40.0, y + 4.0, "start", self.name);
        [stroke, self.mark(x + 15.0, y), name].join("\n")
    }
}

/// The edges of the plot's area, and a ground for the legend.
fn frame() -> String {
    let (width, height) = (ACROSS.end - ACROSS.start, DOWN.end - DOWN.start);
    let at = |inset: f64| {
        format!(
            "x=\"{}\" y=\"{}\"",
            ACROSS.start + inset,
            DOWN.start + inset
        )
    };
    format!(
        "<rect {} width=\"{width}\" height=\"{height}\" fill=\"none\" stroke=\"#444444\"/>\n\
         <rect {} width=\"280\" height=\"70\" fill=\"white\"/>",
        at(0.0),
        at(8.0)
    )
}

const GRID: &str = "#dddddd";

fn x_tick(tick: f64, x: f64) -> String {
    let line = segment((x, DOWN.start), (x, DOWN.end), GRID, 1.0);
    format!("{line}\n{}", text(x, DOWN.end + 18.0, "middle", tick))
}

fn y_tick(tick: f64, y: f64) -> String {
    let line = segment((ACROSS.start, y), (ACROSS.end, y), GRID, 1.0);
    format!("{line}\n{}", text(ACROSS.start - 8.0, y + 4.0, "end", tick))
}

fn segment((x1, y1): (f64, f64), (x2, y2): (f64, f64), colour: &str, width: f64) -> String {
    format!(
        "<line x1=\"{x1:.1}\" y1=\"{y1:.1}\" x2=\"{x2:.1}\" y2=\"{y2:.1}\" stroke=\"{colour}\" stroke-width=\"{width}\"/>"
    )
}

fn text(x: f64, y: f64, anchor: &str, what: impl Display) -> String {
    format!("<text x=\"{x:.1}\" y=\"{y:.1}\" text-anchor=\"{anchor}\">{what}</text>")
}
