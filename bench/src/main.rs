//! `bench [PART].. [plot [PATH]]`: the benchmark's parts, or only those that are named. `plot` is run only if it is named; a path is taken from
//! the repository's top. Exit 1 if answers differ.
mod documents;
mod engine;
mod expected;
mod expressions;
mod longest;
mod made_up;
mod measure;
mod plot;
mod random;
mod reading;
mod relaxng;
mod schema;
mod schema_file;
mod schemas;
mod witness;
mod writer;

use std::path::{Path, PathBuf};
use std::process::ExitCode;

/// A part's name, and what runs it: whether all answers agree.
type Part = (&'static str, fn() -> bool);

const PARTS: [Part; 6] = [
    ("schema", schema::run),
    ("schema_file", schema_file::run),
    ("writer", writer::run),
    ("reading", reading::run),
    ("expected", expected::run),
    ("relaxng", relaxng::run),
];

/// The part that is run only if it is named, and where it writes to if no path is.
const PLOT: &str = "plot";
const PLOT_PATH: &str = "docs/steps.svg";

/// The repository's top.
const TOP: &str = concat!(env!("CARGO_MANIFEST_DIR"), "/..");

/// What to run.
struct Wanted {
    parts: Vec<Part>,
    plot: Option<PathBuf>,
}

/// What the arguments name; none if they name what is not there.
fn wanted(arguments: &[String]) -> Option<Wanted> {
    let at_plot = arguments.iter().position(|name| name == PLOT);
    let (named, after) = arguments.split_at(at_plot.unwrap_or(arguments.len()));
    let part = |name: &String| PARTS.into_iter().find(|(part, _)| part == name);
    let parts = match arguments {
        [] => PARTS.to_vec(),
        _ => named.iter().map(part).collect::<Option<_>>()?,
    };
    let path = match after {
        [] => return Some(Wanted { parts, plot: None }),
        [_] => PLOT_PATH,
        [_, path] => path,
        _ => return None,
    };
    let plot = Some(Path::new(TOP).join(path));
    Some(Wanted { parts, plot })
}

fn main() -> ExitCode {
    let arguments: Vec<String> = std::env::args().skip(1).collect();
    let Some(wanted) = wanted(&arguments) else {
        let names = PARTS.map(|(name, _)| name).join(", ");
        eprintln!("parts: {names}; and last {PLOT}, with a path or without");
        return ExitCode::from(2);
    };
    let mut same = true;
    for (_, run) in wanted.parts {
        same &= run();
    }
    if let Some(path) = wanted.plot {
        same &= plot::run(&path);
    }
    ExitCode::from(u8::from(!same))
}
