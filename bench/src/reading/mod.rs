//! The calls on a reading, by value and lent, and the event file's, beside plain Rust of the same algorithm. A call on a reading takes its schema by
//! value, and the time has that copy in it, for a call by value the reading's copies too. The event file's is the whole call, the schema's copy and
//! making of its rows in it.
mod calls;
mod cases;
mod files;
mod made_up;

use crate::engine;
use crate::measure::{self, Asked, agree, heading, in_turn, row};
use calls::{
    Call, Calls, Events, open_lent, plain_by_steps, plain_call, plain_events, plain_lent,
    proved_call, proved_lent,
};
use cases::{Case, cases};
pub use files::{FileCase, random_file, steps_grow};
use files::{compare_files, file_cases};
use made_up::compare;
use plain::limits::Type;
use plain::{EventAnswer, Reading, Schema};
use std::hint::black_box;

/// The highest ratio that is asked of an event file.
const RATIO: f64 = 1.1;

/// What reads an event file: the engine, plain Rust over the same rows, and plain Rust over the layout without rows.
pub const READERS: [Events; 3] = [engine::events, plain_events, plain_by_steps];

/// A row for the two calls. Whether their answers agree.
fn report(case: &Case) -> bool {
    let (schema, reading) = (&case.schema, &case.reading);
    let once = |call: Calls| call(black_box(schema), black_box(reading), case.call);
    let times = in_turn(&mut [&mut || _ = black_box(once(proved_call)), &mut || {
        _ = black_box(once(plain_call))
    }]);
    let asked = case.most.map_or(Asked::NOTHING, Asked::microseconds);
    row(case.name, "value", &times, asked);
    agree(once(proved_call) == once(plain_call))
}

/// The same for a plain opening on a lent reading. Each call is made on the reading of the case: what an opening that was taken has changed, the
/// depth and the innermost set, is put back before it.
fn report_lent(case: &Case) -> bool {
    let Call::Open(tag) = case.call else {
        return true;
    };
    let schema = &case.schema;
    let back = |reading: &mut Reading| {
        reading.depth = case.reading.depth;
        let inner = case.reading.depth as usize - 1;
        reading.sets[inner] = case.reading.sets[inner];
    };
    let (mut ours, mut theirs) = (case.reading, case.reading);
    let times = in_turn(&mut [
        &mut || {
            back(&mut ours);
            let ours = black_box(&mut ours);
            black_box(engine::open_lent(ours, *black_box(schema), tag));
        },
        &mut || {
            back(&mut theirs);
            let theirs = black_box(&mut theirs);
            black_box(open_lent(theirs, *black_box(schema), tag));
        },
    ]);
    let asked = case.most.map_or(Asked::NOTHING, Asked::microseconds);
    row(case.name, "lent", &times, asked);
    back(&mut ours);
    back(&mut theirs);
    let answers = [
        engine::open_lent(&mut ours, *schema, tag),
        open_lent(&mut theirs, *schema, tag),
    ];
    agree(answers[0] == answers[1] && ours == theirs)
}

/// The times of each reader on a file, and whether the answers and the types agree.
pub fn time_file(schema: &Schema, file: &[u8], readers: &[Events]) -> (Vec<Vec<f64>>, bool) {
    let mut buffers = vec![vec![0; file.len()]; readers.len()];
    let mut runs: Vec<_> = readers
        .iter()
        .zip(&mut buffers)
        .map(|(read, types)| move || _ = black_box(once(read, schema, file, types.as_mut_slice())))
        .collect();
    let mut calls: Vec<measure::Call> = runs.iter_mut().map(|run| run as _).collect();
    let times = in_turn(&mut calls);
    let answers: Vec<_> = readers
        .iter()
        .zip(&mut buffers)
        .map(|(read, types)| (once(read, schema, file, types), &*types))
        .collect();
    let same = answers.iter().all(|answer| *answer == answers[0]);
    (times, same)
}

fn once(read: &Events, schema: &Schema, file: &[u8], types: &mut [Type]) -> EventAnswer {
    read(black_box(schema), black_box(file), types)
}

/// A row for an event file. Whether the answers and the types agree, and whether the ratio is as asked.
fn report_file(case: &FileCase) -> [bool; 2] {
    let readers = if case.longest { READERS.len() } else { 2 };
    let (mut times, same) = time_file(&case.schema, &case.file, &READERS[..readers]);
    times.resize(READERS.len(), Vec::new());
    let size = case.file.len().to_string();
    let met = row(&case.name, &size, &times, Asked::ratio(RATIO));
    [agree(same), met]
}

fn report_calls() -> bool {
    heading("One call on a reading", "given by", &["plain"]);
    let mut same = true;
    for case in &cases() {
        same &= report(case);
        same &= report_lent(case);
    }
    match compare(&[proved_call, plain_call, proved_lent, plain_lent]) {
        Some(counts) => println!(
            "{} calls on random schemas and readings, plain openings by value and lent: the same. Types, taken, refusals 10 to 18: {:?}",
            counts.calls, counts.answers
        ),
        None => return agree(false),
    }
    same
}

fn report_files() -> bool {
    heading(
        "Event files, the whole call",
        "bytes",
        &["plain", "by steps"],
    );
    let rows: Vec<[bool; 2]> = file_cases().iter().map(report_file).collect();
    let met = rows.iter().filter(|[_, met]| *met).count();
    let all = rows.len();
    println!("{met} of {all} files at a ratio of {RATIO} or less");
    match compare_files(&READERS) {
        Some(numbers) => println!(
            "{} random files: the same answers and types. Numbers 0 and 10 to 20: {} {:?}",
            numbers.iter().sum::<u32>(),
            numbers[0],
            &numbers[10..]
        ),
        None => return agree(false),
    }
    rows.iter().all(|[same, _]| *same)
}

/// The part; whether all answers agree.
pub fn run() -> bool {
    report_calls() & report_files()
}
