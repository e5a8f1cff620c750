//! The schema file's call beside plain Rust of the same questions.
use crate::engine;
use crate::expressions;
use crate::longest::{in_any_order, longest, longest_spread, one_of_each_tag, shuffled};
use crate::measure::{Asked, agree, heading, in_turn, row};
use crate::random::Random;
use crate::schemas::{
    STEPS_GROW, chain, chain_back, competing_roots, eight_lists, eight_roots, full, layered, mixed,
    mixed_leaves, nillable, samples, schema_file, single, small, wide, wide_over_leaves,
};
use crate::witness::is_left_right;
use plain::codes::{CLOSE_BRACKET, END, NIL, OPEN_BRACKET, REPEAT, ROOT, STEP, TYPE, USE};
use plain::limits::WITNESS;
use plain::{Schema, SchemaAnswer, check_schema, competes, schema_file::read};
use std::hint::black_box;

type Read = fn(&[u8], &mut [u8]) -> SchemaAnswer;

/// The highest ratio that is asked of a file whose own bytes lead.
const RATIO: f64 = 1.3;

/// Shorter files are read in less time than tables of full size are cleared: no ratio is asked of them.
const SHORT: usize = 100;

/// What takes most of a file's time.
#[derive(Clone, Copy, PartialEq)]
enum Leads {
    Bytes,
    /// The search for competition; no ratio is asked.
    Search,
}

/// Whether the answers agree, and each has left a buffer of `room` bytes as it must.
fn same(file: &[u8], room: usize) -> bool {
    const BLANK: u8 = 0xA5;
    let [proved, plain] = [engine::check_schema, check_schema].map(|read: Read| {
        let mut buffer = vec![BLANK; room];
        let answer = read(file, &mut buffer);
        let right = is_left_right(answer.number, &buffer, BLANK, |witness| {
            competes(file, witness)
        });
        (answer, right)
    });
    proved == plain && proved.1
}

/// A row for the files, read one after another, of which so many microseconds are asked. Whether all answers agree.
fn report(what: &str, files: &[Vec<u8>], leads: Leads, microseconds: Option<f64>) -> bool {
    let by_bytes = leads == Leads::Bytes && files.iter().all(|file| SHORT <= file.len());
    let asked = Asked {
        microseconds,
        ratio: by_bytes.then_some(RATIO),
        second: None,
    };
    let all = |read: Read, witness: &mut [u8]| {
        for file in files {
            black_box(read(black_box(file), witness));
        }
    };
    let [mut ours, mut theirs] = [[0; WITNESS]; 2];
    let times = in_turn(
        &mut [&mut || all(engine::check_schema, &mut ours), &mut || {
            all(check_schema, &mut theirs)
        }],
    );
    let size: usize = files.iter().map(Vec::len).sum();
    row(what, &size.to_string(), &times, asked);
    agree(files.iter().all(|file| same(file, WITNESS)))
}

fn one(what: &str, schema: &Schema) -> bool {
    report(what, &[schema_file(schema)], Leads::Bytes, None)
}

fn one_within(what: &str, schema: &Schema, leads: Leads, microseconds: f64) -> bool {
    report(what, &[schema_file(schema)], leads, Some(microseconds))
}

/// The longest files of one ROOT: accepted ones, and those of which less is asked, in two orders of their steps. Questions 1 to 7 cannot be called
/// alone: where the root type has no step all others get 24, which leaves 8 and 9 little to ask, and a last step that gets 7 leaves them nothing.
fn longest_files() -> bool {
    let accepted = [
        ("of 16 steps each", longest_spread()),
        (
            "1,024 steps in order, all the root's",
            longest(64, one_of_each_tag(), 0),
        ),
        (
            "1,024 steps shuffled, all the root's",
            longest(64, in_any_order(one_of_each_tag()), 0),
        ),
    ];
    let mut same = true;
    for (steps, schema) in &accepted {
        assert_answer(schema, 0);
        same &= one_within(&format!("64 types, {steps}"), schema, Leads::Bytes, 1e3);
    }
    for (order, steps) in [("in order", full(32, 32, 1)), ("shuffled", shuffled())] {
        let schema = longest(64, steps.clone(), 63);
        assert_answer(&schema, 24);
        let what = format!("64 types, 1,024 steps {order}, 63 types get 24");
        same &= one_within(&what, &schema, Leads::Bytes, 1e3);
        let mut unknown = steps;
        unknown[1023][1] = 63;
        let what = format!("63 types, the last of 1,024 steps {order} gets 7");
        same &= one_within(&what, &longest(63, unknown, 0), Leads::Bytes, 1e3);
    }
    same
}

/// Sees that a longest file is one, with this answer.
fn assert_answer(schema: &Schema, number: u8) {
    let file = schema_file(schema);
    assert_eq!(file.len(), 8389);
    assert_eq!(check_schema(&file, &mut [0; WITNESS]).number, number);
}

/// A row for a file with expressions: beside plain Rust the proved call on the file that states the same schema by states.
fn expressed(what: &str, file: Vec<u8>, asked: Asked) -> bool {
    let mut stated = Schema::BLANK;
    read(&file, &mut stated).expect("the file states a schema");
    let by_states = schema_file(&stated);
    let once = |read: Read, file: &[u8], room: &mut [u8]| {
        black_box(read(black_box(file), room));
    };
    let [mut ours, mut theirs, mut other] = [[0; WITNESS]; 3];
    let times = in_turn(&mut [
        &mut || once(engine::check_schema, &file, &mut ours),
        &mut || once(check_schema, &file, &mut theirs),
        &mut || once(engine::check_schema, &by_states, &mut other),
    ]);
    row(what, &file.len().to_string(), &times, asked);
    agree(same(&file, WITNESS) && same(&by_states, WITNESS))
}

/// Content written as expressions.
fn expression_files() -> bool {
    heading(
        "Schema files with expressions",
        "bytes",
        &["plain", "by states"],
    );
    let many = Asked::ratio(RATIO);
    let one = Asked {
        second: Some(1.0),
        ..Asked::NOTHING
    };
    let mut same = expressed("64: a rack's, 6 steps", expressions::racks(), many);
    same &= expressed("64: 5 uses, 12 steps", expressions::five_uses(), many);
    same &= expressed("64: a row of 16 uses", expressions::rows(), many);
    same &= expressed("one: a row of 31 uses", expressions::one_row(), one);
    same &= expressed("one: 31 uses, 992 steps", expressions::any_order(), one);
    let falling = expressions::any_order_falling();
    same &= expressed("one: the same, types falling", falling, one);
    let in_brackets = expressions::in_brackets();
    same &= expressed("one: 31 uses in 16 brackets, 527 steps", in_brackets, one);
    let empty = expressions::empty_sequences(16_000);
    same &= expressed("one: 16,000 empty sequences", empty, Asked::NOTHING);
    let empty = expressions::empty_brackets(8_000);
    same & expressed("one: 8,000 empty brackets", empty, Asked::NOTHING)
}

/// One more than the highest number of a schema file.
const NUMBERS: usize = 25;

/// Files with a command more, bytes changed or an end cut off, most of them refused, to both readers. How many got each number.
fn spoiled() -> Option<[u32; NUMBERS]> {
    let mut random = Random(0x9E37_79B9_7F4A_7C15);
    let mut schemas = samples();
    schemas.extend([small(), layered(5), layered(64), mixed(8, 4)]);
    schemas.extend([eight_roots(), competing_roots(), eight_lists()]);
    schemas.extend([nillable(small()), nillable(layered(5))]);
    let mut files: Vec<Vec<u8>> = schemas.iter().map(schema_file).collect();
    files.extend([
        expressions::five_uses(),
        expressions::any_order(),
        expressions::in_brackets(),
    ]);
    let mut numbers = [0; NUMBERS];
    for n in 0..40_000 {
        let mut file = files[n % files.len()].clone();
        if random.below(4) == 0 {
            let more: [&[u8]; 7] = [
                &[TYPE, 0, 1],
                &[TYPE, 0, 1, NIL],
                &[NIL],
                &[STEP, 0, 0, 0],
                &[TYPE, 0, 0, USE, 0, END],
                &[TYPE, 0, 0, USE, 0, END, NIL],
                &[TYPE, 0, 0, OPEN_BRACKET, USE, 1, CLOSE_BRACKET, REPEAT, END],
            ];
            let root = file.len() - 3;
            file.splice(root..root, more[random.below(7) as usize].iter().copied());
        }
        if random.below(4) == 0 {
            let roots = [random.byte(8), random.byte(64)].map(|root| [ROOT, root]);
            let done = file.len() - 1;
            let more = &roots[..1 + random.below(2) as usize];
            file.splice(done..done, more.concat());
        }
        for _ in 0..random.below(3) {
            let at = random.below(file.len() as u64) as usize;
            file[at] = random.byte(0x41);
        }
        if random.below(8) == 0 {
            let at = random.below(file.len() as u64) as usize;
            file.insert(at, OPEN_BRACKET + random.byte(5));
        }
        if random.below(16) == 0 {
            file.truncate(random.below(file.len() as u64) as usize);
        }
        let room = WITNESS - usize::from(random.below(32) == 0);
        if !same(&file, room) {
            return None;
        }
        let answer = engine::check_schema(&file, &mut vec![0; room]);
        numbers[usize::from(answer.number)] += 1;
    }
    Some(numbers)
}

/// The part; whether all answers agree.
pub fn run() -> bool {
    heading("Schema files", "bytes", &["plain"]);
    let files: Vec<Vec<u8>> = samples().iter().map(schema_file).collect();
    let mut same = one("1 type, no step", &single());
    same &= one("R", &small());
    same &= report(
        "document 01's other 8 samples, together",
        &files,
        Leads::Bytes,
        None,
    );
    same &= longest_files();
    for (needed, schema) in [("before", chain()), ("after", chain_back())] {
        let what = format!("a chain of 64 types, each needing the one {needed} it");
        same &= one_within(&what, &schema, Leads::Bytes, 500.0);
    }
    same &= report(
        "32 types of 32 states and 32 steps: the largest search",
        &[schema_file(&wide(0))],
        Leads::Search,
        None,
    );
    let over_leaves = wide_over_leaves();
    same &= one_within(
        "31 such types, and a root over 31 leaves too",
        &over_leaves,
        Leads::Search,
        1.5e3,
    );
    for types in [1, 2, 4, 8, 16, 32, 64] {
        same &= one(
            &format!("types grow: {types}, 16 steps each"),
            &layered(types),
        );
    }
    for (states, targets) in STEPS_GROW {
        let steps = u32::from(states) * u32::from(targets);
        let leaves = mixed_leaves(targets);
        let what = format!("steps grow: {steps} by {leaves} types, in one of {states} states");
        same &= one(&what, &mixed(states, targets));
    }
    same &= one("8 roots, 64 types of 16 steps", &eight_roots());
    same &= one("the same, two roots compete", &competing_roots());
    same &= one("8 roots, each of a kind of list", &eight_lists());
    same &= one("64 types of 16 steps, NIL in each", &nillable(layered(64)));
    same &= expression_files();
    match spoiled() {
        Some(numbers) => println!(
            "{} spoiled files: the same answers, and witnesses that are. Numbers 0 to 9: {:?}; 21 to 24: {:?}",
            numbers.iter().sum::<u32>(),
            &numbers[..10],
            &numbers[21..]
        ),
        None => {
            println!("A SPOILED FILE'S ANSWERS DIFFER");
            same = false;
        }
    }
    same
}
