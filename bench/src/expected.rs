//! What would have been taken where an event file was refused, beside plain Rust of the same. The time has the schema's copy, the making of its rows
//! and the walk over the file in it. A second row is the event file's call on the same file: the walk alone, with a buffer for the types.
use crate::documents::document;
use crate::engine;
use crate::measure::{Asked, agree, heading, in_turn, row};
use crate::random::Random;
use crate::reading::{READERS, random_file, time_file};
use crate::schemas::{Type, dense, layered, leaf, mixed, nesting, nillable, schema, typed};
use plain::codes::{CLOSE, FINISH, OPEN, OPEN_NIL};
use plain::limits::{MOST_OPEN, MOST_TAGS};
use plain::questions::{NO_EVENT, NO_SUCH_OPENING, NONE, Number, TOO_DEEP};
use plain::{Expected, Schema, expected};
use std::hint::black_box;

type Expect = fn(&Schema, &[u8]) -> Expected;

const BOTH: [Expect; 2] = [engine::expected, plain_expected];

fn plain_expected(schema: &Schema, file: &[u8]) -> Expected {
    by_value(*schema, file)
}

#[inline(never)]
fn by_value(schema: Schema, file: &[u8]) -> Expected {
    expected(&schema, file)
}

/// What is timed: a file, its number and place, and how many openings are listed.
struct Case {
    name: &'static str,
    schema: Schema,
    file: Vec<u8>,
    number: Number,
    place: usize,
    listed: usize,
}

/// A wall of racks; on a rack hire boots, the sale mark, boots for sale. A rack may be empty on purpose.
fn wall() -> Schema {
    let wall = typed(0, 1, 1, [[0, 1, 0]]);
    let rack = typed(1, 2, 0b10, [[0, 2, 0], [0, 3, 1], [1, 4, 1]]);
    let mut s = schema(4, 0, &[wall, rack, leaf(2), leaf(3), leaf(2)]);
    s.nillable[1] = true;
    s
}

/// A rack with a hire boot and the sale mark.
const RACK: [u8; 12] = [OPEN, 1, OPEN, 2, CLOSE, 2, OPEN, 3, CLOSE, 3, CLOSE, 1];

const EMPTY_RACK: [u8; 4] = [OPEN_NIL, 1, CLOSE, 1];

/// The wall's opening, so many racks, two that are empty, and these bytes.
fn racks(racks: usize, then: &[u8]) -> Vec<u8> {
    [
        &[OPEN, 0],
        &RACK.repeat(racks)[..],
        &EMPTY_RACK.repeat(2),
        then,
    ]
    .concat()
}

/// The walls of racks; a boot on no rack is refused.
fn walls() -> Vec<Case> {
    let boot = [OPEN, 2, CLOSE, 2, CLOSE, 0, FINISH];
    let whole = racks(350, &[CLOSE, 0, FINISH]);
    let long = racks(2729, &[&EMPTY_RACK[..], &RACK[..6]].concat());
    [
        (
            "racks, a boot on none",
            racks(350, &boot),
            NO_SUCH_OPENING,
            4210,
            2,
        ),
        (
            "the same, its first event a boot",
            boot.to_vec(),
            NO_SUCH_OPENING,
            0,
            1,
        ),
        (
            "the same without the boot",
            whole.clone(),
            NONE,
            whole.len(),
            0,
        ),
        (
            "many racks, in the last one cut off",
            long,
            NO_EVENT,
            32 * 1024,
            2,
        ),
    ]
    .map(|(name, file, number, place, listed)| Case {
        name,
        schema: wall(),
        file,
        number,
        place,
        listed,
    })
    .into()
}

/// A type that holds itself and 31 others, each of a tag of its own, in any number.
fn all_tags() -> Schema {
    let mut types = vec![Type {
        tag: 0,
        states: 1,
        accepting: 1,
        steps: (0..MOST_TAGS as u8).map(|by| [0, by, 0]).collect(),
    }];
    types.extend((1..MOST_TAGS as u8).map(leaf));
    schema(MOST_TAGS as u8, 0, &types)
}

/// A document of about so many bytes, cut off before the root's closing.
fn in_root(name: &'static str, schema: Schema, bytes: usize, depths: [u8; 2]) -> Case {
    let mut file = document(&schema, bytes, depths, 0);
    file.truncate(file.len() - 3);
    let Expected { place, count, .. } = expected(&schema, &file);
    assert_eq!(place, file.len(), "{name}");
    Case {
        name,
        schema,
        file,
        number: NO_EVENT,
        place,
        listed: count,
    }
}

/// All that is timed.
fn cases() -> Vec<Case> {
    let deep = Case {
        name: "1 type in itself, the 65th level",
        schema: nesting(),
        file: [OPEN, 0].repeat(MOST_OPEN + 1),
        number: TOO_DEEP,
        place: 2 * MOST_OPEN,
        listed: 0,
    };
    let widest = Case {
        name: "32 tags, each plain and as nil",
        schema: nillable(all_tags()),
        file: vec![OPEN, 0],
        number: NO_EVENT,
        place: 2,
        listed: 2 * MOST_TAGS,
    };
    let mut all = walls();
    all.extend([deep, widest]);
    all.extend([
        in_root("64 types of 16 steps", layered(64), 4096, [1, 12]),
        in_root(
            "1 type, 1,024 steps by 31 types",
            mixed(32, 32),
            4096,
            [1, 2],
        ),
        in_root("1 type, 1,024 steps by one type", dense(), 1024, [1, 2]),
    ]);
    all
}

/// Two rows for a file, of the call and of the walk alone. Whether the answers agree.
fn report(case: &Case) -> bool {
    let (schema, file) = (&case.schema, &case.file);
    let once = |expect: Expect| {
        let answer = expect(black_box(schema), black_box(file));
        let found = (answer.number, answer.place, answer.count);
        assert_eq!(
            found,
            (case.number, case.place, case.listed),
            "{}",
            case.name
        );
        black_box(answer)
    };
    let [ours, theirs] = BOTH;
    let times = in_turn(&mut [&mut || _ = once(ours), &mut || _ = once(theirs)]);
    let what = format!("{}: gets {}, lists {}", case.name, case.number, case.listed);
    let size = file.len().to_string();
    row(&what, &size, &times, Asked::NOTHING);
    let (times, walked) = time_file(schema, file, &READERS[..2]);
    row("  the walk alone", &size, &times, Asked::NOTHING);
    agree(walked && once(ours) == once(theirs))
}

const SCHEMAS: u32 = 4_000;
const FILES: u32 = 12;

/// What came up in random files.
struct Counts {
    numbers: [u32; NO_EVENT as usize + 1],
    listed: usize,
    deepest: usize,
}

/// Random files under random schemas, inside the limits and outside them, to both: the whole answers compared.
fn compare() -> Option<Counts> {
    let mut random = Random(0xA076_1D64_78BD_642F);
    let mut counts = Counts {
        numbers: [0; NO_EVENT as usize + 1],
        listed: 0,
        deepest: 0,
    };
    for _ in 0..SCHEMAS {
        let schema = random.schema();
        for _ in 0..FILES {
            let file = random_file(&mut random, &schema);
            let [ours, theirs] = BOTH.map(|expect| expect(&schema, &file));
            if ours != theirs {
                return None;
            }
            counts.numbers[usize::from(ours.number)] += 1;
            counts.listed += ours.count;
            counts.deepest = counts.deepest.max(ours.depth);
        }
    }
    Some(counts)
}

/// The part; whether all answers agree.
pub fn run() -> bool {
    heading(
        "What would have been taken, the whole call",
        "bytes",
        &["plain"],
    );
    let mut same = true;
    for case in &cases() {
        same &= report(case);
    }
    match compare() {
        Some(Counts {
            numbers,
            listed,
            deepest,
        }) => println!(
            "{} random files: the same answers. Numbers 0 and 10 to 19: {} {:?}. Openings listed {listed}, at most {deepest} open",
            numbers.iter().sum::<u32>(),
            numbers[0],
            &numbers[10..]
        ),
        None => return agree(false),
    }
    same
}
