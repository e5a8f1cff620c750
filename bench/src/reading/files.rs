//! Event files: those that are timed, and random ones.
use super::calls::Events;
use crate::documents::document;
use crate::random::Random;
use crate::schemas::{
    STEPS_GROW, dense, eight_lists, eight_roots, layered, mixed, mixed_leaves, nesting, nillable,
    small,
};
use plain::codes::{CLOSE, FINISH, OPEN, OPEN_NIL};
use plain::limits::MOST_OPEN;
use plain::questions::{NONE, TOO_DEEP};
use plain::{Answer, Reading, Schema, event_file};

/// A schema, and a file whose events are all taken.
pub struct FileCase {
    pub name: String,
    pub schema: Schema,
    pub file: Vec<u8>,
    /// Is it of the longest files, which the layout without rows is measured on too?
    pub longest: bool,
}

const LONGEST: usize = 32 * 1024;

fn case(name: impl Into<String>, schema: Schema, bytes: usize, depths: [u8; 2]) -> FileCase {
    let (name, file) = (name.into(), document(&schema, bytes, depths, 0));
    let answer = event_file::read(&schema, &file, &mut vec![0; bytes]);
    assert_eq!(answer.number, NONE, "{name}");
    FileCase {
        name,
        schema,
        file,
        longest: bytes == LONGEST,
    }
}

/// Files that grow, of three schemas.
fn lengths() -> Vec<FileCase> {
    let schemas = [
        ("R", small(), [1, 2]),
        ("64 types of 16 steps", layered(64), [1, 12]),
        ("1 type, 1,024 steps by 31 types", mixed(32, 32), [1, 2]),
    ];
    let grow = |(name, schema, depths)| {
        [1, 2, 4, 8, 16, 32].map(|kilobytes| {
            let name = format!("file grows: {name}");
            case(name, schema, kilobytes * 1024, depths)
        })
    };
    schemas.into_iter().flat_map(grow).collect()
}

/// The timed files.
pub fn file_cases() -> Vec<FileCase> {
    let deep = MOST_OPEN as u8;
    let mut all = lengths();
    all.extend([
        case(
            "64 types of 16 steps, 56 to 64 deep",
            layered(64),
            LONGEST,
            [56, deep],
        ),
        case(
            "1 type in itself, up and down",
            nesting(),
            LONGEST,
            [1, deep],
        ),
        case("the same, 60 to 64 deep", nesting(), LONGEST, [60, deep]),
        case("1 type, 1,024 steps by one type", dense(), LONGEST, [1, 2]),
        case(
            "8 roots, 64 types of 16 steps",
            eight_roots(),
            LONGEST,
            [1, 12],
        ),
        case(
            "8 roots, each of a kind of list",
            eight_lists(),
            LONGEST,
            [1, 3],
        ),
        case("the same, 1 KB", eight_lists(), 1024, [1, 3]),
        case("R, many elements nil", nillable(small()), LONGEST, [1, 2]),
        case(
            "64 types of 16 steps, many elements nil",
            nillable(layered(64)),
            LONGEST,
            [1, 12],
        ),
        case(
            "1 type, 1,024 steps by 31 types, many nil",
            nillable(mixed(32, 32)),
            LONGEST,
            [1, 2],
        ),
    ]);
    for types in [1, 2, 4, 8, 16, 32, 64] {
        let name = format!("types grow: {types}, 16 steps each");
        all.push(case(name, layered(types), LONGEST, [1, 12]));
    }
    all.extend(steps_grow());
    all
}

/// One type whose steps grow, from 16 to 1,024.
pub fn steps_grow() -> impl Iterator<Item = FileCase> {
    STEPS_GROW.into_iter().map(|(states, targets)| {
        let steps = u32::from(states) * u32::from(targets);
        let leaves = mixed_leaves(targets);
        let name = format!("steps grow: {steps} by {leaves} types, in one of {states} states");
        case(name, mixed(states, targets), LONGEST, [1, 2])
    })
}

const SCHEMAS: u32 = 4_000;
const FILES: u32 = 12;

/// A file of mostly taken events, some of them deep; some have a byte spoiled or are cut.
pub fn random_file(random: &mut Random, schema: &Schema) -> Vec<u8> {
    let mut reading = Reading::FRESH;
    let mut file = Vec::new();
    let care = random.below(4) != 0;
    let deep = random.below(16) == 0;
    let tries = random.below(if deep { 400 } else { 120 });
    for _ in 0..tries {
        let tag = random.byte(schema.tags.clamp(1, 32) + 1);
        let (code, answered) = match random.below(12) {
            0 => (FINISH, reading.finish(schema)),
            1..=4 if !deep => (CLOSE, reading.close(schema, tag)),
            5..=6 if !deep => (OPEN_NIL, reading.open_nil(schema, tag)),
            _ => (OPEN, reading.open(schema, tag)),
        };
        let refused = match answered.answer {
            Answer::Refused(number) => number != TOO_DEEP,
            Answer::Typed(_) | Answer::Taken => false,
        };
        if refused && (care || random.below(16) != 0) {
            continue;
        }
        file.push(code);
        if code != FINISH {
            file.push(tag);
        }
        reading = answered.reading;
    }
    if care && random.below(2) == 0 {
        for n in (0..reading.depth as usize).rev() {
            file.extend([CLOSE, schema.tag[reading.types[n] as usize % 64]]);
        }
        file.push(FINISH);
    }
    if !file.is_empty() && random.below(6) == 0 {
        let at = random.below(file.len() as u64) as usize;
        file[at] = random.byte(255);
    }
    if random.below(8) == 0 {
        file.truncate(random.below(file.len() as u64 + 1) as usize);
    }
    file
}

/// The same files to all; the answer and the whole buffer compared. Of each number, how many files got it.
pub fn compare_files(all: &[Events]) -> Option<[u32; 21]> {
    let mut random = Random(0xD1B5_4A32_D192_ED03);
    let mut numbers = [0; 21];
    for _ in 0..SCHEMAS {
        let schema = random.schema();
        for _ in 0..FILES {
            let file = random_file(&mut random, &schema);
            let room = match random.below(4) {
                0 => random.below(40) as usize,
                _ => file.len(),
            };
            let answered = |read: &Events| {
                let mut types = vec![0xA5; room];
                (read(&schema, &file, &mut types), types)
            };
            let first = answered(&all[0]);
            if all.iter().any(|read| answered(read) != first) {
                return None;
            }
            numbers[usize::from(first.0.number)] += 1;
        }
    }
    Some(numbers)
}
