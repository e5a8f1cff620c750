// What the tests share: bytes from hexadecimal text, document 01's schema R, by states and by expressions, one with two roots, one with a nillable
// type, and calls on buffers that are watched.
#![allow(dead_code)]
use typestock::{
    check_schema, expect_document, type_document, write_reduced, Expected, Job, NotWritten,
    SchemaAnswer, SchemaRefused,
};

pub fn hex(text: &str) -> Vec<u8> {
    text.split_whitespace()
        .map(|b| u8::from_str_radix(b, 16).unwrap())
        .collect()
}

// The schema R of document 01.
pub const R: &str = "10 03 11 00 02 12 01 13 00 01 00 13 00 02 01 13 01 03 01 11 01 01 12 00 11 02 01 12 00 11 01 01 12 00 14 00 1F";
// R with its content written as expressions: type 0 is 1* 2 3*, the others have nothing inside.
pub const R_BY_EXPRESSIONS: &str =
    "10 03 11 00 00 32 01 34 32 02 32 03 34 3F 11 01 00 3F 11 02 00 3F 11 01 00 3F 14 00 1F";
// Its events.
pub const R_EVENTS: &str = "21 00 21 01 22 01 21 02 22 02 21 01 22 01 22 00 2F";

// Price lists, type 0 of tag 0, and stock lists, type 1 of tag 1; an article, tag 2, is of type 2 in the one and of type 3 in the other. ROOTs and
// DONE are to follow.
pub const LISTS: &str =
    "10 03  11 00 01 12 00 13 00 02 00  11 01 01 12 00 13 00 03 00  11 02 01 12 00  11 02 01 12 00";
// A stock list of two articles.
pub const STOCK: &str = "21 01 21 02 22 02 21 02 22 02 22 01 2F";

// A wall of racks, types 0 and 1. On a rack, which may be empty on purpose, are hire boots, type 2, the mark and boots for sale, type 4, of one tag.
pub const WALL: &str =
    "10 04  11 00 01 12 00 13 00 01 00  11 01 02 12 01 13 00 02 00 13 00 03 01 13 01 04 01 15
    11 02 01 12 00  11 03 01 12 00  11 02 01 12 00  14 00 1F";
// A rack empty on purpose, then one with the mark and a boot for sale.
pub const WALL_EVENTS: &str = "21 00  23 01 22 01  21 01 21 03 22 03 21 02 22 02 22 01  22 00 2F";

// A buffer between guard bytes. Each byte, the guards too, has a value of its place's; `turned` has each bit the other way, so that a
// byte that is written differs from its value in one of the two.
struct Lent {
    all: Vec<u8>,
    room: usize,
    turned: u8,
}

const GUARD: usize = 64;

impl Lent {
    fn new(room: usize, turned: u8) -> Lent {
        let all = (0..room + 2 * GUARD).map(|i| value(i, turned)).collect();
        Lent { all, room, turned }
    }

    fn lend(&mut self) -> &mut [u8] {
        &mut self.all[GUARD..GUARD + self.room]
    }

    // The first bytes, after seeing that all others are as they were.
    fn written(&self, count: usize) -> Vec<u8> {
        for (i, &b) in self.all.iter().enumerate() {
            let inside = i >= GUARD && i < GUARD + count;
            assert!(
                inside || b == value(i, self.turned),
                "byte {} of a buffer of {} was written, {count} were to be",
                i as isize - GUARD as isize,
                self.room
            );
        }
        self.all[GUARD..GUARD + count].to_vec()
    }
}

fn value(place: usize, turned: u8) -> u8 {
    (place * 37 + place / 256) as u8 ^ turned
}

// The bytes that a witness fills.
fn filled(number: u8, buffer: &[u8]) -> usize {
    if number == 9 {
        5 + usize::from(buffer[3]) + 256 * usize::from(buffer[4])
    } else {
        0
    }
}

// The answer to the schema with a witness buffer of the length, and the witness; nothing else of the buffer or around it is written.
pub fn checked(schema: &[u8], room: usize) -> (SchemaAnswer, Vec<u8>) {
    let once = |turned| {
        let mut witness = Lent::new(room, turned);
        let answer = check_schema(schema, witness.lend());
        let count = filled(answer.number, witness.lend());
        (answer, witness.written(count))
    };
    let (first, second) = (once(0), once(0xff));
    assert_eq!(first, second);
    first
}

// The job's answer with buffers of the lengths, the witness and the types; nothing else of the buffers or around them is written.
pub fn typed(
    schema: &[u8],
    events: &[u8],
    witness_room: usize,
    types_room: usize,
) -> (Job, Vec<u8>, Vec<u8>) {
    let once = |turned| {
        let mut witness = Lent::new(witness_room, turned);
        let mut types = Lent::new(types_room, turned);
        let job = type_document(schema, events, witness.lend(), types.lend());
        let (number, count) = match job {
            Job::SchemaRefused { number, .. } => (number, 0),
            Job::EventsRead { count, .. } => (0, count),
        };
        let filled = filled(number, witness.lend());
        (job, witness.written(filled), types.written(count))
    };
    let (first, second) = (once(0), once(0xff));
    assert_eq!(first, second);
    first
}

// What would have been taken, with a witness buffer of the length, and the witness; nothing else of the buffer or around it is written.
pub fn expected(
    schema: &[u8],
    events: &[u8],
    room: usize,
) -> (Result<Expected, SchemaRefused>, Vec<u8>) {
    let once = |turned| {
        let mut witness = Lent::new(room, turned);
        let told = expect_document(schema, events, witness.lend());
        let number = told.as_ref().map_or_else(|r| r.number, |_| 0);
        let filled = filled(number, witness.lend());
        (told, witness.written(filled))
    };
    let (first, second) = (once(0), once(0xff));
    assert_eq!(first, second);
    first
}

// What the writer answers with an output of the length, and the file that is written; nothing else of the output or around it is written.
pub fn written(schema: &[u8], room: usize) -> (Result<usize, NotWritten>, Vec<u8>) {
    let once = |turned| {
        let mut out = Lent::new(room, turned);
        let answer = write_reduced(schema, out.lend());
        (answer, out.written(answer.unwrap_or(0)))
    };
    let (first, second) = (once(0), once(0xff));
    assert_eq!(first, second);
    first
}

pub fn refused(number: u8, place: usize) -> Job {
    Job::SchemaRefused { number, place }
}

pub fn read(number: u8, place: usize, count: usize) -> Job {
    Job::EventsRead {
        number,
        place,
        count,
    }
}
