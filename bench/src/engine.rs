//! The proved engine's calls: those on values in libengine_bench.a, and the schema file's and the writer's
//! in libtypestock_c.a. The values lie in memory as the plain implementation has them.
use plain::kinds::KindsOf;
use plain::limits::{MOST_STEPS, MOST_TYPES, Tag, Type, WITNESS};
use plain::questions::{NONE, Number};
use plain::rows::{Entry, ROWS};
use plain::{Answer, Answered, EventAnswer, Expected, Reading, Rows, Schema, SchemaAnswer, States};
use std::mem::{offset_of, size_of};

/// Whether a schema is inside the limits, and its trimming's tables; if it is not, they are empty.
#[repr(C)]
pub struct Trimmed {
    pub inside: bool,
    pub live: [States; MOST_TYPES],
    pub ways: KindsOf,
    pub reached: [bool; MOST_TYPES],
}

/// The number and the length of a file that is written.
#[repr(C)]
struct Written {
    number: Number,
    length: usize,
}

/// The tables that a call lays rows in.
type Entries = [Entry; MOST_STEPS];
type Begins = [u16; ROWS + 1];

// The layouts that the exports have: C's, of the fields in the engine's order.
const _: () = {
    assert!(size_of::<Schema>() == 3660 && offset_of!(Schema, root) == 3);
    assert!(offset_of!(Schema, tag) == 11 && offset_of!(Schema, accepting) == 140);
    assert!(offset_of!(Schema, nillable) == 396 && offset_of!(Schema, steps) == 460);
    assert!(offset_of!(Schema, from) == 588);
    assert!(size_of::<Trimmed>() == 388 && offset_of!(Trimmed, live) == 4);
    assert!(offset_of!(Trimmed, ways) == 260 && offset_of!(Trimmed, reached) == 324);
    assert!(size_of::<Entries>() == 4096 && size_of::<Begins>() == 4098);
    assert!(size_of::<Reading>() == 324 && offset_of!(Reading, sets) == 68);
    assert!(size_of::<Answer>() == 2 && size_of::<Answered>() == 328);
    assert!(offset_of!(Answered, reading) == 4);
    assert!(size_of::<SchemaAnswer>() == 16 && size_of::<EventAnswer>() == 24);
    assert!(size_of::<Expected>() == 232 && offset_of!(Expected, types) == 24);
    assert!(offset_of!(Expected, count) == 88 && offset_of!(Expected, tags) == 96);
    assert!(offset_of!(Expected, nils) == 160 && offset_of!(Expected, closes) == 224);
    assert!(size_of::<Written>() == 16 && offset_of!(Written, length) == 8);
};

// A slice goes over as its pointer and its length. Those that are safe take plain values or references, and the engine is proved to hand back a
// bool and an answer's kind as they are declared.
unsafe extern "C" {
    #[link_name = "bench_within"]
    pub safe fn within(schema: Schema) -> bool;
    safe fn bench_trim(schema: Schema, entries: &mut Entries, begins: &mut Begins) -> Trimmed;
    fn bench_competition(schema: Schema, witness: *mut u8, room: usize) -> u8;
    #[link_name = "bench_open"]
    pub safe fn open(schema: Schema, reading: Reading, tag: Tag) -> Answered;
    #[link_name = "bench_open_lent"]
    pub safe fn open_lent(reading: &mut Reading, schema: Schema, tag: Tag) -> Answer;
    #[link_name = "bench_open_nil"]
    pub safe fn open_nil(schema: Schema, reading: Reading, tag: Tag) -> Answered;
    #[link_name = "bench_close"]
    pub safe fn close(schema: Schema, reading: Reading, tag: Tag) -> Answered;
    #[link_name = "bench_finish"]
    pub safe fn finish(schema: Schema, reading: Reading) -> Answered;
    fn bench_events(
        schema: Schema,
        events: *const u8,
        length: usize,
        types: *mut Type,
        room: usize,
    ) -> EventAnswer;
    fn bench_expected(schema: Schema, events: *const u8, length: usize) -> Expected;
    fn typestock_check_schema(
        file: *const u8,
        length: usize,
        witness: *mut u8,
        room: usize,
    ) -> SchemaAnswer;
    fn typestock_write_reduced(
        file: *const u8,
        length: usize,
        out: *mut u8,
        room: usize,
    ) -> Written;
}

/// The trimming's tables; its rows go to `rows`.
pub fn trim(schema: &Schema, rows: &mut Rows) -> Trimmed {
    bench_trim(*schema, &mut rows.entries, &mut rows.begins)
}

/// The number and the witness buffer of a search for competition in a schema as a value.
pub fn competition(schema: &Schema) -> (u8, [u8; WITNESS]) {
    let mut witness = [0; WITNESS];
    // SAFETY: the pointer and the length are one slice's, which is lent to the call alone.
    let number = unsafe { bench_competition(*schema, witness.as_mut_ptr(), witness.len()) };
    (number, witness)
}

pub fn events(schema: &Schema, file: &[u8], out: &mut [Type]) -> EventAnswer {
    let (room, out) = (out.len(), out.as_mut_ptr());
    // SAFETY: each pointer and length are one slice's, which lives through the call; the buffer is lent to it alone.
    unsafe { bench_events(*schema, file.as_ptr(), file.len(), out, room) }
}

pub fn expected(schema: &Schema, file: &[u8]) -> Expected {
    // SAFETY: as above.
    unsafe { bench_expected(*schema, file.as_ptr(), file.len()) }
}

pub fn check_schema(file: &[u8], witness: &mut [u8]) -> SchemaAnswer {
    let (room, witness) = (witness.len(), witness.as_mut_ptr());
    // SAFETY: as above.
    unsafe { typestock_check_schema(file.as_ptr(), file.len(), witness, room) }
}

pub fn write_reduced(file: &[u8], out: &mut [u8]) -> Result<usize, Number> {
    let (room, out) = (out.len(), out.as_mut_ptr());
    // SAFETY: as above.
    let told = unsafe { typestock_write_reduced(file.as_ptr(), file.len(), out, room) };
    match told.number {
        NONE => Ok(told.length),
        number => Err(number),
    }
}
