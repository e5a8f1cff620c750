//! The calls on a reading and on an event file, of the engine and in plain Rust. All take the schema by value, as the engine's do, and those on a
//! reading by value hand the reading back.
use crate::engine;
use plain::limits::{Tag, Type};
use plain::{Answer, Answered, EventAnswer, Reading, Schema, event_file, event_file_by_steps};

#[derive(Clone, Copy)]
pub enum Call {
    Open(Tag),
    OpenNil(Tag),
    Close(Tag),
    Finish,
}

pub type Calls = fn(&Schema, &Reading, Call) -> Answered;

pub fn proved_call(schema: &Schema, reading: &Reading, call: Call) -> Answered {
    match call {
        Call::Open(tag) => engine::open(*schema, *reading, tag),
        Call::OpenNil(tag) => engine::open_nil(*schema, *reading, tag),
        Call::Close(tag) => engine::close(*schema, *reading, tag),
        Call::Finish => engine::finish(*schema, *reading),
    }
}

pub fn plain_call(schema: &Schema, reading: &Reading, call: Call) -> Answered {
    match call {
        Call::Open(tag) => open(*schema, *reading, tag),
        Call::OpenNil(tag) => open_nil(*schema, *reading, tag),
        Call::Close(tag) => close(*schema, *reading, tag),
        Call::Finish => finish(*schema, *reading),
    }
}

/// As `proved_call`, a plain opening on a lent copy.
pub fn proved_lent(schema: &Schema, reading: &Reading, call: Call) -> Answered {
    let Call::Open(tag) = call else {
        return proved_call(schema, reading, call);
    };
    let mut reading = *reading;
    let answer = engine::open_lent(&mut reading, *schema, tag);
    Answered { answer, reading }
}

/// As `plain_call`, a plain opening on a lent copy.
pub fn plain_lent(schema: &Schema, reading: &Reading, call: Call) -> Answered {
    let Call::Open(tag) = call else {
        return plain_call(schema, reading, call);
    };
    let mut reading = *reading;
    let answer = open_lent(&mut reading, *schema, tag);
    Answered { answer, reading }
}

#[inline(never)]
fn open(schema: Schema, reading: Reading, tag: Tag) -> Answered {
    reading.open(&schema, tag)
}

#[inline(never)]
fn open_nil(schema: Schema, reading: Reading, tag: Tag) -> Answered {
    reading.open_nil(&schema, tag)
}

#[inline(never)]
fn close(schema: Schema, reading: Reading, tag: Tag) -> Answered {
    reading.close(&schema, tag)
}

#[inline(never)]
fn finish(schema: Schema, reading: Reading) -> Answered {
    reading.finish(&schema)
}

#[inline(never)]
pub fn open_lent(reading: &mut Reading, schema: Schema, tag: Tag) -> Answer {
    reading.open_lent(&schema, tag)
}

pub type Events = fn(&Schema, &[u8], &mut [Type]) -> EventAnswer;

pub fn plain_events(schema: &Schema, file: &[u8], out: &mut [Type]) -> EventAnswer {
    events(*schema, file, out)
}

#[inline(never)]
fn events(schema: Schema, file: &[u8], out: &mut [Type]) -> EventAnswer {
    event_file::read(&schema, file, out)
}

/// As `plain_events`, over the layout without rows.
pub fn plain_by_steps(schema: &Schema, file: &[u8], out: &mut [Type]) -> EventAnswer {
    events_by_steps(*schema, file, out)
}

#[inline(never)]
fn events_by_steps(schema: Schema, file: &[u8], out: &mut [Type]) -> EventAnswer {
    event_file_by_steps::read(&schema, file, out)
}
