//! One input to both.
#![allow(dead_code)]

use compare::{Answers, Chance, Input, compare};
use plain::codes::{CLOSE, FINISH, OPEN, OPEN_NIL};
use plain::limits::WITNESS;

fn answers(input: &Input) -> Answers {
    compare(input, &mut Chance::new(1)).unwrap_or_else(|what| panic!("{what}\n{input}"))
}

/// Both answers to this input, which are the same.
pub fn both(schema: &[u8], events: &[u8], witness: usize, types: usize) -> Answers {
    answers(&Input {
        schema: schema.to_vec(),
        events: events.to_vec(),
        witness,
        types,
        out: schema.len(),
        walked: events.len(),
    })
}

/// Both answers to a schema file with a writer's output of this length, which are the same.
pub fn both_written(schema: &[u8], events: &[u8], out: usize) -> Answers {
    answers(&Input {
        schema: schema.to_vec(),
        events: events.to_vec(),
        witness: WITNESS,
        types: events.len(),
        out,
        walked: events.len(),
    })
}

/// The files, each with every event on tags 0 and 1 after it.
pub fn one_event_more(files: &[Vec<u8>]) -> Vec<Vec<u8>> {
    let events: [&[u8]; 7] = [
        &[OPEN, 0],
        &[OPEN, 1],
        &[OPEN_NIL, 0],
        &[OPEN_NIL, 1],
        &[CLOSE, 0],
        &[CLOSE, 1],
        &[FINISH],
    ];
    files
        .iter()
        .flat_map(|file| events.map(|event| [file, event].concat()))
        .collect()
}
