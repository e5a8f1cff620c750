//! One input: the two files, the lengths of the three lent buffers and how far the events are walked.

use std::fmt;

use crate::chance::Chance;
use crate::guide::Guide;
use crate::{damage, documents, schemas};
use plain::limits::WITNESS;
use typestock::MOST_GAINED;

#[derive(Debug, Clone, PartialEq, Eq)]
pub struct Input {
    pub schema: Vec<u8>,
    pub events: Vec<u8>,
    /// The length of the witness buffer.
    pub witness: usize,
    /// The length of the buffer of types.
    pub types: usize,
    /// The length of the writer's output.
    pub out: usize,
    /// Of the events the beginning that is walked to tell what would have been taken.
    pub walked: usize,
}

impl Input {
    pub fn random(chance: &mut Chance) -> Self {
        let (schema, events) = if chance.once_in(50) {
            (damage::random(chance), damage::random(chance))
        } else {
            files(chance)
        };
        let witness = match chance.below(100) {
            0 => chance.below(WITNESS),
            1 => chance.of(&[0, 4, 5, WITNESS - 2, WITNESS - 1]),
            2..20 => chance.within(WITNESS..=WITNESS + 170),
            _ => WITNESS,
        };
        let most = plain::openings(&events).count();
        let types = match chance.below(10) {
            0 => chance.below(most + 1),
            1 => most.saturating_sub(1),
            2..5 => most,
            _ => most + chance.below(40),
        };
        let out = room(chance, &schema);
        let walked = match chance.below(2) {
            0 => chance.within(0..=events.len()),
            _ => events.len(),
        };
        Input {
            schema,
            events,
            witness,
            types,
            out,
            walked,
        }
    }
}

/// The length of an output for the file: what is written to it fits, or does not.
fn room(chance: &mut Chance, schema: &[u8]) -> usize {
    let mut out = vec![0; schema.len() + MOST_GAINED];
    let needed = plain::write_reduced(schema, &mut out).unwrap_or(schema.len());
    match chance.below(20) {
        0 => 0,
        1 => chance.below(needed + 1),
        2..4 => needed.saturating_sub(1),
        4..12 => needed,
        _ => needed + chance.within(1..=60),
    }
}

/// A schema file and an event file for it, one of them or both damaged perhaps.
fn files(chance: &mut Chance) -> (Vec<u8>, Vec<u8>) {
    let model = schemas::schema(chance);
    let mut schema = model.file(chance);
    let mut events = documents::events(chance, &Guide::new(&model));
    if chance.percent(25) {
        damage::schema(chance, &mut schema);
    }
    match chance.below(100) {
        0..18 => damage::bytes(chance, &mut events),
        18..20 => events = damage::random(chance),
        _ => {}
    }
    events.truncate(40_000);
    (schema, events)
}

struct Hex<'a>(&'a [u8]);

impl fmt::Display for Hex<'_> {
    fn fmt(&self, out: &mut fmt::Formatter) -> fmt::Result {
        self.0
            .iter()
            .try_for_each(|byte| write!(out, " {byte:02X}"))
    }
}

impl fmt::Display for Input {
    fn fmt(&self, out: &mut fmt::Formatter) -> fmt::Result {
        writeln!(out, "schema:{}", Hex(&self.schema))?;
        writeln!(out, "events:{}", Hex(&self.events))?;
        writeln!(out, "witness buffer: {} bytes", self.witness)?;
        writeln!(out, "types buffer: {} bytes", self.types)?;
        writeln!(out, "writer's output: {} bytes", self.out)?;
        writeln!(out, "walked: {} bytes of the events", self.walked)
    }
}
