//! What the programs `typestock` and `whatnext` print.

use std::fmt::{self, Write};

use crate::limits::{PROGRAM_EVENTS, PROGRAM_SCHEMA, PROGRAM_TYPES, WITNESS};
use crate::questions::{COMPETITION, NONE, Number};
use crate::schema_file::Refusal;
use crate::{Expected, Job, Kind, Witness, expect_document, openings, type_document};

/// The text that `typestock` prints for the bytes of `schema.tab` and of its standard input.
pub fn print(schema: &[u8], events: &[u8]) -> Vec<u8> {
    text_of(schema, events, write_typing)
}

/// The text that `whatnext` prints for the same.
pub fn print_expected(schema: &[u8], events: &[u8]) -> Vec<u8> {
    text_of(schema, events, write_expected)
}

/// Writes a program's lines for a schema file and an event file within its limits.
type WriteLines = fn(&mut String, &[u8], &[u8]) -> fmt::Result;

fn text_of(schema: &[u8], events: &[u8], write: WriteLines) -> Vec<u8> {
    if events.len() > PROGRAM_EVENTS {
        return b"too long\n".to_vec();
    }
    let schema = &schema[..schema.len().min(PROGRAM_SCHEMA)];
    let mut text = String::new();
    write(&mut text, schema, events).expect("a string takes all that is written");
    text.into_bytes()
}

fn write_typing(text: &mut String, schema: &[u8], events: &[u8]) -> fmt::Result {
    let mut witness = [0; WITNESS];
    let mut types = vec![0; PROGRAM_TYPES];
    match type_document(schema, events, &mut witness, &mut types) {
        Job::SchemaRefused { number, place } => {
            write_schema_refused(text, Refusal { number, place }, &witness)
        }
        Job::EventsRead {
            number,
            place,
            count,
        } => {
            writeln!(text, "depth tag type")?;
            for (opening, of) in openings(events).zip(&types[..count]) {
                writeln!(text, "{} {} {of}", opening.level, opening.tag)?;
            }
            match number {
                NONE => writeln!(text, "accepted {count}"),
                _ => write_refused(text, number, place),
            }
        }
    }
}

fn write_expected(text: &mut String, schema: &[u8], events: &[u8]) -> fmt::Result {
    let mut witness = [0; WITNESS];
    match expect_document(schema, events, &mut witness) {
        Err(refusal) => write_schema_refused(text, refusal, &witness),
        Ok(Expected { number: NONE, .. }) => writeln!(text, "accepted"),
        Ok(expected) => {
            write_refused(text, expected.number, expected.place)?;
            write_taken(text, &expected)
        }
    }
}

/// What is open, and what would have been taken.
fn write_taken(text: &mut String, expected: &Expected) -> fmt::Result {
    write!(text, "inside")?;
    for of in expected.open_types() {
        write!(text, " {of}")?;
    }
    writeln!(text)?;
    for (kind, tag) in expected.openings() {
        match kind {
            Kind::Plain => writeln!(text, "open {tag}")?,
            Kind::Nil => writeln!(text, "open nil {tag}")?,
        }
    }
    if expected.closes {
        writeln!(text, "close")?;
    }
    if expected.finishes {
        writeln!(text, "finish")?;
    }
    Ok(())
}

fn write_refused(text: &mut String, number: Number, place: usize) -> fmt::Result {
    writeln!(text, "refused {number} at {place}")
}

/// The line of a refused schema and, if it was refused for competition, that of the witness.
fn write_schema_refused(
    text: &mut String,
    Refusal { number, place }: Refusal,
    witness: &[u8],
) -> fmt::Result {
    writeln!(text, "schema refused {number} at {place}")?;
    match Witness::from_bytes(witness) {
        Some(Witness {
            within,
            one,
            other,
            word,
        }) if number == COMPETITION => {
            let length = word.len();
            writeln!(text, "type {within} gives {one} or {other} after {length}")
        }
        _ => Ok(()),
    }
}
