//! Typing of tagged documents as they open, in plain Rust.
//!
//! A schema file states tags, types and a content automaton for each type, or an expression that
//! becomes one, which types may be empty on purpose, and the root types. If each type is used and no two
//! compete, each element of a document gets its type at its opening tag. A file with types that no
//! document uses is written anew without them. Of a refused event file is told what would have been taken.
//! This crate is written from the documents that describe the files and answers, and shares no code
//! with the engine: it is what the engine is compared with, and what its time is measured against.
#![forbid(unsafe_code)]

pub mod codes;
pub mod competition;
pub mod event_file;
pub mod event_file_by_steps;
mod expected;
mod expression;
pub mod kinds;
pub mod limits;
mod program;
pub mod questions;
mod reading;
mod reduced_file;
pub mod rows;
pub mod schema;
pub mod schema_file;
mod states;
mod trimming;
mod witness;

#[cfg(test)]
mod tests;

pub use event_file::{EventAnswer, Opening, openings};
pub use expected::{Expected, expected};
pub use kinds::Kind;
pub use program::{print, print_expected};
pub use reading::{Answer, Answered, Reading};
pub use reduced_file::write_reduced;
pub use rows::Rows;
pub use schema::Schema;
pub use states::States;
pub use trimming::Trimming;
pub use witness::Witness;

use limits::{Type, WITNESS};
use questions::{COMPETITION, NO_TREE, NONE, Number, SHORT_WITNESS, UNUSED_TYPE};
use schema_file::Refusal;

/// What a schema file is answered: number 0 and place 0 if it is accepted.
#[derive(Debug, Clone, Copy, PartialEq, Eq)]
#[repr(C)]
pub struct SchemaAnswer {
    pub number: Number,
    pub place: usize,
}

/// What a schema file and an event file are answered together.
#[derive(Debug, Clone, Copy, PartialEq, Eq)]
pub enum Job {
    SchemaRefused {
        number: Number,
        place: usize,
    },
    EventsRead {
        number: Number,
        place: usize,
        count: usize,
    },
}

/// Answers a schema file. On 9 the witness, of a shortest word, fills 5 + n bytes of the buffer; the
/// rest of it, and on every other answer all of it, is unchanged.
pub fn check_schema(schema: &[u8], witness: &mut [u8]) -> SchemaAnswer {
    let mut stated = Schema::BLANK;
    let (number, place) = match accept(schema, witness, &mut stated) {
        Ok(()) => (NONE, 0),
        Err(Refusal { number, place }) => (number, place),
    };
    SchemaAnswer { number, place }
}

/// Answers a schema file and, if it is accepted, an event file under it. The type of each opening
/// taken goes to `types`; the rest of it is unchanged.
pub fn type_document(schema: &[u8], events: &[u8], witness: &mut [u8], types: &mut [u8]) -> Job {
    let mut stated = Schema::BLANK;
    if let Err(Refusal { number, place }) = accept(schema, witness, &mut stated) {
        return Job::SchemaRefused { number, place };
    }
    let answer = event_file::read(&stated, events, types);
    Job::EventsRead {
        number: answer.number,
        place: answer.place,
        count: answer.count,
    }
}

/// Answers a schema file's refusal or, if it is accepted, where the walk over an event file stops and
/// what would have been taken there.
pub fn expect_document(
    schema: &[u8],
    events: &[u8],
    witness: &mut [u8],
) -> Result<Expected, Refusal> {
    let mut stated = Schema::BLANK;
    accept(schema, witness, &mut stated)?;
    Ok(expected(&stated, events))
}

/// Is this a witness of the schema that the file states? Its types compete as roots; or no roots do, its
/// types compete after its word, no two compete in a smaller type, and in the same type no two do after
/// a shorter word. No if the file states no schema, or one with no valid document.
pub fn competes(schema: &[u8], witness: &Witness) -> bool {
    let mut stated = Schema::BLANK;
    if schema_file::read(schema, &mut stated).is_err() {
        return false;
    }
    let trimming = Trimming::of(&stated);
    has_documents(&stated, &trimming) && competition::confirm(&stated, &trimming, witness)
}

/// Question 8: does a root type bear a tree?
fn has_documents(schema: &Schema, trimming: &Trimming) -> bool {
    let mut roots = schema.root_types().iter();
    roots.any(|&root| trimming.bears(root))
}

/// Question 24: the first type that no valid document uses, if there is one.
fn first_unused(schema: &Schema, trimming: &Trimming) -> Option<Type> {
    (0..schema.types).find(|&of| !trimming.is_used(of))
}

/// Questions 1 to 9 and 21 to 24: reads the schema that the file states into a blank one, if it is accepted.
fn accept(file: &[u8], witness: &mut [u8], schema: &mut Schema) -> Result<(), Refusal> {
    let at_start = |number| Refusal { number, place: 0 };
    if witness.len() < WITNESS {
        return Err(at_start(SHORT_WITNESS));
    }
    schema_file::read(file, schema)?;
    let trimming = Trimming::of(schema);
    if !has_documents(schema, &trimming) {
        return Err(at_start(NO_TREE));
    }
    if let Some(unused) = first_unused(schema, &trimming) {
        return Err(Refusal {
            number: UNUSED_TYPE,
            place: schema_file::place_of_type(file, unused),
        });
    }
    match competition::find(schema, &trimming) {
        None => Ok(()),
        Some(found) => {
            found.witness().store(witness);
            Err(at_start(COMPETITION))
        }
    }
}
