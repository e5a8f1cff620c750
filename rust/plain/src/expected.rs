//! What would have been taken where an event file was refused.

use crate::event_file::{EventAnswer, RootsAndRows, outside_limits, pass};
use crate::kinds::Kind;
use crate::limits::{MOST_OPEN, MOST_OPENINGS, Tag, Type};
use crate::questions::Number;
use crate::reading::{Ahead, Reading};
use crate::schema::Schema;

/// What an event file is answered, refused or not: the number and place of the walk with no buffer for
/// types, and what would have been taken there. Entries past the counts are 0. It lies in memory as the
/// engine has it.
#[derive(Debug, Clone, Copy, PartialEq, Eq)]
#[repr(C)]
pub struct Expected {
    pub number: Number,
    pub place: usize,
    /// How many elements are open, and their types from the root down.
    pub depth: usize,
    pub types: [Type; MOST_OPEN],
    /// How many openings would have been taken, and of each its tag and whether it is as nil: rising by
    /// tag, plain before nil.
    pub count: usize,
    pub tags: [Tag; MOST_OPENINGS],
    pub nils: [bool; MOST_OPENINGS],
    /// Would a closing have been taken?
    pub closes: bool,
    /// Would a finish?
    pub finishes: bool,
}

/// Walks an event file, and asks where it stops what would have been taken.
pub fn expected(schema: &Schema, file: &[u8]) -> Expected {
    if !schema.within_limits() {
        let EventAnswer { number, place, .. } = outside_limits(file);
        return Expected::nothing(number, place);
    }
    let ahead = RootsAndRows::of(schema);
    let mut reading = Reading::FRESH;
    let (number, place) = pass(&ahead, &mut reading, file, |_| Ok(()));
    let mut answer = Expected::nothing(number, place);
    answer.add_open(&reading);
    answer.add_taken(&ahead, &reading);
    answer
}

impl Expected {
    /// Nothing is open, and nothing would have been taken.
    const fn nothing(number: Number, place: usize) -> Self {
        Expected {
            number,
            place,
            depth: 0,
            types: [0; MOST_OPEN],
            count: 0,
            tags: [0; MOST_OPENINGS],
            nils: [false; MOST_OPENINGS],
            closes: false,
            finishes: false,
        }
    }

    /// The types of the open elements, from the root down.
    pub fn open_types(&self) -> &[Type] {
        &self.types[..self.depth]
    }

    /// The openings that would have been taken, in order.
    pub fn openings(&self) -> impl Iterator<Item = (Kind, Tag)> {
        let tags = self.tags[..self.count].iter();
        tags.zip(&self.nils).map(|(&tag, &nil)| match nil {
            false => (Kind::Plain, tag),
            true => (Kind::Nil, tag),
        })
    }

    fn add_open(&mut self, reading: &Reading) {
        self.depth = usize::from(reading.depth);
        self.types[..self.depth].copy_from_slice(&reading.types[..self.depth]);
    }

    fn add_taken(&mut self, ahead: &impl Ahead, reading: &Reading) {
        let schema = ahead.schema();
        for tag in 0..schema.tags {
            for kind in Kind::ALL {
                if reading.ask_opening(ahead, kind, tag).is_ok() {
                    self.add_opening(kind, tag);
                }
            }
        }
        // No other tag than the innermost element's is closed.
        let inner = self.open_types().last();
        let closes = |&of: &Type| reading.ask_closing(schema, schema.tag[usize::from(of)]);
        self.closes = inner.is_some_and(|of| closes(of).is_ok());
        self.finishes = reading.ask_finish().is_ok();
    }

    fn add_opening(&mut self, kind: Kind, tag: Tag) {
        self.tags[self.count] = tag;
        self.nils[self.count] = kind == Kind::Nil;
        self.count += 1;
    }
}
