//! The event file: its events and the questions 19 and 20.

use crate::codes::{CLOSE, FINISH, OPEN, OPEN_NIL};
use crate::kinds::Kind;
use crate::limits::{Tag, Type};
use crate::questions::{NO_EVENT, NO_ROOM, NONE, Number, OUTSIDE_LIMITS};
use crate::reading::{Ahead, NO_ROOTS, Reading, RootOf, roots_by_tag};
use crate::rows::Rows;
use crate::schema::Schema;
use crate::states::States;
use crate::trimming::live_and_rows;

/// What an event file is answered: 0 if it is taken, the place of the refused event or the file's
/// length, and the count of openings taken.
#[derive(Debug, Clone, Copy, PartialEq, Eq, Default)]
#[repr(C)]
pub struct EventAnswer {
    pub number: Number,
    pub place: usize,
    pub count: usize,
}

#[derive(Debug, Clone, Copy, PartialEq, Eq)]
pub enum Event {
    Open { tag: Tag },
    OpenNil { tag: Tag },
    Close { tag: Tag },
    Finish,
}

/// The event that these bytes begin with, and its length.
#[inline]
pub fn event(bytes: &[u8]) -> Option<(Event, usize)> {
    match *bytes {
        [OPEN, tag, ..] => Some((Event::Open { tag }, 2)),
        [OPEN_NIL, tag, ..] => Some((Event::OpenNil { tag }, 2)),
        [CLOSE, tag, ..] => Some((Event::Close { tag }, 2)),
        [FINISH, ..] => Some((Event::Finish, 1)),
        _ => None,
    }
}

/// Gives a file's events to a fresh reading until the first refusal, and the types of the openings to
/// the buffer, of which the rest is unchanged.
pub fn read(schema: &Schema, file: &[u8], types: &mut [Type]) -> EventAnswer {
    if !schema.within_limits() {
        return outside_limits(file);
    }
    walk(&RootsAndRows::of(schema), file, types)
}

/// The answer under a schema that is outside the limits.
pub(crate) fn outside_limits(file: &[u8]) -> EventAnswer {
    EventAnswer {
        number: event(file).map_or(NO_EVENT, |_| OUTSIDE_LIMITS),
        ..EventAnswer::default()
    }
}

/// The walk over a file's events, under a schema inside the limits.
#[inline]
pub(crate) fn walk(ahead: &impl Ahead, file: &[u8], types: &mut [Type]) -> EventAnswer {
    let mut count = 0;
    let keep = |of| {
        *types.get_mut(count).ok_or(NO_ROOM)? = of;
        count += 1;
        Ok(())
    };
    let mut reading = Reading::FRESH;
    let (number, place) = pass(ahead, &mut reading, file, keep);
    EventAnswer {
        number,
        place,
        count,
    }
}

/// Gives a file's events to a reading until the first refusal, and the type of each opening to `keep`,
/// which is the last that may refuse it. Answers 0 and the file's length, or the refusal's number and place.
#[inline]
pub(crate) fn pass(
    ahead: &impl Ahead,
    reading: &mut Reading,
    file: &[u8],
    mut keep: impl FnMut(Type) -> Result<(), Number>,
) -> (Number, usize) {
    let mut place = 0;
    while place < file.len() || !reading.finished {
        match take(ahead, reading, &file[place..], &mut keep) {
            Ok(length) => place += length,
            Err(number) => return (number, place),
        }
    }
    (NONE, place)
}

/// Takes the event that these bytes begin with and answers its length, or the number of its refusal.
#[inline]
fn take(
    ahead: &impl Ahead,
    reading: &mut Reading,
    bytes: &[u8],
    keep: &mut impl FnMut(Type) -> Result<(), Number>,
) -> Result<usize, Number> {
    let (event, length) = event(bytes).ok_or(NO_EVENT)?;
    let (kind, tag) = match event {
        Event::Open { tag } => (Kind::Plain, tag),
        Event::OpenNil { tag } => (Kind::Nil, tag),
        Event::Close { tag } => return reading.take_closing(ahead.schema(), tag).map(|()| length),
        Event::Finish => return reading.take_finish().map(|()| length),
    };
    let (of, after) = reading.ask_opening(ahead, kind, tag)?;
    keep(of)?;
    reading.enter(kind, of, after);
    Ok(length)
}

/// A schema with its roots by kind and tag and its rows, made once for a file.
pub(crate) struct RootsAndRows<'s> {
    schema: &'s Schema,
    root_of: RootOf,
    rows: Rows,
}

impl<'s> RootsAndRows<'s> {
    pub(crate) fn of(schema: &'s Schema) -> Self {
        let mut both = RootsAndRows {
            schema,
            root_of: NO_ROOTS,
            rows: Rows::NONE,
        };
        let (_, opened) = live_and_rows(schema, &mut both.rows);
        both.root_of = roots_by_tag(schema, &opened);
        both
    }
}

impl Ahead for RootsAndRows<'_> {
    #[inline]
    fn schema(&self) -> &Schema {
        self.schema
    }

    #[inline]
    fn root(&self, kind: Kind, tag: Tag) -> Option<Type> {
        self.root_of[kind as usize][usize::from(tag)]
    }

    #[inline]
    fn child(&self, within: Type, set: States, kind: Kind, tag: Tag) -> Option<(Type, States)> {
        self.rows.smallest(within, set, kind, tag)
    }
}

/// An opening of an event file, of either kind: its level, the root's being 1, and its tag.
#[derive(Debug, Clone, Copy, PartialEq, Eq)]
pub struct Opening {
    pub level: usize,
    pub tag: Tag,
}

/// The openings of a file in order, up to the first bytes that are no event. A closing lowers the
/// level, but not below 0.
pub fn openings(events: &[u8]) -> impl Iterator<Item = Opening> {
    let mut rest = events;
    let mut level = 0_usize;
    std::iter::from_fn(move || {
        loop {
            let (event, length) = event(rest)?;
            rest = &rest[length..];
            match event {
                Event::Open { tag } | Event::OpenNil { tag } => {
                    level += 1;
                    return Some(Opening { level, tag });
                }
                Event::Close { .. } => level = level.saturating_sub(1),
                Event::Finish => {}
            }
        }
    })
}
