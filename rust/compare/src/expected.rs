//! What would have been taken where an event file was refused: what holds of the answer that both
//! implementations give.

use crate::chance::Chance;
use crate::input::Input;
use crate::side_by_side::{Engine, Implementation};
use plain::codes::{CLOSE, FINISH, OPEN, OPEN_NIL};
use plain::event_file::{Event, event};
use plain::limits::{MOST_OPEN, MOST_OPENINGS, Tag, WITNESS};
use plain::questions::{NO_ROOM, NONE};
use plain::{Expected, Job, Kind};

/// The engine's answer to an event file of this length, as the plain implementation lays it out.
pub fn of_engine(told: typestock::Expected, length: usize) -> Expected {
    let refused = told
        .refusal()
        .map(|refused| (refused.number, refused.place));
    let (number, place) = refused.unwrap_or((NONE, length));
    let mut expected = Expected {
        number,
        place,
        depth: told.inside().len(),
        types: [0; MOST_OPEN],
        count: told.openings().len(),
        tags: [0; MOST_OPENINGS],
        nils: [false; MOST_OPENINGS],
        closes: told.closes(),
        finishes: told.finishes(),
    };
    for (level, of) in told.inside().enumerate() {
        expected.types[level] = of;
    }
    for (place, opening) in told.openings().enumerate() {
        expected.tags[place] = opening.tag;
        expected.nils[place] = opening.nil;
    }
    expected
}

/// Where all events are walked: is it the event file's number and place, or that of an event past the one
/// that had no room? What differs, if not.
pub fn check_place(input: &Input, expected: &Expected, job: &Job) -> Result<(), String> {
    if input.walked < input.events.len() {
        return Ok(());
    }
    let Job::EventsRead { number, place, .. } = *job else {
        return Err(format!("expected under a refused schema, {job:?}"));
    };
    let same = (expected.number, expected.place) == (number, place);
    let past = expected.number != NO_ROOM && expected.place > place;
    match if number == NO_ROOM { past } else { same } {
        true => Ok(()),
        false => Err(format!("{job:?}, but {expected:?}")),
    }
}

/// Puts some event at the place of the answer. Does the engine take it exactly if it is listed, and are
/// the open elements' types those that it gave? What differs, if not.
pub fn check_event(input: &Input, expected: &Expected, chance: &mut Chance) -> Result<(), String> {
    let before = &input.events[..expected.place];
    let open = open_elements(before);
    let inner = open.last().map(|&(_, tag)| tag);
    let next = any_event(input, expected, inner, chance);
    let file = [before, &next].concat();
    let mut types = vec![0; file.len()];
    let job = Engine::type_document(&input.schema, &file, &mut [0; WITNESS], &mut types);
    let types = open.iter().map(|&(opening, _)| types[opening]);
    if !types.eq(expected.open_types().iter().copied()) {
        return Err(format!("other types are open than of {expected:?}"));
    }
    let Job::EventsRead { number, place, .. } = job else {
        return Err(format!("{job:?}, but {expected:?}"));
    };
    let taken = number == NONE || place > before.len();
    match taken == is_listed(expected, &next, inner) {
        true => Ok(()),
        false => Err(format!("{next:02X?} gets {number}, but {expected:?}")),
    }
}

/// An event of any kind; if it has a tag, then one that is listed, the innermost element's or any.
fn any_event(
    input: &Input,
    expected: &Expected,
    inner: Option<Tag>,
    chance: &mut Chance,
) -> Vec<u8> {
    let mut tags: Vec<Tag> = expected.openings().map(|(_, tag)| tag).collect();
    tags.extend(inner);
    // An accepted file begins with TAGS and their count.
    let tag = match tags.is_empty() || chance.percent(50) {
        true => chance.small(0..=input.schema[1]),
        false => chance.of(&tags),
    };
    match chance.below(8) {
        0 => vec![FINISH],
        1..3 => vec![CLOSE, tag],
        3..5 => vec![OPEN_NIL, tag],
        _ => vec![OPEN, tag],
    }
}

/// Would the event have been taken? The innermost element has the tag `inner`.
fn is_listed(expected: &Expected, bytes: &[u8], inner: Option<Tag>) -> bool {
    let has = |kind, tag| expected.openings().any(|opening| opening == (kind, tag));
    event(bytes).is_some_and(|(event, _)| match event {
        Event::Open { tag } => has(Kind::Plain, tag),
        Event::OpenNil { tag } => has(Kind::Nil, tag),
        Event::Close { tag } => expected.closes && inner == Some(tag),
        Event::Finish => expected.finishes,
    })
}

/// The elements that these events leave open, from the root down: of each how many openings stand before
/// its own, and its tag.
fn open_elements(events: &[u8]) -> Vec<(usize, Tag)> {
    let mut open = vec![];
    let (mut rest, mut count) = (events, 0);
    while let Some((event, length)) = event(rest) {
        rest = &rest[length..];
        match event {
            Event::Open { tag } | Event::OpenNil { tag } => {
                open.push((count, tag));
                count += 1;
            }
            Event::Close { .. } => _ = open.pop(),
            Event::Finish => {}
        }
    }
    open
}
