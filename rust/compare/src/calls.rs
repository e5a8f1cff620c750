//! The plain implementation's calls on a reading, one event after another: they answer what the
//! engine answered the event file.

use crate::input::Input;
use plain::event_file::{Event, event};
use plain::limits::Type;
use plain::questions::{NO_EVENT, NO_ROOM, NONE};
use plain::{Answer, Answered, Job, Reading, Schema, schema_file};

/// Each call asks the limits of the schema and finds its live states, so larger inputs are left out:
/// the product of the files' lengths.
const MOST_WORK: usize = 200_000;

/// Do the calls on a reading answer as the file did, with the same types? What differs, if not.
pub fn compare(input: &Input, job: &Job, types: &[Type]) -> Result<(), String> {
    let work = input.schema.len() * input.events.len();
    if matches!(job, Job::SchemaRefused { .. }) || work > MOST_WORK {
        return Ok(());
    }
    let mut schema = Schema::BLANK;
    schema_file::read(&input.schema, &mut schema).map_err(|_| "an accepted schema is not read")?;
    let (called, given) = walk(&schema, &input.events, input.types)?;
    if called != *job {
        return Err(format!("calls on a reading answer {called:?}, not {job:?}"));
    }
    if given != types {
        return Err(format!("calls on a reading give {given:02X?}"));
    }
    Ok(())
}

/// The answer of a file whose events are given to a fresh reading by calls, and the types.
fn walk(schema: &Schema, events: &[u8], room: usize) -> Result<(Job, Vec<Type>), String> {
    let mut reading = Reading::FRESH;
    let mut types = vec![];
    let mut place = 0;
    let number = loop {
        if reading.finished && place == events.len() {
            break NONE;
        }
        let Some((event, length)) = event(&events[place..]) else {
            break NO_EVENT;
        };
        let answered = call(schema, reading, event)?;
        match answered.answer {
            Answer::Refused(number) => break number,
            Answer::Typed(_) if types.len() == room => break NO_ROOM,
            Answer::Typed(of) => types.push(of),
            Answer::Taken => {}
        }
        reading = answered.reading;
        place += length;
    };
    let count = types.len();
    let job = Job::EventsRead {
        number,
        place,
        count,
    };
    Ok((job, types))
}

/// One call, which may not change the reading if it is refused.
fn call(schema: &Schema, reading: Reading, event: Event) -> Result<Answered, String> {
    let answered = match event {
        Event::Open { tag } => reading.open(schema, tag),
        Event::OpenNil { tag } => reading.open_nil(schema, tag),
        Event::Close { tag } => reading.close(schema, tag),
        Event::Finish => reading.finish(schema),
    };
    if matches!(answered.answer, Answer::Refused(_)) && answered.reading != reading {
        return Err(format!("a refused call changed the reading: {event:?}"));
    }
    Ok(answered)
}
