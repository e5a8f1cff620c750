//! The writers of both implementations on one schema file, and what holds of the file that they write.

use crate::chance::Chance;
use crate::input::Input;
use crate::lent::Part;
use crate::side_by_side::{Engine, Implementation, Plain};
use plain::limits::{Type, WITNESS};
use plain::questions::{COMPETITION, NO_ROOM, NONE, UNUSED_TYPE};
use plain::{Schema, Trimming, event_file, schema_file};

/// Runs both on the input's schema file. Their answer if nothing differs, else what differs.
pub fn compare(input: &Input, chance: &mut Chance) -> Result<Result<usize, u8>, String> {
    let file = Part::holding(&input.schema, chance);
    let out = Part::random(input.out, chance);
    let (engine, engine_bytes) = run::<Engine>(&file, &out)?;
    let (plain, plain_bytes) = run::<Plain>(&file, &out)?;
    if engine != plain {
        return Err(format!("writers answer {engine:?} and {plain:?}"));
    }
    if engine_bytes != plain_bytes {
        return Err(format!(
            "written files differ: {engine_bytes:02X?} and {plain_bytes:02X?}"
        ));
    }
    check_number(&input.schema, engine)?;
    if engine.is_ok() {
        check_file(&input.schema, &engine_bytes)?;
        check_documents(input, &engine_bytes)?;
    }
    Ok(engine)
}

/// The answer of one implementation and what it wrote, if nothing else is changed.
fn run<I: Implementation>(file: &Part, out: &Part) -> Result<(Result<usize, u8>, Vec<u8>), String> {
    let (mut lent, mut after) = (file.clone(), out.clone());
    let answer = I::write_reduced(lent.inner_mut(), after.inner_mut());
    let fault = |what: &str| Err(format!("{}: writer answered {answer:?}, {what}", I::NAME));
    let length = answer.unwrap_or(0);
    if lent != *file {
        return fault("the file changed");
    }
    if length > after.inner().len() {
        return fault("more bytes than the output has");
    }
    if !after.unchanged_but(length, out) {
        return fault("bytes changed besides the written file");
    }
    Ok((answer, after.inner()[..length].to_vec()))
}

/// Is the answer the reader's, but for 24, a witness that is not asked for and 20?
fn check_number(schema: &[u8], answer: Result<usize, u8>) -> Result<(), String> {
    let read = Engine::check_schema(schema, &mut [0; WITNESS]).0;
    let fits = match answer {
        Ok(_) | Err(NO_ROOM) => matches!(read, NONE | UNUSED_TYPE),
        Err(COMPETITION) => matches!(read, COMPETITION | UNUSED_TYPE),
        Err(number) => number == read && number != UNUSED_TYPE,
    };
    match fits {
        true => Ok(()),
        false => Err(format!("the writer answers {answer:?}, the reader {read}")),
    }
}

/// Is the written file accepted, the same if it is written again, and another one only if the old one was
/// refused?
fn check_file(schema: &[u8], written: &[u8]) -> Result<(), String> {
    let read = |file: &[u8]| Engine::check_schema(file, &mut [0; WITNESS]);
    if read(written) != (NONE, 0) {
        return Err(format!("the written file is not accepted: {written:02X?}"));
    }
    let mut again = vec![0; written.len()];
    if Engine::write_reduced(written, &mut again) != Ok(written.len()) || again != written {
        return Err(format!("written again, {written:02X?} is {again:02X?}"));
    }
    if (read(schema).0 == NONE) != (schema == written) {
        return Err(format!("of an accepted file {written:02X?} is written"));
    }
    Ok(())
}

/// Are the events answered under the written file as they are under the schema that the old one states,
/// with the types numbered anew?
fn check_documents(input: &Input, written: &[u8]) -> Result<(), String> {
    let mut schema = Schema::BLANK;
    schema_file::read(&input.schema, &mut schema).map_err(|_| "a written file was not read")?;
    let trimming = Trimming::of(&schema);
    let kept: Vec<Type> = (0..schema.types)
        .filter(|&of| trimming.is_used(of))
        .collect();
    let [mut old, mut new] = [vec![0; input.types], vec![0; input.types]];
    let expected = event_file::read(&schema, &input.events, &mut old);
    let job = Engine::type_document(written, &input.events, &mut [0; WITNESS], &mut new);
    let plain::EventAnswer {
        number,
        place,
        count,
    } = expected;
    if job
        != (plain::Job::EventsRead {
            number,
            place,
            count,
        })
    {
        return Err(format!("under the written file {job:?}, not {expected:?}"));
    }
    let given = new[..count].iter().map(|&of| kept.get(usize::from(of)));
    match given.eq(old[..count].iter().map(Some)) {
        true => Ok(()),
        false => Err(format!("under the written file other types: {new:02X?}")),
    }
}
