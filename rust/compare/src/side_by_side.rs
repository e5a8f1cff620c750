//! Both implementations on one input, and everything that they answer and write.

use crate::calls;
use crate::chance::Chance;
use crate::expected;
use crate::input::Input;
use crate::lent::Part;
use crate::written;
use plain::limits::NO_PARENT;
use plain::questions::{COMPETITION, NONE};
use plain::{Expected, Job, Witness};

/// What one implementation answers to an input.
#[derive(Debug, Clone, Copy, PartialEq, Eq)]
pub struct Answers {
    /// Number and place of the schema file alone.
    pub schema: (u8, usize),
    pub job: Job,
    /// What would have been taken where the events walked were refused, if the schema is accepted.
    pub expected: Option<Expected>,
    /// On 9, what the schema fixes of the witness.
    pub witness: Option<Fixed>,
    /// The length of the file that is written without unused types, or why none is.
    pub written: Result<usize, u8>,
}

/// The type in which two compete, `NO_PARENT` if they are roots, and the length of the word: five bytes
/// more are filled.
#[derive(Debug, Clone, Copy, PartialEq, Eq)]
pub struct Fixed {
    pub within: u8,
    pub length: usize,
}

/// The functions that both crates have.
pub trait Implementation {
    const NAME: &str;
    fn check_schema(schema: &[u8], witness: &mut [u8]) -> (u8, usize);
    fn type_document(schema: &[u8], events: &[u8], witness: &mut [u8], types: &mut [u8]) -> Job;
    fn expect_document(
        schema: &[u8],
        events: &[u8],
        witness: &mut [u8],
    ) -> Result<Expected, (u8, usize)>;
    fn write_reduced(schema: &[u8], out: &mut [u8]) -> Result<usize, u8>;
}

macro_rules! implementation {
    ($name:ident, $library:ident, $expected:expr, $number:expr) => {
        pub struct $name;

        impl Implementation for $name {
            const NAME: &str = stringify!($library);

            fn check_schema(schema: &[u8], witness: &mut [u8]) -> (u8, usize) {
                let answer = $library::check_schema(schema, witness);
                (answer.number, answer.place)
            }

            fn type_document(
                schema: &[u8],
                events: &[u8],
                witness: &mut [u8],
                types: &mut [u8],
            ) -> Job {
                match $library::type_document(schema, events, witness, types) {
                    $library::Job::SchemaRefused { number, place } => {
                        Job::SchemaRefused { number, place }
                    }
                    $library::Job::EventsRead {
                        number,
                        place,
                        count,
                    } => Job::EventsRead {
                        number,
                        place,
                        count,
                    },
                }
            }

            fn expect_document(
                schema: &[u8],
                events: &[u8],
                witness: &mut [u8],
            ) -> Result<Expected, (u8, usize)> {
                $library::expect_document(schema, events, witness)
                    .map(|told| $expected(told, events.len()))
                    .map_err(|refused| (refused.number, refused.place))
            }

            fn write_reduced(schema: &[u8], out: &mut [u8]) -> Result<usize, u8> {
                $library::write_reduced(schema, out).map_err($number)
            }
        }
    };
}

implementation!(
    Engine,
    typestock,
    expected::of_engine,
    |refused: typestock::NotWritten| refused.number
);
implementation!(Plain, plain, |told, _| told, |number| number);

/// Runs both on the input. The answers if nothing differs, else what differs.
pub fn compare(input: &Input, chance: &mut Chance) -> Result<Answers, String> {
    let lent = Lent::random(input, chance);
    let written = written::compare(input, chance)?;
    let (engine, engine_types) = run::<Engine>(&lent, input.walked, written)?;
    let (plain, plain_types) = run::<Plain>(&lent, input.walked, written)?;
    if engine != plain {
        return Err(format!("answers differ: {engine:?} and {plain:?}"));
    }
    if engine_types != plain_types {
        return Err(format!(
            "types differ: {engine_types:02X?} and {plain_types:02X?}"
        ));
    }
    let events = lent.events.inner();
    let openings = typestock::openings(events).map(|opening| (opening.level, opening.tag));
    if !openings.eq(plain::openings(events).map(|opening| (opening.level, opening.tag))) {
        return Err("openings differ".into());
    }
    calls::compare(input, &plain.job, &plain_types)?;
    if let Some(answer) = &plain.expected {
        expected::check_place(input, answer, &plain.job)?;
        expected::check_event(input, answer, chance)?;
    }
    Ok(plain)
}

/// All that a call is lent.
#[derive(Clone, PartialEq, Eq)]
struct Lent {
    schema: Part,
    events: Part,
    witness: Part,
    types: Part,
}

impl Lent {
    fn random(input: &Input, chance: &mut Chance) -> Self {
        Lent {
            schema: Part::holding(&input.schema, chance),
            events: Part::holding(&input.events, chance),
            witness: Part::random(input.witness, chance),
            types: Part::random(input.types, chance),
        }
    }
}

/// The answers of one implementation, beside that of the writer, and the types that it gave, if all it
/// wrote is as promised.
fn run<I: Implementation>(
    before: &Lent,
    walked: usize,
    written: Result<usize, u8>,
) -> Result<(Answers, Vec<u8>), String> {
    let mut after = before.clone();
    let schema = I::check_schema(after.schema.inner(), after.witness.inner_mut());
    let witness = check_written::<I>(schema.0, 0, before, &after)?;
    let (job, types, beside_job) = run_job::<I>(before)?;
    let (expected, beside_expected) = run_expected::<I>(before, walked, schema)?;
    if [beside_job, beside_expected] != [witness; 2] {
        return Err(format!(
            "{}: the witnesses of two calls have other types or lengths",
            I::NAME
        ));
    }
    let answers = Answers {
        schema,
        job,
        expected,
        witness,
        written,
    };
    Ok((answers, types))
}

/// The answer to both files, the types that were given, and what the schema fixes of the witness.
fn run_job<I: Implementation>(before: &Lent) -> Result<(Job, Vec<u8>, Option<Fixed>), String> {
    let mut after = before.clone();
    let job = I::type_document(
        after.schema.inner(),
        after.events.inner(),
        after.witness.inner_mut(),
        after.types.inner_mut(),
    );
    let (number, count) = match job {
        Job::SchemaRefused { number, .. } => (number, 0),
        Job::EventsRead { count, .. } => (NONE, count),
    };
    let witness = check_written::<I>(number, count, before, &after)?;
    Ok((job, after.types.inner()[..count].to_vec(), witness))
}

/// What would have been taken where so many bytes of the events are walked, if the schema, which was
/// answered so, is accepted; and what it fixes of the witness.
fn run_expected<I: Implementation>(
    before: &Lent,
    walked: usize,
    schema: (u8, usize),
) -> Result<(Option<Expected>, Option<Fixed>), String> {
    let mut after = before.clone();
    let expected = I::expect_document(
        after.schema.inner(),
        &after.events.inner()[..walked],
        after.witness.inner_mut(),
    );
    let answer = expected.err().unwrap_or((NONE, 0));
    if answer != schema {
        return Err(format!("{}: a schema is answered {answer:?}", I::NAME));
    }
    let witness = check_written::<I>(answer.0, 0, before, &after)?;
    Ok((expected.ok(), witness))
}

/// Is nothing written but, on 9, a witness and, for the openings taken, their types? What the schema
/// fixes of the witness.
fn check_written<I: Implementation>(
    number: u8,
    count: usize,
    before: &Lent,
    after: &Lent,
) -> Result<Option<Fixed>, String> {
    let fault = |what: &str| Err(format!("{}: schema answered {number}, {what}", I::NAME));
    if after.schema != before.schema || after.events != before.events {
        return fault("a file changed");
    }
    if count > after.types.inner().len() {
        return fault("more openings than the buffer has bytes");
    }
    if !after.types.unchanged_but(count, &before.types) {
        return fault("bytes changed besides the types of the openings");
    }
    let witness = match number {
        COMPETITION => match check_witness(after) {
            Ok(witness) => Some(witness),
            Err(what) => return fault(what),
        },
        _ => None,
    };
    let filled = witness.map_or(0, |witness| witness.length());
    if !after.witness.unchanged_but(filled, &before.witness) {
        return fault("bytes changed besides the witness");
    }
    Ok(witness.map(|witness| Fixed {
        within: witness.within,
        length: witness.word.len(),
    }))
}

/// The witness, if its types compete and its word is a shortest.
fn check_witness(lent: &Lent) -> Result<Witness<'_>, &'static str> {
    let bytes = lent.witness.inner();
    let witness = Witness::from_bytes(bytes).ok_or("no witness in the buffer")?;
    let parts = typestock::witness(bytes).map(|w| (w.within, w.one, w.other, w.word));
    let within = Some(witness.within).filter(|&of| of != NO_PARENT);
    if parts != Some((within, witness.one, witness.other, witness.word)) {
        return Err("the parts of the witness differ");
    }
    if !plain::competes(lent.schema.inner(), &witness) {
        return Err("the types of the witness do not compete, or not after a shortest word");
    }
    Ok(witness)
}
