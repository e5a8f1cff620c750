//! The typing engine typestock for Rust: a schema file is accepted or refused, an event file is typed under it, what would have been taken is told
//! where it is refused, and a stored schema file is written anew without types that no valid document uses.
//!
//! The functions of the library are proved: for all bytes and lengths they answer as docs/FORMATS.md says, and leave each byte of a lent buffer
//! as it says. What C's calling convention does not carry over (that the library linked is that one, with these declarations) is tested here
//! after each call; a breach panics.
//!
//! ```
//! let schema = b"\x10\x01\x11\x00\x01\x12\x00\x14\x00\x1f"; // one tag, one type, which has no children
//! let events = b"\x21\x00\x22\x00\x2f"; // opened, closed, finished
//! let mut types = [0; 2];
//! let job = typestock::type_document(schema, events, &mut [0; typestock::WITNESS], &mut types);
//! assert_eq!(job, typestock::Job::EventsRead { number: 0, place: 5, count: 1 });
//! assert_eq!(types[0], 0);
//! ```
//!
//! A type's content may be written as an expression too:
//!
//! ```
//! let schema = b"\x10\x01\x11\x00\x00\x32\x00\x34\x3f\x14\x00\x1f"; // one tag, one type, which has children of its own type: 0*
//! let answer = typestock::check_schema(schema, &mut [0; typestock::WITNESS]);
//! assert_eq!(answer, typestock::SchemaAnswer { number: 0, place: 0 });
//! ```
//!
//! A schema has one to eight roots, and a document's root element may be of any of these types:
//!
//! ```
//! let schema = b"\x10\x02\x11\x00\x01\x12\x00\x11\x01\x01\x12\x00\x14\x01\x14\x00\x1f"; // types 0 and 1, of tags 0 and 1, are roots
//! let mut types = [0; 2];
//! let job = typestock::type_document(schema, b"\x21\x01\x22\x01\x2f", &mut [0; typestock::WITNESS], &mut types);
//! assert_eq!(job, typestock::Job::EventsRead { number: 0, place: 5, count: 1 });
//! assert_eq!(types[0], 1);
//! ```
//!
//! A type may be nillable. An element of it may be opened as nil: it is empty on purpose, whatever its content would need. [`command`] and [`event`]
//! name the first bytes:
//!
//! ```
//! use typestock::command::{DONE, FINAL, NIL, ROOT, STEP, TAGS, TYPE};
//! use typestock::event::{CLOSE, FINISH, OPEN, OPEN_NIL};
//! let rack = [TYPE, 0, 2, FINAL, 1, STEP, 0, 1, 1, NIL]; // type 0, of tag 0: one boot, or empty on purpose
//! let boot = [TYPE, 1, 1, FINAL, 0]; // type 1, of tag 1
//! let schema = [&[TAGS, 2], &rack[..], &boot, &[ROOT, 0, DONE]].concat();
//! let job = |events: &[u8]| typestock::type_document(&schema, events, &mut [0; typestock::WITNESS], &mut [0; 2]);
//! assert_eq!(job(&[OPEN_NIL, 0, CLOSE, 0, FINISH]), typestock::Job::EventsRead { number: 0, place: 5, count: 1 });
//! assert_eq!(job(&[OPEN, 0, CLOSE, 0, FINISH]), typestock::Job::EventsRead { number: 17, place: 2, count: 1 });
//! ```
//!
//! Where an event file is refused, [`expect_document`] tells what would have been taken there:
//!
//! ```
//! let schema = b"\x10\x01\x11\x00\x00\x32\x00\x34\x3f\x14\x00\x1f"; // the same: one type, which has children of its own type
//! let events = b"\x21\x00\x21\x00\x2f"; // two elements are open, and a finish comes
//! let told = typestock::expect_document(schema, events, &mut [0; typestock::WITNESS]).unwrap();
//! assert_eq!(told.refusal().unwrap().to_string(), "refused 18 at 4");
//! assert_eq!(told.inside().collect::<Vec<_>>(), [0, 0]);
//! assert_eq!(told.openings().map(|o| (o.tag, o.nil)).collect::<Vec<_>>(), [(0, false)]);
//! assert!(told.closes() && !told.finishes());
//! let refused = typestock::expect_document(b"", events, &mut [0; typestock::WITNESS]).unwrap_err();
//! assert_eq!(refused.to_string(), "schema refused 2 at 0");
//! ```
//!
//! A schema with a type that no valid document uses is refused. [`write_reduced`] and [`reduced`] write a file that was stored with such types
//! without them:
//!
//! ```
//! let stored = b"\x10\x02\x11\x01\x01\x12\x00\x11\x00\x01\x12\x00\x14\x01\x1f"; // type 1 is the root, and holds no type 0
//! let answer = |schema: &[u8]| typestock::check_schema(schema, &mut [0; typestock::WITNESS]);
//! assert_eq!(answer(stored), typestock::SchemaAnswer { number: 24, place: 2 });
//! let schema = typestock::reduced(stored).unwrap();
//! assert_eq!(schema, b"\x10\x02\x11\x00\x01\x12\x00\x14\x00\x1f");
//! assert_eq!(answer(&schema), typestock::SchemaAnswer { number: 0, place: 0 });
//! ```
#[cfg(not(all(target_arch = "x86_64", target_os = "linux")))]
compile_error!("libtypestock_c.a is for x86-64 Linux");

mod codes;
mod foreign;
mod held;

pub use codes::{command, event};

/// The least length of a witness buffer: with fewer bytes every schema is refused with 1.
pub const WITNESS: usize = 532;

/// The most elements that may be open.
pub const LEVELS: usize = 64;

/// The most openings that can be listed at one place: each of 32 tags plainly and as nil.
pub const OPENINGS: usize = 64;

/// The most bytes by which a written schema file can be longer than the one that it is written of: a FINAL for each of 32 states of 64 types, and 1,024
/// STEPs. That is counted, and not proved.
pub const MOST_GAINED: usize = 8192;

/// A schema file's answer: 0 and 0 for an accepted one, else the number of the first question answered no, 1 to 9 or 21 to 24, and its place.
/// 21 to 23 are of content written as an expression: a command that cannot follow there, a 32nd use, a 17th bracket. 24, asked between 8 and 9, is
/// of a type that no valid document uses, at the first such TYPE. docs/FORMATS.md has them all.
#[derive(Debug, Clone, Copy, PartialEq, Eq)]
pub struct SchemaAnswer {
    pub number: u8,
    pub place: usize,
}

/// Answers the schema file. On 9 the first bytes of the buffer are the witness, which [`witness`] reads, and its rest is unchanged; on every
/// other answer all of it is.
pub fn check_schema(schema: &[u8], witness: &mut [u8]) -> SchemaAnswer {
    let told = foreign::check_schema(schema, witness);
    held::schema(told.number, told.place, schema.len(), witness);
    SchemaAnswer {
        number: told.number,
        place: told.place,
    }
}

/// What a schema file and an event file get: the schema's refusal, 1 to 9 or 21 to 24; or the event file's number, 0 for taken or 11 to 20,
/// the place of the refused event or the file's length, and the count of openings taken.
#[derive(Debug, Clone, Copy, PartialEq, Eq)]
pub enum Job {
    SchemaRefused {
        number: u8,
        place: usize,
    },
    EventsRead {
        number: u8,
        place: usize,
        count: usize,
    },
}

/// Answers the schema file and, where that is accepted, types the event file under it. The witness buffer is left as by [`check_schema`].
/// The first `count` bytes of `types` get the types of the openings taken, in order, also where a later event is refused; the rest is
/// unchanged, all of it where the schema is refused. A byte for every two of the event file is always enough.
pub fn type_document(schema: &[u8], events: &[u8], witness: &mut [u8], types: &mut [u8]) -> Job {
    let told = foreign::type_document(schema, events, witness, types);
    held::schema(told.schema_number, told.schema_place, schema.len(), witness);
    if told.schema_number != 0 {
        held::unasked(&told);
        return Job::SchemaRefused {
            number: told.schema_number,
            place: told.schema_place,
        };
    }
    held::events(told.number, told.place, told.count, events.len(), types);
    Job::EventsRead {
        number: told.number,
        place: told.place,
        count: told.count,
    }
}

/// A schema file's refusal, number and place as in [`Job::SchemaRefused`].
#[derive(Debug, Clone, Copy, PartialEq, Eq)]
pub struct SchemaRefused {
    pub number: u8,
    pub place: usize,
}

impl std::fmt::Display for SchemaRefused {
    fn fmt(&self, f: &mut std::fmt::Formatter<'_>) -> std::fmt::Result {
        write!(f, "schema refused {} at {}", self.number, self.place)
    }
}

impl std::error::Error for SchemaRefused {}

/// An event file's refusal: the number of the first question answered no, 11 to 19, and the place of the refused event.
#[derive(Debug, Clone, Copy, PartialEq, Eq)]
pub struct Refusal {
    pub number: u8,
    pub place: usize,
}

impl std::fmt::Display for Refusal {
    fn fmt(&self, f: &mut std::fmt::Formatter<'_>) -> std::fmt::Result {
        write!(f, "refused {} at {}", self.number, self.place)
    }
}

impl std::error::Error for Refusal {}

/// An opening that would have been taken: its tag, and whether it is as nil.
#[derive(Debug, Clone, Copy, PartialEq, Eq)]
pub struct ExpectedOpening {
    pub tag: u8,
    pub nil: bool,
}

/// What would have been taken where an event file is refused, in place of the refused event or at the file's end. Nothing after a finish, and nothing
/// where the file is taken whole.
#[derive(Debug, Clone, PartialEq, Eq)]
pub struct Expected {
    refusal: Option<Refusal>,
    types: Vec<u8>,
    openings: Vec<ExpectedOpening>,
    closes: bool,
    finishes: bool,
}

impl Expected {
    /// Why the event file is refused; none where it is taken whole.
    pub fn refusal(&self) -> Option<Refusal> {
        self.refusal
    }

    /// The types of the elements that are open, from the root down.
    pub fn inside(&self) -> impl ExactSizeIterator<Item = u8> + '_ {
        self.types.iter().copied()
    }

    /// The openings that would have been taken, rising by tag, plain before nil.
    pub fn openings(&self) -> impl ExactSizeIterator<Item = ExpectedOpening> + '_ {
        self.openings.iter().copied()
    }

    /// Whether a closing, of the innermost element's tag, would have been taken.
    pub fn closes(&self) -> bool {
        self.closes
    }

    /// Whether a finish would have been taken.
    pub fn finishes(&self) -> bool {
        self.finishes
    }
}

/// Answers the schema file and, where that is accepted, tells what would have been taken where the event file is refused: exactly the openings and
/// the closing with which the events taken begin a valid document, of any depth, and open no 65th level, and the finish where it makes them a whole
/// one. The witness buffer is left as by [`check_schema`]. The events are walked with no buffer for types: 20 is never answered, and number and place
/// are those of [`type_document`] with a buffer that is long enough. The error is the schema's refusal, 1 to 9 or 21 to 24.
pub fn expect_document(
    schema: &[u8],
    events: &[u8],
    witness: &mut [u8],
) -> Result<Expected, SchemaRefused> {
    let told = foreign::expect_document(schema, events, witness);
    held::schema(told.schema_number, told.schema_place, schema.len(), witness);
    if told.schema_number != 0 {
        held::unexpected(&told);
        return Err(SchemaRefused {
            number: told.schema_number,
            place: told.schema_place,
        });
    }
    held::expected(&told, events.len());
    Ok(expected(&told))
}

fn expected(told: &foreign::Expected) -> Expected {
    let &foreign::Expected { number, place, .. } = told;
    let listed = told.tags[..told.count].iter().zip(&told.nils);
    Expected {
        refusal: (number != 0).then_some(Refusal { number, place }),
        types: told.types[..told.depth].to_vec(),
        openings: listed
            .map(|(&tag, &nil)| ExpectedOpening { tag, nil: nil == 1 })
            .collect(),
        closes: told.closes == 1,
        finishes: told.finishes == 1,
    }
}

/// Why a file is not written: the number of the first question answered no.
#[derive(Debug, Clone, Copy, PartialEq, Eq)]
pub struct NotWritten {
    pub number: u8,
}

impl std::fmt::Display for NotWritten {
    fn fmt(&self, f: &mut std::fmt::Formatter<'_>) -> std::fmt::Result {
        write!(f, "not written: {}", self.number)
    }
}

impl std::error::Error for NotWritten {}

/// Writes the schema file without the types that no valid document uses to the first bytes of `out`, and gives their number; the rest is unchanged.
/// Where it is refused, with 2 to 9 or 21 to 23 as [`check_schema`] refuses it but for 24, or last with 20 for an `out` that is too short, all of it
/// is. The written file is accepted, the same documents are valid under it, and their types are the old ones, numbered anew in their order. A file
/// with no such type comes back byte for byte. A buffer of [`MOST_GAINED`] bytes more than the file has is enough.
pub fn write_reduced(schema: &[u8], out: &mut [u8]) -> Result<usize, NotWritten> {
    let told = foreign::write_reduced(schema, out);
    held::written(told.number, told.length, out.len());
    match told.number {
        0 => Ok(told.length),
        number => Err(NotWritten { number }),
    }
}

/// The file that [`write_reduced`] writes, into a buffer that is long enough.
pub fn reduced(schema: &[u8]) -> Result<Vec<u8>, NotWritten> {
    let mut out = vec![0; schema.len() + MOST_GAINED];
    let length = write_reduced(schema, &mut out)?;
    out.truncate(length);
    Ok(out)
}

/// An opening of an event file, plain or as nil: its level, the root's being 1, and its tag.
#[derive(Debug, Clone, Copy, PartialEq, Eq)]
pub struct Opening {
    pub level: usize,
    pub tag: u8,
}

/// The openings of the event file in order, up to where it ends or goes on with what is no event. The first `count` of them are those that
/// [`type_document`] writes types of.
pub fn openings(events: &[u8]) -> Openings<'_> {
    Openings {
        events,
        at: 0,
        level: 0,
    }
}

/// The iterator of [`openings`].
#[derive(Debug, Clone)]
pub struct Openings<'a> {
    events: &'a [u8],
    at: usize,
    level: usize,
}

impl Iterator for Openings<'_> {
    type Item = Opening;

    fn next(&mut self) -> Option<Opening> {
        let told = foreign::next_opening(self.events, self.at, self.level);
        if !held::opening(&told, self.events, self.at, self.level) {
            self.at = self.events.len();
            return None;
        }
        self.at = told.at;
        self.level = told.level;
        Some(Opening {
            level: told.level,
            tag: told.tag,
        })
    }
}

impl std::iter::FusedIterator for Openings<'_> {}

/// Why a schema is refused with 9: types `one` and `other` have one tag, and both may be opened at one place, both plainly or both as nil.
///
/// ```
/// let schema = b"\x10\x01\x11\x00\x01\x12\x00\x11\x00\x01\x12\x00\x14\x00\x14\x01\x1f"; // types 0 and 1, both of tag 0, are roots
/// let mut buffer = [0; typestock::WITNESS];
/// assert_eq!(typestock::check_schema(schema, &mut buffer).number, 9);
/// let witness = typestock::witness(&buffer).unwrap();
/// let why = match witness.within {
///     None => format!("roots {} and {}", witness.one, witness.other),
///     Some(a) => format!("{} and {} in type {a} after {} children", witness.one, witness.other, witness.word.len()),
/// };
/// assert_eq!(why, "roots 0 and 1");
/// ```
#[derive(Debug, Clone, Copy, PartialEq, Eq)]
pub struct Witness<'a> {
    /// The type in which they compete: an element of it may go on with either after the word of children. It is the smallest type in which
    /// two compete. None where they compete as roots: a document may begin with either, and the word is empty. Roots are looked at first: with
    /// a type here no two roots compete.
    pub within: Option<u8>,
    /// Below `other`.
    pub one: u8,
    pub other: u8,
    /// The types of the children before them. It is shortest: no two types compete in `within` after fewer children.
    pub word: &'a [u8],
}

/// For A in the witness's bytes where two roots compete.
const NO_PARENT: u8 = 255;

/// The witness that the buffer of a call that answered 9 begins with. None where the bytes are none: fewer than 5 and the word's, types of
/// 64 or more but for the 255 of competing roots, a word with that 255, `one` not below `other`, or a word of more than 527.
pub fn witness(bytes: &[u8]) -> Option<Witness<'_>> {
    let &[a, one, other, low, high, ref rest @ ..] = bytes else {
        return None;
    };
    let length = usize::from(u16::from_le_bytes([low, high]));
    let word = rest.get(..length).filter(|_| length <= WITNESS - 5)?;
    let within = Some(a).filter(|&a| a != NO_PARENT);
    let fits = within.map_or(word.is_empty(), |a| a < held::TYPES);
    let known = [one, other].iter().chain(word).all(|&a| a < held::TYPES);
    (fits && known && one < other).then_some(Witness {
        within,
        one,
        other,
        word,
    })
}
