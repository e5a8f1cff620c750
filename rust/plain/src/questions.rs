//! The numbers of document 01's questions and of document 02's 21 to 24. A refusal answers that of the first question answered no.

/// A question's number.
pub type Number = u8;

/// No question was answered no.
pub const NONE: Number = 0;

// A schema file's.
pub const SHORT_WITNESS: Number = 1;
pub const NO_COMMAND: Number = 2;
pub const OUT_OF_ORDER: Number = 3;
pub const OUT_OF_RANGE: Number = 4;
pub const TOO_MANY: Number = 5;
pub const REPEATED: Number = 6;
pub const UNKNOWN_TYPE: Number = 7;
pub const NO_TREE: Number = 8;
pub const COMPETITION: Number = 9;

// A reading's.
pub const OUTSIDE_LIMITS: Number = 10;
pub const FINISHED: Number = 11;
pub const UNKNOWN_TAG: Number = 12;
pub const NO_SUCH_OPENING: Number = 13;
pub const TOO_DEEP: Number = 14;
pub const NOTHING_OPEN: Number = 15;
pub const OTHER_TAG: Number = 16;
pub const INCOMPLETE: Number = 17;
pub const ROOT_NOT_CLOSED: Number = 18;

// An event file's.
pub const NO_EVENT: Number = 19;
pub const NO_ROOM: Number = 20;

// An expression's in a schema file, after OUT_OF_RANGE.
pub const CANNOT_FOLLOW: Number = 21;
pub const TOO_MANY_USES: Number = 22;
pub const TOO_MANY_BRACKETS: Number = 23;

// A schema file's, between NO_TREE and COMPETITION.
pub const UNUSED_TYPE: Number = 24;

/// The question's number if the answer is no.
#[inline]
pub(crate) fn ask(number: Number, yes: bool) -> Result<(), Number> {
    if yes { Ok(()) } else { Err(number) }
}
