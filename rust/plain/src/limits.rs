//! Document 01's limits, and what its numbers are kept in.

/// A tag's number.
pub type Tag = u8;
/// A type's number.
pub type Type = u8;
/// A state's number.
pub type State = u8;

pub const MOST_TAGS: usize = 32;
pub const MOST_TYPES: usize = 64;
pub const MOST_STATES: usize = 32;
pub const MOST_STEPS: usize = 1024;
pub const MOST_ROOTS: usize = 8;

/// The most uses of types in an expression; state 0 is the automaton's other state.
pub const MOST_USES: usize = MOST_STATES - 1;

/// The most brackets of an expression that are open at once.
pub const MOST_BRACKETS: usize = 16;

/// The most elements that are open at once.
pub const MOST_OPEN: usize = 64;

/// The most openings that can be taken at one point: of each tag, plainly and as nil.
pub const MOST_OPENINGS: usize = 2 * MOST_TAGS;

/// The number of unordered pairs of states.
pub const PAIRS: usize = MOST_STATES * (MOST_STATES + 1) / 2;

/// The longest word of a witness: it passes each pair of states at most once.
pub const LONGEST_WORD: usize = PAIRS - 1;

/// The bytes of a witness before its word: A, J, K and the word's length in two.
pub const BEFORE_WORD: usize = 5;

/// For A in a witness, which no type's number is: two roots compete, before any element is open.
pub const NO_PARENT: Type = Type::MAX;

/// The shortest witness buffer.
pub const WITNESS: usize = BEFORE_WORD + LONGEST_WORD;

/// The bytes of `schema.tab` that the program reads.
pub const PROGRAM_SCHEMA: usize = 16_384;

/// The most bytes of events that the program takes.
pub const PROGRAM_EVENTS: usize = 32_768;

/// The types that the program's buffer holds.
pub const PROGRAM_TYPES: usize = 16_384;
