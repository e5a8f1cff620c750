//! How often each answer of what would have been taken came up, and what was listed.

use std::collections::BTreeSet;
use std::fmt;

use plain::limits::{MOST_OPEN, Tag};
use plain::questions::{FINISHED, NO_EVENT, NO_ROOM, NONE};
use plain::{Expected, Job, Kind};

/// One more than the highest number of a walk with no buffer.
const NUMBERS: usize = NO_EVENT as usize + 1;

#[derive(Debug, Clone, Default)]
pub struct Listed {
    numbers: [u64; NUMBERS],
    /// Answers at a place past the one that had no room for a type.
    pub past_room: u64,
    /// How many elements were open in some answer, and the answers with as many open as can be.
    pub depths: BTreeSet<usize>,
    pub full: u64,
    /// Openings listed: plain, as nil, and at most in one answer.
    pub plain: u64,
    pub nil: u64,
    pub most: usize,
    /// Answers that list a closing, a finish, and nothing.
    pub closes: u64,
    pub finishes: u64,
    pub nothing: u64,
}

impl Listed {
    pub fn count(&mut self, expected: &Expected, job: &Job) {
        self.numbers[usize::from(expected.number)] += 1;
        if let Job::EventsRead { number, place, .. } = *job {
            let past = number == NO_ROOM && expected.place > place;
            self.past_room += u64::from(past);
        }
        self.depths.insert(expected.depth);
        self.full += u64::from(expected.depth == MOST_OPEN);
        let listed = expected.count;
        let is_nil = |(kind, _): &(Kind, Tag)| *kind == Kind::Nil;
        let nil = expected.openings().filter(is_nil).count();
        self.nil += nil as u64;
        self.plain += (listed - nil) as u64;
        self.most = self.most.max(listed);
        self.closes += u64::from(expected.closes);
        self.finishes += u64::from(expected.finishes);
        let nothing = listed == 0 && !expected.closes && !expected.finishes;
        self.nothing += u64::from(nothing);
    }

    pub fn add(&mut self, other: &Listed) {
        for (sum, more) in self.numbers.iter_mut().zip(other.numbers) {
            *sum += more;
        }
        self.depths.extend(&other.depths);
        for (sum, more) in [
            (&mut self.past_room, other.past_room),
            (&mut self.full, other.full),
            (&mut self.plain, other.plain),
            (&mut self.nil, other.nil),
            (&mut self.closes, other.closes),
            (&mut self.finishes, other.finishes),
            (&mut self.nothing, other.nothing),
        ] {
            *sum += more;
        }
        self.most = self.most.max(other.most);
    }

    /// The answers, with how often each came up.
    pub fn numbers(&self) -> impl Iterator<Item = (&'static str, usize, u64)> {
        let numbers = std::iter::once(usize::from(NONE)).chain(usize::from(FINISHED)..NUMBERS);
        numbers.map(|number| ("expected", number, self.numbers[number]))
    }
}

impl fmt::Display for Listed {
    fn fmt(&self, out: &mut fmt::Formatter) -> fmt::Result {
        writeln!(
            out,
            "answers with {MOST_OPEN} elements open: {}, other numbers of them: {}; past the room for types: {}",
            self.full,
            self.depths.range(..MOST_OPEN).count(),
            self.past_room
        )?;
        writeln!(
            out,
            "openings listed: {} plain, {} as nil, at most {}",
            self.plain, self.nil, self.most
        )?;
        writeln!(
            out,
            "answers with a closing: {}, with a finish: {}, with nothing: {}",
            self.closes, self.finishes, self.nothing
        )
    }
}
