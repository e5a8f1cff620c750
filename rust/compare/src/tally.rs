//! How often each answer came up.

use std::fmt;

use crate::input::Input;
use crate::side_by_side::Answers;
use crate::tally_expected::Listed;
use crate::tally_written::Written;
use plain::event_file::{Event, event};
use plain::limits::NO_PARENT;
use plain::questions::{CANNOT_FOLLOW, COMPETITION, FINISHED, NO_ROOM, NONE, UNUSED_TYPE};
use plain::{Job, Kind, Schema, Trimming, competition, schema_file};

/// One more than the highest number that a schema file and an event file are answered with.
const SCHEMAS: usize = UNUSED_TYPE as usize + 1;
const EVENTS: usize = NO_ROOM as usize + 1;

#[derive(Debug, Clone, Default)]
pub struct Tally {
    pub inputs: u64,
    schemas: [u64; SCHEMAS],
    events: [u64; EVENTS],
    longest_schema: usize,
    longest_events: usize,
    most_openings: usize,
    deepest: usize,
    longest_word: usize,
    /// Accepted schemas with more than one root, and refused ones in which two roots compete.
    several_roots: u64,
    competing_roots: u64,
    most_roots: usize,
    /// Accepted schemas with a nillable type; those of them that would compete if all openings were of one
    /// kind; and refused ones in which two types compete as nil alone.
    nillable: u64,
    kinds_apart: u64,
    competing_nil: u64,
    /// Openings as nil that were taken.
    nil_openings: u64,
    /// What would have been taken.
    pub expected: Listed,
    /// The writer's answers.
    pub written: Written,
}

/// The schema that a file states, if it passes the questions up to 7.
fn stated(file: &[u8]) -> Schema {
    let mut schema = Schema::BLANK;
    schema_file::read(file, &mut schema).expect("the file states a schema");
    schema
}

/// Do two types compete once each that bears a tree is nillable?
fn competes_by_one_kind(mut schema: Schema) -> bool {
    let bears = Trimming::of(&schema).opened;
    schema.nillable = bears.map(|kinds| !kinds.is_empty());
    competition::find(&schema, &Trimming::of(&schema)).is_some()
}

/// Do the two that are found to compete share the nil kind alone?
fn competes_as_nil(schema: &Schema) -> bool {
    let trimming = Trimming::of(schema);
    competition::find(schema, &trimming).is_some_and(|found| {
        let [one, other] = [found.one, found.other].map(|of| trimming.opened[usize::from(of)]);
        let shared = one.iter().filter(|&kind| other.has(kind));
        shared.eq([Kind::Nil])
    })
}

/// How many of the first `count` openings of a file are as nil.
fn nil_openings(events: &[u8], count: usize) -> u64 {
    let mut rest = events;
    let mut nil = 0;
    let mut left = count;
    while left > 0 {
        let (event, length) = event(rest).expect("an opening is left");
        rest = &rest[length..];
        nil += u64::from(matches!(event, Event::OpenNil { .. }));
        left -= usize::from(matches!(event, Event::Open { .. } | Event::OpenNil { .. }));
    }
    nil
}

impl Tally {
    pub fn count(&mut self, input: &Input, answers: &Answers) {
        self.inputs += 1;
        self.schemas[usize::from(answers.schema.0)] += 1;
        self.longest_events = self.longest_events.max(input.events.len());
        let written = &mut self.written;
        written.count(input, answers.written, || stated(&input.schema));
        if let Job::EventsRead { number, count, .. } = answers.job {
            self.events[usize::from(number)] += 1;
            self.most_openings = self.most_openings.max(count);
            let levels = plain::openings(&input.events)
                .take(count)
                .map(|opening| opening.level);
            self.deepest = self.deepest.max(levels.max().unwrap_or(0));
            self.longest_schema = self.longest_schema.max(input.schema.len());
            self.nil_openings += nil_openings(&input.events, count);
            self.count_accepted(stated(&input.schema));
        }
        if let Some(expected) = &answers.expected {
            self.expected.count(expected, &answers.job);
        }
        if let Some(witness) = answers.witness {
            self.longest_word = self.longest_word.max(witness.length);
            self.competing_roots += u64::from(witness.within == NO_PARENT);
            self.competing_nil += u64::from(competes_as_nil(&stated(&input.schema)));
        }
    }

    fn count_accepted(&mut self, schema: Schema) {
        let roots = usize::from(schema.roots);
        self.several_roots += u64::from(roots > 1);
        self.most_roots = self.most_roots.max(roots);
        if schema.nillable.contains(&true) {
            self.nillable += 1;
            self.kinds_apart += u64::from(competes_by_one_kind(schema));
        }
    }

    pub fn add(&mut self, other: &Tally) {
        let pairs = self.schemas.iter_mut().chain(&mut self.events);
        for (sum, more) in pairs.zip(other.schemas.iter().chain(&other.events)) {
            *sum += more;
        }
        self.expected.add(&other.expected);
        self.written.add(&other.written);
        for (sum, more) in [
            (&mut self.inputs, other.inputs),
            (&mut self.several_roots, other.several_roots),
            (&mut self.competing_roots, other.competing_roots),
            (&mut self.nillable, other.nillable),
            (&mut self.kinds_apart, other.kinds_apart),
            (&mut self.competing_nil, other.competing_nil),
            (&mut self.nil_openings, other.nil_openings),
        ] {
            *sum += more;
        }
        for (most, more) in [
            (&mut self.longest_schema, other.longest_schema),
            (&mut self.longest_events, other.longest_events),
            (&mut self.most_openings, other.most_openings),
            (&mut self.deepest, other.deepest),
            (&mut self.longest_word, other.longest_word),
            (&mut self.most_roots, other.most_roots),
        ] {
            *most = more.max(*most);
        }
    }

    /// The answers of schema files, event files, what would have been taken and the writer, with how often
    /// each came up.
    pub fn numbers(&self) -> impl Iterator<Item = (&'static str, usize, u64)> {
        let schemas = (0..=usize::from(COMPETITION)).chain(usize::from(CANNOT_FOLLOW)..SCHEMAS);
        let schemas = schemas.map(|number| ("schema", number, self.schemas[number]));
        let events = std::iter::once(usize::from(NONE)).chain(usize::from(FINISHED)..EVENTS);
        let events = events.map(|number| ("events", number, self.events[number]));
        let expected = self.expected.numbers();
        schemas
            .chain(events)
            .chain(expected)
            .chain(self.written.numbers())
    }

    /// The longest word of a witness.
    pub fn longest_word(&self) -> usize {
        self.longest_word
    }

    /// How many accepted schemas have more than one root.
    pub fn several_roots(&self) -> u64 {
        self.several_roots
    }

    /// How many schemas are refused since two roots compete.
    pub fn competing_roots(&self) -> u64 {
        self.competing_roots
    }

    /// The most roots of an accepted schema.
    pub fn most_roots(&self) -> usize {
        self.most_roots
    }

    /// How many accepted schemas have a nillable type.
    pub fn nillable(&self) -> u64 {
        self.nillable
    }

    /// How many accepted schemas would compete if all openings were of one kind.
    pub fn kinds_apart(&self) -> u64 {
        self.kinds_apart
    }

    /// How many schemas are refused since two types compete as nil alone.
    pub fn competing_nil(&self) -> u64 {
        self.competing_nil
    }

    /// How many openings as nil were taken.
    pub fn nil_openings(&self) -> u64 {
        self.nil_openings
    }
}

impl fmt::Display for Tally {
    fn fmt(&self, out: &mut fmt::Formatter) -> fmt::Result {
        writeln!(out, "{:8} {:>6} {:>10}", "file", "answer", "inputs")?;
        for (file, number, times) in self.numbers() {
            writeln!(out, "{file:8} {number:>6} {times:>10}")?;
        }
        writeln!(
            out,
            "longest accepted schema file: {} bytes",
            self.longest_schema
        )?;
        writeln!(out, "longest event file: {} bytes", self.longest_events)?;
        writeln!(out, "most openings taken: {}", self.most_openings)?;
        writeln!(out, "deepest level taken: {}", self.deepest)?;
        writeln!(out, "longest witness word: {} types", self.longest_word)?;
        writeln!(
            out,
            "accepted schemas with several roots: {}, at most {}",
            self.several_roots, self.most_roots
        )?;
        writeln!(out, "schemas whose roots compete: {}", self.competing_roots)?;
        writeln!(
            out,
            "accepted schemas with nillable types: {}, that compete if all openings are of one kind: {}",
            self.nillable, self.kinds_apart
        )?;
        writeln!(out, "schemas that compete as nil: {}", self.competing_nil)?;
        writeln!(out, "openings as nil taken: {}", self.nil_openings)?;
        write!(out, "{}{}", self.expected, self.written)
    }
}
