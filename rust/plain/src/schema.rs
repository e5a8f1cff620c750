//! Schemas as values: tags, types and their content automata.

use std::ops::Range;

use crate::limits::{MOST_ROOTS, MOST_STATES, MOST_STEPS, MOST_TAGS, MOST_TYPES, State, Tag, Type};
use crate::states::States;

/// A schema. The first `types` entries of the tables by type are used, the first `roots` of `root`, and
/// as many of the steps as these types have, type after type. It lies in memory as the engine has it.
#[derive(Debug, Clone, Copy, PartialEq, Eq)]
#[repr(C)]
pub struct Schema {
    pub tags: u8,
    pub types: u8,
    pub roots: u8,
    /// The root types, as they stand in the file.
    pub root: [Type; MOST_ROOTS],
    /// For each type its tag, its number of states, its accepting states, whether an element of it may be
    /// nil, and its number of steps.
    pub tag: [Tag; MOST_TYPES],
    pub states: [u8; MOST_TYPES],
    pub accepting: [States; MOST_TYPES],
    pub nillable: [bool; MOST_TYPES],
    pub steps: [u16; MOST_TYPES],
    /// For each step the state that it is from, the type that it is by and the state that it leads to.
    pub from: [State; MOST_STEPS],
    pub by: [Type; MOST_STEPS],
    pub to: [State; MOST_STEPS],
}

/// A step of a content automaton.
#[derive(Debug, Clone, Copy, PartialEq, Eq)]
pub struct Step {
    pub from: State,
    pub by: Type,
    pub to: State,
}

impl Schema {
    /// No tag, no type and no root; every entry is 0, and no type nillable.
    pub const BLANK: Schema = Schema {
        tags: 0,
        types: 0,
        roots: 0,
        root: [0; MOST_ROOTS],
        tag: [0; MOST_TYPES],
        states: [0; MOST_TYPES],
        accepting: [States::NONE; MOST_TYPES],
        nillable: [false; MOST_TYPES],
        steps: [0; MOST_TYPES],
        from: [0; MOST_STEPS],
        by: [0; MOST_STEPS],
        to: [0; MOST_STEPS],
    };

    /// Question 10 of a schema: are the counts inside the limits, and is each tag, type and state of
    /// the used entries below its count?
    pub fn within_limits(&self) -> bool {
        let counts = (1..=MOST_TAGS).contains(&usize::from(self.tags))
            && usize::from(self.types) <= MOST_TYPES
            && (1..=MOST_ROOTS).contains(&usize::from(self.roots));
        counts
            && self.root_types().iter().all(|&root| root < self.types)
            && self.blocks().all(|(of, own)| self.block_within(of, own))
    }

    /// Are the type's entries and its steps inside the limits?
    fn block_within(&self, of: usize, own: Range<usize>) -> bool {
        let states = self.states[of];
        own.end <= MOST_STEPS
            && self.tag[of] < self.tags
            && (1..=MOST_STATES).contains(&usize::from(states))
            && self.accepting[of].all_below(states)
            && self
                .steps_at(own)
                .all(|Step { from, by, to }| from < states && by < self.types && to < states)
    }

    /// The root types; a made-up value may have one of them twice.
    #[inline]
    pub fn root_types(&self) -> &[Type] {
        &self.root[..usize::from(self.roots)]
    }

    /// Each type with the places of its steps.
    #[inline]
    pub fn blocks(&self) -> impl Iterator<Item = (usize, Range<usize>)> {
        let mut end = 0;
        let counts = self.steps[..usize::from(self.types)].iter();
        counts.enumerate().map(move |(of, &count)| {
            let start = end;
            end += usize::from(count);
            (of, start..end)
        })
    }

    /// The places of a type's steps.
    #[inline]
    pub fn block(&self, of: Type) -> Range<usize> {
        let of = usize::from(of);
        let start = self.steps[..of]
            .iter()
            .map(|&count| usize::from(count))
            .sum();
        start..start + usize::from(self.steps[of])
    }

    /// The steps at these places.
    #[inline]
    pub fn steps_at(&self, places: Range<usize>) -> impl Iterator<Item = Step> {
        let from = self.from[places.clone()].iter();
        let by = &self.by[places.clone()];
        let steps = from.zip(by).zip(&self.to[places]);
        steps.map(|((&from, &by), &to)| Step { from, by, to })
    }
}
