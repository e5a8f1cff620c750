//! Trimming: the live states, the types that bear a tree, the types that are reached.

use crate::kinds::{Kinds, KindsOf};
use crate::limits::{MOST_TYPES, State, Type};
use crate::rows::Rows;
use crate::schema::{Schema, Step};
use crate::states::{States, StatesOf};

/// What trimming finds of each type of a schema inside the limits; entries past the types are empty.
#[derive(Debug, Clone, Copy, PartialEq, Eq)]
#[repr(C)]
pub struct Trimming {
    /// The states from which an accepting state can be reached by types that bear a tree.
    pub live: StatesOf,
    /// The kinds by which its trees are opened; none if it bears no tree.
    pub opened: KindsOf,
    /// Is it a root type, or in a word of a reached type?
    pub reached: [bool; MOST_TYPES],
    /// The steps that count.
    pub rows: Rows,
}

impl Trimming {
    pub const NONE: Trimming = Trimming {
        live: [States::NONE; MOST_TYPES],
        opened: [Kinds::NONE; MOST_TYPES],
        reached: [false; MOST_TYPES],
        rows: Rows::NONE,
    };

    pub fn of(schema: &Schema) -> Trimming {
        let mut roots = [false; MOST_TYPES];
        for &root in schema.root_types() {
            roots[usize::from(root)] = true;
        }
        Trimming::from_roots(schema, &roots)
    }

    /// The same with the flagged types for the roots, of which there may be more than a schema has.
    #[inline]
    fn from_roots(schema: &Schema, roots: &[bool; MOST_TYPES]) -> Trimming {
        // Filled in place: a copy of the rows takes longer than a small schema's trimming.
        let mut trimming = Trimming::NONE;
        (trimming.live, trimming.opened) = live_and_rows(schema, &mut trimming.rows);
        let ahead = states_ahead(schema, &trimming.opened);
        trimming.reached = reached_types(schema, roots, &trimming.rows, &ahead);
        trimming
    }

    pub fn bears(&self, of: Type) -> bool {
        !self.opened[usize::from(of)].is_empty()
    }

    /// Does some typing of some valid document give an element this type?
    pub fn is_used(&self, of: Type) -> bool {
        self.reached[usize::from(of)] && self.bears(of)
    }
}

/// The live states and the kinds of the trees; and fills empty rows with the steps that count.
pub fn live_and_rows(schema: &Schema, rows: &mut Rows) -> (StatesOf, KindsOf) {
    let live = live_states(schema);
    let opened = opened_kinds(schema, &live);
    rows.fill(schema, &live, &opened);
    (live, opened)
}

/// The kinds by which the trees of each type are opened, in a schema with these live states.
pub fn opened_kinds(schema: &Schema, live: &StatesOf) -> KindsOf {
    let mut opened = [Kinds::NONE; MOST_TYPES];
    let used = opened[..usize::from(schema.types)].iter_mut();
    for (kinds, (&live, &nillable)) in used.zip(live.iter().zip(&schema.nillable)) {
        *kinds = Kinds::of(live, nillable);
    }
    opened
}

/// The live states: a type bears a tree if it is nillable, or once its start state is live.
pub fn live_states(schema: &Schema) -> StatesOf {
    let types = usize::from(schema.types);
    let mut live = [States::NONE; MOST_TYPES];
    live[..types].copy_from_slice(&schema.accepting[..types]);
    let mut bears = live.map(States::has_start);
    for (bears, &nillable) in bears[..types].iter_mut().zip(&schema.nillable) {
        *bears |= nillable;
    }
    let backwards = |step: Step| (step.to, step.from);
    settle(schema, &mut live, &mut bears, States::has_start, backwards);
    live
}

/// The states that words over tree-bearing types lead to from the start.
fn states_ahead(schema: &Schema, opened: &KindsOf) -> StatesOf {
    let mut ahead = [States::START; MOST_TYPES];
    let mut bears = opened.map(|kinds| !kinds.is_empty());
    let forwards = |step: Step| (step.from, step.to);
    settle(schema, &mut ahead, &mut bears, |_| false, forwards);
    ahead
}

/// A step by a tree-bearing type adds its second state to its type's set if that has the first. Goes
/// over one type's steps until its set is unchanged, then over the next type's, and over all types
/// again until no set grows. From when a set fits `by_set` on, its type bears a tree.
#[inline(always)]
fn settle(
    schema: &Schema,
    sets: &mut StatesOf,
    bears: &mut [bool; MOST_TYPES],
    by_set: impl Fn(States) -> bool,
    ends: impl Fn(Step) -> (State, State),
) {
    let mut grown = true;
    while grown {
        grown = false;
        for (of, own) in schema.blocks() {
            loop {
                let mut set = sets[of];
                for step in schema.steps_at(own.clone()) {
                    let (first, second) = ends(step);
                    if bears[usize::from(step.by)] && set.has(first) {
                        set.add(second);
                    }
                }
                if set == sets[of] {
                    break;
                }
                sets[of] = set;
                bears[of] |= by_set(set);
                grown = true;
            }
        }
    }
}

/// The reached types, by a queue that begins with the roots: the entries from the states ahead in a
/// reached type are by reached types.
fn reached_types(
    schema: &Schema,
    roots: &[bool; MOST_TYPES],
    rows: &Rows,
    ahead: &StatesOf,
) -> [bool; MOST_TYPES] {
    let mut reached = *roots;
    let mut queue = [0; MOST_TYPES];
    let mut count = 0;
    for root in (0..schema.types).filter(|&of| roots[usize::from(of)]) {
        queue[count] = root;
        count += 1;
    }
    let mut place = 0;
    while place < count {
        let of = queue[place];
        for entry in rows.from_any(of, ahead[usize::from(of)]) {
            let reached = &mut reached[usize::from(entry.by())];
            if !*reached {
                *reached = true;
                queue[count] = entry.by();
                count += 1;
            }
        }
        place += 1;
    }
    reached
}
