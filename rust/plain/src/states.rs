//! Sets of states of one content automaton.

use crate::limits::{MOST_TYPES, State};

/// A set of states, a bit for each.
#[derive(Debug, Clone, Copy, PartialEq, Eq, Default)]
#[repr(transparent)]
pub struct States(pub u32);

/// For each type a set of its states.
pub type StatesOf = [States; MOST_TYPES];

impl States {
    /// The set of no states.
    pub const NONE: Self = States(0);

    /// The set of only state 0, in which every content automaton starts.
    pub const START: Self = States(1);

    pub const fn only(state: State) -> Self {
        States(1 << state)
    }

    pub const fn has(self, state: State) -> bool {
        self.0 >> state & 1 == 1
    }

    pub const fn has_start(self) -> bool {
        self.meets(States::START)
    }

    pub const fn without_start(self) -> Self {
        States(self.0 & !States::START.0)
    }

    pub const fn meets(self, other: Self) -> bool {
        self.0 & other.0 != 0
    }

    pub const fn union(self, other: Self) -> Self {
        States(self.0 | other.0)
    }

    pub const fn is_empty(self) -> bool {
        self.0 == 0
    }

    /// Is every state below the count, which is at most 32?
    pub const fn all_below(self, count: u8) -> bool {
        (self.0 as u64) < 1 << count
    }

    pub const fn add(&mut self, state: State) {
        self.0 |= 1 << state;
    }

    /// The states, smallest first.
    pub fn iter(self) -> impl Iterator<Item = State> {
        let mut left = self.0;
        std::iter::from_fn(move || {
            (left != 0).then(|| {
                let state = left.trailing_zeros() as State;
                left &= left - 1;
                state
            })
        })
    }
}
