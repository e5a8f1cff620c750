//! The steps that count, grouped by the state that they are from.

use std::ops::Range;

use crate::kinds::{Kind, Kinds, KindsOf};
use crate::limits::{MOST_STATES, MOST_STEPS, MOST_TYPES, State, Tag, Type};
use crate::schema::{Schema, Step};
use crate::states::{States, StatesOf};

/// A step that counts: by a tree-bearing type, into a live state. From the lowest bit on it has the
/// state that it is from, the one that it leads to, its type and its type's tag in 5, 5, 9 and 5 bits,
/// then the number of the kinds by which its type's trees are opened; the bits above are 0.
#[derive(Debug, Clone, Copy, PartialEq, Eq, PartialOrd, Ord)]
#[repr(transparent)]
pub struct Entry(pub u32);

impl Entry {
    const NONE: Entry = Entry(0);

    const STATE: u32 = 0x1F;
    const TYPE: u32 = 0x1FF;
    const TAG: u32 = 0x1F;

    /// Greater than any type's number, and not greater than a type's bits can be.
    const NO_TYPE: u32 = Self::TYPE;

    const TO: u32 = 5;
    const BY: u32 = 10;
    const TAGGED: u32 = 19;
    const OPENED: u32 = 24;

    const fn new(Step { from, by, to }: Step, tag: Tag, opened: Kinds) -> Self {
        let step = from as u32 | (to as u32) << Self::TO | (by as u32) << Self::BY;
        Entry(step | Self::above_type(tag, opened))
    }

    /// A tag and kinds at their places.
    #[inline]
    const fn above_type(tag: Tag, opened: Kinds) -> u32 {
        (tag as u32) << Self::TAGGED | (opened.0 as u32) << Self::OPENED
    }

    #[inline]
    pub const fn from(self) -> State {
        (self.0 & Self::STATE) as State
    }

    #[inline]
    pub const fn to(self) -> State {
        (self.0 >> Self::TO & Self::STATE) as State
    }

    #[inline]
    pub const fn by(self) -> Type {
        (self.0 >> Self::BY & Self::TYPE) as Type
    }

    #[inline]
    pub const fn tag(self) -> Tag {
        (self.0 >> Self::TAGGED & Self::TAG) as Tag
    }

    #[inline]
    pub const fn opened(self) -> Kinds {
        Kinds((self.0 >> Self::OPENED) as u8)
    }

    /// Its type if an opening may be of it, else a greater number than any type's. `least` is the
    /// opening's tag and the first kinds that have its kind; less it, only such an entry has nothing
    /// above its type but the lowest bit of the kinds, which is left out.
    #[inline]
    const fn type_of(self, least: u32) -> u32 {
        (self.0.wrapping_sub(least) & !(1 << Self::OPENED)) >> Self::BY
    }
}

/// A row for each state of each type, `MOST_STATES` rows a type.
pub const ROWS: usize = MOST_TYPES * MOST_STATES;

/// The entries of all rows, row after row, in each the order of the steps; past them all is 0.
#[derive(Debug, Clone, Copy, PartialEq, Eq)]
#[repr(C)]
pub struct Rows {
    pub entries: [Entry; MOST_STEPS],
    /// Where each row begins; it ends where the next begins. What follows the used types' rows is the
    /// number of entries, and 0 after it.
    pub begins: [u16; ROWS + 1],
}

impl Rows {
    pub const NONE: Rows = Rows {
        entries: [Entry::NONE; MOST_STEPS],
        begins: [0; ROWS + 1],
    };

    /// Fills empty rows with the steps of a schema inside the limits, of which these states are live and
    /// whose trees are opened by these kinds.
    pub fn fill(&mut self, schema: &Schema, live: &StatesOf, opened: &KindsOf) {
        let mut count = 0;
        let mut own_entries = Vec::new();
        for (of, own) in schema.blocks() {
            own_entries.clear();
            own_entries.extend(entries_that_count(schema, live[of], opened, own));
            let begins = &mut self.begins[of * MOST_STATES..][..MOST_STATES];
            let (used, unused) = begins.split_at_mut(usize::from(schema.states[of]));
            for (state, begin) in used.iter_mut().enumerate() {
                *begin = count as u16;
                let is_from = |entry: &&Entry| usize::from(entry.from()) == state;
                for &entry in own_entries.iter().filter(is_from) {
                    self.entries[count] = entry;
                    count += 1;
                }
            }
            unused.fill(count as u16);
        }
        self.begins[usize::from(schema.types) * MOST_STATES] = count as u16;
    }

    /// The entries from a state of a type.
    #[inline]
    pub fn row(&self, within: Type, state: State) -> &[Entry] {
        let row = usize::from(within) * MOST_STATES + usize::from(state);
        let [begin, end] = [self.begins[row], self.begins[row + 1]].map(usize::from);
        &self.entries[begin..end]
    }

    /// The smallest type of the tag that leads on from these states of a type and can be opened by the
    /// kind, and where it leads to.
    #[inline]
    pub fn smallest(
        &self,
        within: Type,
        states: States,
        kind: Kind,
        tag: Tag,
    ) -> Option<(Type, States)> {
        let least = Entry::above_type(tag, Kinds::first_with(kind));
        let (mut smallest, mut after) = (Entry::NO_TYPE, States::NONE);
        for state in states.iter() {
            for entry in self.row(within, state) {
                let by = entry.type_of(least);
                if by <= smallest {
                    if by < smallest {
                        (smallest, after) = (by, States::NONE);
                    }
                    after.add(entry.to());
                }
            }
        }
        (smallest < Entry::NO_TYPE).then_some((smallest as Type, after))
    }

    /// The entries from these states of a type.
    #[inline]
    pub fn from_any(&self, within: Type, states: States) -> impl Iterator<Item = Entry> {
        let rows = states.iter().map(move |state| self.row(within, state));
        rows.flatten().copied()
    }
}

/// The entries of the steps that count at a type's own places, in the steps' order.
fn entries_that_count(
    schema: &Schema,
    live: States,
    opened: &KindsOf,
    own: Range<usize>,
) -> impl Iterator<Item = Entry> {
    schema.steps_at(own).filter_map(move |step| {
        let by = usize::from(step.by);
        let counts = !opened[by].is_empty() && live.has(step.to);
        counts.then(|| Entry::new(step, schema.tag[by], opened[by]))
    })
}
