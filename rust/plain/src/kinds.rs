//! The kinds of openings, and sets of them.

use crate::limits::MOST_TYPES;
use crate::states::States;

/// How an element is opened: plainly, or as nil. One that is nil has a nillable type and no children, and
/// no word is asked of it.
#[derive(Debug, Clone, Copy, PartialEq, Eq)]
pub enum Kind {
    Plain,
    Nil,
}

impl Kind {
    pub const ALL: [Kind; 2] = [Kind::Plain, Kind::Nil];

    /// The states of an element that was opened so, before any child.
    #[inline]
    pub const fn first_states(self) -> States {
        match self {
            Kind::Plain => States::START,
            Kind::Nil => States::NONE,
        }
    }
}

/// A set of kinds, as a number: 0 none, 1 plain, 2 both, 3 nil. The sets that have a kind are two
/// neighbours.
#[derive(Debug, Clone, Copy, PartialEq, Eq, Default)]
#[repr(transparent)]
pub struct Kinds(pub u8);

/// For each type a set of kinds.
pub type KindsOf = [Kinds; MOST_TYPES];

impl Kinds {
    pub const NONE: Self = Kinds(0);
    pub const PLAIN: Self = Kinds(1);
    pub const BOTH: Self = Kinds(2);
    pub const NIL: Self = Kinds(3);

    /// The kinds by which a type's trees are opened.
    #[inline]
    pub const fn of(live: States, nillable: bool) -> Self {
        match (live.has_start(), nillable) {
            (false, false) => Kinds::NONE,
            (true, false) => Kinds::PLAIN,
            (true, true) => Kinds::BOTH,
            (false, true) => Kinds::NIL,
        }
    }

    /// The first of the two sets that have the kind; the other has the next number.
    #[inline]
    pub const fn first_with(kind: Kind) -> Self {
        match kind {
            Kind::Plain => Kinds::PLAIN,
            Kind::Nil => Kinds::BOTH,
        }
    }

    #[inline]
    pub const fn has(self, kind: Kind) -> bool {
        self.0.wrapping_sub(Kinds::first_with(kind).0) < 2
    }

    /// Is a kind in both?
    #[inline]
    pub const fn meets(self, other: Self) -> bool {
        (self.has(Kind::Plain) && other.has(Kind::Plain))
            || (self.has(Kind::Nil) && other.has(Kind::Nil))
    }

    #[inline]
    pub const fn is_empty(self) -> bool {
        self.0 == Kinds::NONE.0
    }

    pub fn iter(self) -> impl Iterator<Item = Kind> {
        Kind::ALL.into_iter().filter(move |&kind| self.has(kind))
    }
}
