//! A reading: the elements that are open, and the questions 10 to 18.

use crate::kinds::{Kind, Kinds, KindsOf};
use crate::limits::{MOST_OPEN, MOST_TAGS, MOST_TYPES, State, Tag, Type};
use crate::questions::{
    FINISHED, INCOMPLETE, NO_SUCH_OPENING, NOTHING_OPEN, Number, OTHER_TAG, OUTSIDE_LIMITS,
    ROOT_NOT_CLOSED, TOO_DEEP, UNKNOWN_TAG, ask,
};
use crate::schema::Schema;
use crate::states::{States, StatesOf};
use crate::trimming::live_states;

/// A reading: for each open level, the root's first, the element's type and the live states that its
/// children's types lead to, none if it is nil; entries past `depth` are not used. It lies in memory as
/// the engine has it.
#[derive(Debug, Clone, Copy, PartialEq, Eq)]
#[repr(C)]
pub struct Reading {
    pub depth: u8,
    /// Has the root been opened?
    pub rooted: bool,
    pub finished: bool,
    pub types: [Type; MOST_OPEN],
    pub sets: [States; MOST_OPEN],
}

/// What a call on a reading is answered: the type of an opening that was taken, that a closing or a
/// finish was taken, or the number of the refusal. It lies in memory as the engine's exports for the
/// benchmark have it: the case's number, then the type or the refusal's.
#[derive(Debug, Clone, Copy, PartialEq, Eq)]
#[repr(u8)]
pub enum Answer {
    Typed(Type) = 0,
    Taken = 1,
    Refused(Number) = 2,
}

/// A call's answer and the reading that follows it, which is unchanged if the call was refused.
#[derive(Debug, Clone, Copy, PartialEq, Eq)]
#[repr(C)]
pub struct Answered {
    pub answer: Answer,
    pub reading: Reading,
}

/// The calls on a reading that is handed over and handed back.
impl Reading {
    /// No event was taken.
    pub const FRESH: Reading = Reading {
        depth: 0,
        rooted: false,
        finished: false,
        types: [0; MOST_OPEN],
        sets: [States::NONE; MOST_OPEN],
    };

    #[inline]
    pub fn open(self, schema: &Schema, tag: Tag) -> Answered {
        self.moved_on(|reading| reading.open_lent(schema, tag))
    }

    #[inline]
    pub fn open_nil(self, schema: &Schema, tag: Tag) -> Answered {
        self.moved_on(|reading| reading.open_nil_lent(schema, tag))
    }

    #[inline]
    pub fn close(self, schema: &Schema, tag: Tag) -> Answered {
        self.moved_on(|reading| reading.close_lent(schema, tag))
    }

    #[inline]
    pub fn finish(self, schema: &Schema) -> Answered {
        self.moved_on(|reading| reading.finish_lent(schema))
    }

    #[inline]
    fn moved_on(mut self, call: impl FnOnce(&mut Reading) -> Answer) -> Answered {
        let answer = call(&mut self);
        Answered {
            answer,
            reading: self,
        }
    }
}

/// The same calls on a lent reading, which is moved on by one event.
impl Reading {
    pub fn open_lent(&mut self, schema: &Schema, tag: Tag) -> Answer {
        self.open_by(Kind::Plain, schema, tag)
    }

    pub fn open_nil_lent(&mut self, schema: &Schema, tag: Tag) -> Answer {
        self.open_by(Kind::Nil, schema, tag)
    }

    #[inline]
    fn open_by(&mut self, kind: Kind, schema: &Schema, tag: Tag) -> Answer {
        let given = self.within_limits(schema).and_then(|()| {
            let (of, after) = self.ask_opening(&Live::of(schema), kind, tag)?;
            self.enter(kind, of, after);
            Ok(of)
        });
        given.map_or_else(Answer::Refused, Answer::Typed)
    }

    pub fn close_lent(&mut self, schema: &Schema, tag: Tag) -> Answer {
        let within = self.within_limits(schema);
        let closed = within.and_then(|()| self.take_closing(schema, tag));
        closed.map_or_else(Answer::Refused, |()| Answer::Taken)
    }

    pub fn finish_lent(&mut self, schema: &Schema) -> Answer {
        let within = self.within_limits(schema);
        let finished = within.and_then(|()| self.take_finish());
        finished.map_or_else(Answer::Refused, |()| Answer::Taken)
    }

    /// Question 10 of the schema and of the open levels.
    fn within_limits(&self, schema: &Schema) -> Result<(), Number> {
        let within = schema.within_limits() && self.levels_within(schema);
        ask(OUTSIDE_LIMITS, within)
    }

    fn levels_within(&self, schema: &Schema) -> bool {
        let depth = usize::from(self.depth);
        let fits = |(&of, set): (&Type, &States)| {
            of < schema.types && set.all_below(schema.states[usize::from(of)])
        };
        depth <= MOST_OPEN && self.types[..depth].iter().zip(&self.sets).all(fits)
    }
}

/// What is known of a schema by which an opening gets its type.
pub(crate) trait Ahead {
    fn schema(&self) -> &Schema;

    /// The smallest root type of a tag below the schema's count that bears a tree opened by the kind.
    fn root(&self, kind: Kind, tag: Tag) -> Option<Type>;

    /// The smallest type of the tag that bears a tree opened by the kind and leads from the set to a live
    /// state, in an element of the type `within`; and the live states that it leads to.
    fn child(&self, within: Type, set: States, kind: Kind, tag: Tag) -> Option<(Type, States)>;
}

/// The events: questions 11 to 18, and the reading moved on if none is answered no.
impl Reading {
    /// The type that an opening gets, and the states that it leads its parent to.
    // As a call it makes a walk a fifth longer.
    #[inline(always)]
    pub(crate) fn ask_opening(
        &self,
        ahead: &impl Ahead,
        kind: Kind,
        tag: Tag,
    ) -> Result<(Type, States), Number> {
        self.check(ahead.schema(), tag)?;
        let coming = self.coming(ahead, kind, tag).ok_or(NO_SUCH_OPENING)?;
        ask(TOO_DEEP, usize::from(self.depth) < MOST_OPEN)?;
        Ok(coming)
    }

    /// Moves on by an opening that was answered so.
    #[inline]
    pub(crate) fn enter(&mut self, kind: Kind, of: Type, after: States) {
        let depth = usize::from(self.depth);
        if depth > 0 {
            self.sets[depth - 1] = after;
        }
        self.types[depth] = of;
        self.sets[depth] = kind.first_states();
        self.depth += 1;
        self.rooted = true;
    }

    #[inline]
    pub(crate) fn ask_closing(&self, schema: &Schema, tag: Tag) -> Result<(), Number> {
        self.check(schema, tag)?;
        ask(NOTHING_OPEN, self.depth > 0)?;
        let inner = usize::from(self.depth) - 1;
        let of = usize::from(self.types[inner]);
        ask(OTHER_TAG, schema.tag[of] == tag)?;
        let set = self.sets[inner];
        let is_nil = set.is_empty() && schema.nillable[of];
        ask(INCOMPLETE, set.meets(schema.accepting[of]) || is_nil)
    }

    #[inline]
    pub(crate) fn take_closing(&mut self, schema: &Schema, tag: Tag) -> Result<(), Number> {
        self.ask_closing(schema, tag)?;
        self.depth -= 1;
        Ok(())
    }

    #[inline]
    pub(crate) fn ask_finish(&self) -> Result<(), Number> {
        ask(FINISHED, !self.finished)?;
        ask(ROOT_NOT_CLOSED, self.rooted && self.depth == 0)
    }

    #[inline]
    pub(crate) fn take_finish(&mut self) -> Result<(), Number> {
        self.ask_finish()?;
        self.finished = true;
        Ok(())
    }

    /// The first questions of an opening and a closing.
    #[inline]
    fn check(&self, schema: &Schema, tag: Tag) -> Result<(), Number> {
        ask(FINISHED, !self.finished)?;
        ask(UNKNOWN_TAG, tag < schema.tags)
    }

    /// The type that an opening of this kind and tag gets, and the states that it leads its parent to.
    #[inline]
    fn coming(&self, ahead: &impl Ahead, kind: Kind, tag: Tag) -> Option<(Type, States)> {
        if self.depth > 0 {
            let inner = usize::from(self.depth) - 1;
            return ahead.child(self.types[inner], self.sets[inner], kind, tag);
        }
        if self.rooted {
            return None;
        }
        ahead.root(kind, tag).map(|root| (root, States::NONE))
    }
}

/// For each kind and tag the smallest root type of the tag that bears a tree opened by the kind.
pub(crate) type RootOf = [[Option<Type>; MOST_TAGS]; Kind::ALL.len()];

pub(crate) const NO_ROOTS: RootOf = [[None; MOST_TAGS]; Kind::ALL.len()];

/// The roots by kind and tag, of a schema whose types' trees are opened by these kinds.
pub(crate) fn roots_by_tag(schema: &Schema, opened: &KindsOf) -> RootOf {
    let mut root_of = NO_ROOTS;
    for &root in schema.root_types() {
        let tag = usize::from(schema.tag[usize::from(root)]);
        for kind in opened[usize::from(root)].iter() {
            let smallest = &mut root_of[kind as usize][tag];
            *smallest = Some(smallest.map_or(root, |of| of.min(root)));
        }
    }
    root_of
}

/// A schema with its live states.
struct Live<'s> {
    schema: &'s Schema,
    live: StatesOf,
}

impl<'s> Live<'s> {
    fn of(schema: &'s Schema) -> Self {
        let live = live_states(schema);
        Live { schema, live }
    }

    /// May an opening of the kind and tag be of the type?
    fn opens(&self, of: Type, kind: Kind, tag: Tag) -> bool {
        let of = usize::from(of);
        let opened = Kinds::of(self.live[of], self.schema.nillable[of]);
        self.schema.tag[of] == tag && opened.has(kind)
    }
}

impl Ahead for Live<'_> {
    fn schema(&self) -> &Schema {
        self.schema
    }

    fn root(&self, kind: Kind, tag: Tag) -> Option<Type> {
        let roots = self.schema.root_types().iter().copied();
        roots.filter(|&of| self.opens(of, kind, tag)).min()
    }

    fn child(&self, within: Type, set: States, kind: Kind, tag: Tag) -> Option<(Type, States)> {
        let live = self.live[usize::from(within)];
        let steps = self.schema.steps_at(self.schema.block(within));
        let coming = steps.filter(|step| {
            set.has(step.from) && self.opens(step.by, kind, tag) && live.has(step.to)
        });
        smallest(coming.map(|step| (step.by, step.to)))
    }
}

/// The smallest of these types, and the states that it leads to.
#[inline]
pub(crate) fn smallest(coming: impl Iterator<Item = (Type, State)>) -> Option<(Type, States)> {
    const NO_TYPE: Type = MOST_TYPES as Type;
    let (mut smallest, mut after) = (NO_TYPE, States::NONE);
    coming.for_each(|(by, to)| {
        if by < smallest {
            (smallest, after) = (by, States::only(to));
        } else if by == smallest {
            after.add(to);
        }
    });
    (smallest != NO_TYPE).then_some((smallest, after))
}
