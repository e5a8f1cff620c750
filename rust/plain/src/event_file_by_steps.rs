//! The event file over another layout, which the benchmark measures the rows against: for each type a
//! flat list of its steps, each labelled with its tag and the kinds of openings that may be of it. An
//! opening goes over all steps of the innermost element's type.

use crate::event_file::{EventAnswer, outside_limits, walk};
use crate::kinds::{Kind, Kinds};
use crate::limits::{MOST_STEPS, MOST_TYPES, Tag, Type};
use crate::reading::{Ahead, RootOf, roots_by_tag, smallest};
use crate::schema::Schema;
use crate::states::States;
use crate::trimming::{live_states, opened_kinds};

/// Answers as `event_file::read` does.
pub fn read(schema: &Schema, file: &[u8], types: &mut [Type]) -> EventAnswer {
    if !schema.within_limits() {
        return outside_limits(file);
    }
    walk(&Labels::of(schema), file, types)
}

/// A schema with its roots by kind and tag and its steps labelled, made once for a file.
struct Labels<'s> {
    schema: &'s Schema,
    root_of: RootOf,
    /// For each type the place of its first step.
    first: [u16; MOST_TYPES],
    label: [Label; MOST_STEPS],
}

/// The tag of a step's type in five bits, and above them the number of the kinds by which that type's
/// trees are opened; all 0 if the step does not count: its type bears no tree, or it leads to a state
/// that is not live.
#[derive(Clone, Copy, PartialEq, Eq)]
struct Label(u8);

impl Label {
    const NONE: Label = Label(0);

    const OPENED: u32 = 5;

    const fn new(opened: Kinds, tag: Tag) -> Self {
        Label(opened.0 << Self::OPENED | tag)
    }

    /// Is it this label, of an opening's tag and the first kinds that have its kind, or that of the tag
    /// and the next kinds?
    const fn fits(self, least: Label) -> bool {
        self.0.wrapping_sub(least.0) & !(1 << Self::OPENED) == 0
    }
}

impl<'s> Labels<'s> {
    fn of(schema: &'s Schema) -> Self {
        let live = live_states(schema);
        let opened = opened_kinds(schema, &live);
        let mut first = [0; MOST_TYPES];
        let mut label = [Label::NONE; MOST_STEPS];
        for (of, own) in schema.blocks() {
            first[of] = own.start as u16;
            for (label, step) in label[own.clone()].iter_mut().zip(schema.steps_at(own)) {
                let by = usize::from(step.by);
                if !opened[by].is_empty() && live[of].has(step.to) {
                    *label = Label::new(opened[by], schema.tag[by]);
                }
            }
        }
        Labels {
            schema,
            root_of: roots_by_tag(schema, &opened),
            first,
            label,
        }
    }
}

impl Ahead for Labels<'_> {
    #[inline]
    fn schema(&self) -> &Schema {
        self.schema
    }

    #[inline]
    fn root(&self, kind: Kind, tag: Tag) -> Option<Type> {
        self.root_of[kind as usize][usize::from(tag)]
    }

    #[inline]
    fn child(&self, within: Type, set: States, kind: Kind, tag: Tag) -> Option<(Type, States)> {
        let least = Label::new(Kinds::first_with(kind), tag);
        let within = usize::from(within);
        let first = usize::from(self.first[within]);
        let own = first..first + usize::from(self.schema.steps[within]);
        let labels = self.label[own.clone()].iter();
        let steps = labels.zip(self.schema.steps_at(own));
        let coming = steps.filter(|(label, step)| label.fits(least) && set.has(step.from));
        smallest(coming.map(|(_, step)| (step.by, step.to)))
    }
}
