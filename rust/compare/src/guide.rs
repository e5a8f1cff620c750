//! What the generator of documents knows of a schema: the cost of the smallest tree of each type, plain
//! or nil, and of the smallest rest of each state, in openings.

use crate::model::{Model, Step, Type};
use plain::limits::MOST_OPEN;

/// No tree, or no rest.
pub const NEVER: u32 = u32::MAX;
/// Costs that no document is written out for.
const HIGH: u32 = 1_000_000;

#[derive(Debug)]
pub struct Guide<'m> {
    pub model: &'m Model,
    /// For each type the openings of its smallest tree: one if it is nillable.
    pub tree: Vec<u32>,
    /// For each type and state the openings of the smallest way to an accepting state.
    pub rest: Vec<Vec<u32>>,
    /// For each type how deep its trees nest, as far as `DEEP`.
    pub depth: Vec<usize>,
}

/// A depth past the levels of a reading.
pub const DEEP: usize = MOST_OPEN + 6;

impl<'m> Guide<'m> {
    pub fn new(model: &'m Model) -> Self {
        let rest = model.types.iter().map(|block| {
            (0..block.states)
                .map(|state| {
                    if block.accepting.contains(&state) {
                        0
                    } else {
                        NEVER
                    }
                })
                .collect()
        });
        let nil = |block: &Type| if block.nillable { 1 } else { NEVER };
        let mut guide = Guide {
            model,
            tree: model.types.iter().map(nil).collect(),
            rest: rest.collect(),
            depth: vec![],
        };
        while guide.improve() {}
        guide.depth = guide.depths();
        guide
    }

    /// The steps from a state that begin a way to an accepting state.
    pub fn steps(&self, of: u8, state: u8) -> impl Iterator<Item = Step> {
        let steps = self.model.types[usize::from(of)].steps.iter().copied();
        steps.filter(move |step| step.from == state && self.cost(of, *step) != NEVER)
    }

    /// Has the type a tree that is opened plainly?
    pub fn has_plain(&self, of: u8) -> bool {
        self.rest[usize::from(of)][0] != NEVER
    }

    /// The openings of the smallest way that begins with this step.
    pub fn cost(&self, of: u8, step: Step) -> u32 {
        let (tree, rest) = (
            self.tree[usize::from(step.by)],
            self.rest[usize::from(of)][usize::from(step.to)],
        );
        if tree == NEVER || rest == NEVER {
            NEVER
        } else {
            (tree + rest).min(HIGH)
        }
    }

    fn improve(&mut self) -> bool {
        let mut better = false;
        for of in 0..self.model.types.len() {
            for step in &self.model.types[of].steps {
                let cost = self.cost(of as u8, *step);
                let rest = &mut self.rest[of][usize::from(step.from)];
                better |= cost < *rest;
                *rest = cost.min(*rest);
            }
            let whole = self.rest[of][0].saturating_add(1);
            better |= whole < self.tree[of];
            self.tree[of] = whole.min(self.tree[of]);
        }
        better
    }

    fn depths(&self) -> Vec<usize> {
        let mut depths = vec![1; self.model.types.len()];
        for _ in 1..DEEP {
            let before = depths.clone();
            for (of, block) in self.model.types.iter().enumerate() {
                let steps = block
                    .steps
                    .iter()
                    .filter(|step| self.cost(of as u8, **step) != NEVER);
                let below = steps
                    .map(|step| before[usize::from(step.by)])
                    .max()
                    .unwrap_or(0);
                depths[of] = depths[of].max(below + 1);
            }
            if depths == before {
                break;
            }
        }
        depths
    }
}
