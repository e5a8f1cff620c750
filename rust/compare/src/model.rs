//! A schema as the generators keep it, and its file.

use crate::chance::Chance;
use plain::codes::{DONE, END, FINAL, NIL, ROOT, STEP, TAGS, TYPE, USE};
use plain::limits::MOST_TYPES;
use plain::{Schema, schema_file};

#[derive(Debug, Clone)]
pub struct Model {
    pub tags: u8,
    pub types: Vec<Type>,
    /// The root types, as they stand in the file.
    pub roots: Vec<u8>,
}

#[derive(Debug, Clone)]
pub struct Type {
    pub tag: u8,
    pub states: u8,
    pub accepting: Vec<u8>,
    pub steps: Vec<Step>,
    pub nillable: bool,
    /// The expression that the content is written as, without its end; the automaton is what it
    /// becomes, or has one state and nothing else where it is refused.
    pub content: Option<Vec<u8>>,
}

#[derive(Debug, Clone, Copy, PartialEq, Eq, PartialOrd, Ord)]
pub struct Step {
    pub from: u8,
    pub by: u8,
    pub to: u8,
}

impl Type {
    pub fn new(tag: u8, states: u8) -> Self {
        Type {
            tag,
            states,
            accepting: vec![],
            steps: vec![],
            nillable: false,
            content: None,
        }
    }

    pub fn with_content(tag: u8, text: Vec<u8>) -> Self {
        let mut block = Type::new(tag, 1);
        block.set_content(text);
        block
    }

    /// Gives it this content in place of what it had.
    pub fn set_content(&mut self, text: Vec<u8>) {
        let mut file = vec![TAGS, 1, TYPE, 0, 0];
        file.extend(&text);
        file.push(END);
        file.extend([TYPE, 0, 0, END].repeat(MOST_TYPES - 1));
        file.extend([ROOT, 0, DONE]);
        let mut schema = Schema::BLANK;
        *self = Type {
            nillable: self.nillable,
            ..Type::new(self.tag, 1)
        };
        if schema_file::read(&file, &mut schema).is_ok() {
            self.states = schema.states[0];
            self.accepting = schema.accepting[0].iter().collect();
            let steps = schema.steps_at(schema.block(0));
            self.steps = steps
                .map(|step| Step {
                    from: step.from,
                    by: step.by,
                    to: step.to,
                })
                .collect();
        }
        self.content = Some(text);
    }

    pub fn leaf(tag: u8) -> Self {
        Type::new(tag, 1).accepts(0)
    }

    pub fn accepts(mut self, state: u8) -> Self {
        self.accept(state);
        self
    }

    pub fn step(mut self, from: u8, by: u8, to: u8) -> Self {
        self.add(from, by, to);
        self
    }

    pub fn accept(&mut self, state: u8) {
        if !self.accepting.contains(&state) {
            self.accepting.push(state);
        }
    }

    /// Adds a step; false if it was there.
    pub fn add(&mut self, from: u8, by: u8, to: u8) -> bool {
        let step = Step { from, by, to };
        let new = !self.steps.contains(&step);
        if new {
            self.steps.push(step);
        }
        new
    }
}

/// The types that an expression uses, as they stand.
pub fn uses(text: &mut [u8]) -> impl Iterator<Item = &mut u8> {
    let mut rest = text.iter_mut();
    std::iter::from_fn(move || {
        rest.find(|sign| **sign == USE)?;
        rest.next()
    })
}

impl Model {
    /// Gives the types other numbers, and where there is no expression the states other than the
    /// start as well.
    pub fn renumber(&mut self, chance: &mut Chance) {
        let mut numbers: Vec<u8> = (0..self.types.len() as u8).collect();
        chance.shuffle(&mut numbers);
        let mut places = vec![0; numbers.len()];
        for (old, &new) in numbers.iter().enumerate() {
            places[usize::from(new)] = old;
        }
        self.types = places
            .into_iter()
            .map(|old| self.types[old].clone())
            .collect();
        for root in &mut self.roots {
            *root = numbers[usize::from(*root)];
        }
        for block in &mut self.types {
            if let Some(mut text) = block.content.take() {
                for of in uses(&mut text) {
                    *of = numbers[usize::from(*of)];
                }
                block.set_content(text);
                continue;
            }
            let mut states: Vec<u8> = (0..block.states).collect();
            chance.shuffle(&mut states[1..]);
            for state in &mut block.accepting {
                *state = states[usize::from(*state)];
            }
            for step in &mut block.steps {
                let Step { from, by, to } = *step;
                *step = Step {
                    from: states[usize::from(from)],
                    by: numbers[usize::from(by)],
                    to: states[usize::from(to)],
                };
            }
        }
    }

    /// The file that states this schema, its FINAL, STEP and NIL commands in any order.
    pub fn file(&self, chance: &mut Chance) -> Vec<u8> {
        let mut file = vec![TAGS, self.tags];
        for block in &self.types {
            if let Some(text) = &block.content {
                file.extend([TYPE, block.tag, 0]);
                file.extend(text);
                file.push(END);
                file.extend(block.nillable.then_some(NIL));
                continue;
            }
            file.extend([TYPE, block.tag, block.states]);
            let finals = block
                .accepting
                .iter()
                .map(|&state| (2, [FINAL, state, 0, 0]));
            let steps = block
                .steps
                .iter()
                .map(|&Step { from, by, to }| (4, [STEP, from, by, to]));
            let nil = block.nillable.then_some((1, [NIL, 0, 0, 0]));
            let mut commands: Vec<(usize, [u8; 4])> = finals.chain(steps).chain(nil).collect();
            chance.shuffle(&mut commands);
            for (length, command) in commands {
                file.extend(&command[..length]);
            }
        }
        file.extend(self.roots.iter().flat_map(|&root| [ROOT, root]));
        file.push(DONE);
        file
    }
}
