//! Random schemas: many that are accepted, many that compete, some that bear no tree, some with types that no document uses.

use crate::chance::Chance;
use crate::expressions;
use crate::far_words;
use crate::guide::{Guide, NEVER};
use crate::model::{Model, Step, Type};
use crate::nil;
use crate::roots;
use crate::unused;
use plain::limits::{MOST_STATES, MOST_STEPS, MOST_TAGS, MOST_TYPES};

/// The most that a random schema has of each.
#[derive(Debug, Clone, Copy)]
struct Size {
    tags: u8,
    types: u8,
    states: u8,
    steps: usize,
}

const SMALL: Size = Size {
    tags: 4,
    types: 6,
    states: 5,
    steps: 24,
};
const MIDDLE: Size = Size {
    tags: 12,
    types: 20,
    states: 12,
    steps: 150,
};
const LIMITS: Size = Size {
    tags: MOST_TAGS as u8,
    types: MOST_TYPES as u8,
    states: MOST_STATES as u8,
    steps: MOST_STEPS,
};

/// A schema, within the limits but for a step or two now and then.
pub fn schema(chance: &mut Chance) -> Model {
    let size = size(chance);
    let mut model = match chance.below(130) {
        100.. => expressions::schema(chance),
        0..36 => by_tag(chance, size),
        36..58 => any(chance, size),
        58..66 => one_type_a_tag(chance, size),
        66..76 => nesting(chance, size),
        76..82 => chain(chance, size),
        82..89 => far_words::turning(chance),
        89..92 => far_words::two_rings(chance),
        92..96 => far_words::ways(chance),
        _ => at_limits(chance),
    };
    if !chance.once_in(6) {
        better_root(chance, &mut model);
    }
    if chance.percent(45) {
        roots::add(chance, &mut model);
    }
    if chance.percent(45) {
        nil::add(chance, &mut model);
    }
    let by_expressions = model.types.iter().any(|block| block.content.is_some());
    if chance.percent(if by_expressions { 60 } else { 20 }) {
        unused::add(chance, &mut model);
    }
    if chance.percent(if by_expressions { 50 } else { 80 }) {
        unused::leave_out(&mut model);
    }
    if !chance.once_in(8) {
        model.renumber(chance);
    }
    model
}

/// If the one root type bears no tree, another that bears one, rather a type whose trees nest deeply.
fn better_root(chance: &mut Chance, model: &mut Model) {
    let guide = Guide::new(model);
    if guide.tree[usize::from(model.roots[0])] != NEVER {
        return;
    }
    let bearing: Vec<usize> = (0..model.types.len())
        .filter(|&of| guide.tree[of] != NEVER)
        .collect();
    if bearing.is_empty() {
        return;
    }
    let (one, other) = (chance.of(&bearing), chance.of(&bearing));
    model.roots[0] = if guide.depth[one] >= guide.depth[other] {
        one
    } else {
        other
    } as u8;
}

fn size(chance: &mut Chance) -> Size {
    match chance.below(1000) {
        0..900 => SMALL,
        900..990 => MIDDLE,
        _ => LIMITS,
    }
}

/// Types with random tags, state counts and accepting states, without steps.
fn blank(chance: &mut Chance, size: Size) -> Model {
    let tags = chance.small(1..=size.tags);
    let count = chance.small(1..=size.types);
    let types = (0..count)
        .map(|_| {
            let states = if chance.percent(30) {
                1
            } else {
                chance.small(1..=size.states)
            };
            let tag = chance.small(0..=tags - 1);
            accepting(chance, Type::new(tag, states))
        })
        .collect();
    Model {
        tags,
        types,
        roots: vec![chance.small(0..=count - 1)],
    }
}

/// Some accepting states, now and then none.
fn accepting(chance: &mut Chance, mut block: Type) -> Type {
    if chance.once_in(12) {
        return block;
    }
    let share = chance.of(&[15, 30, 60, 100]);
    for state in 0..block.states {
        if chance.percent(share) {
            block.accept(state);
        }
    }
    if block.accepting.is_empty() {
        let state = chance.small(0..=block.states - 1);
        block.accept(state);
    }
    block
}

/// At most one type of a tag from each state, so that little competes; then perhaps a few steps more.
fn by_tag(chance: &mut Chance, size: Size) -> Model {
    let mut model = blank(chance, size);
    let count = model.types.len();
    let most = chance.within(1..=4);
    let mut left = size.steps;
    for number in 0..count {
        for from in 0..model.types[number].states {
            let mut tags = 0_u32;
            for _ in 0..chance.below(most + 1).min(left) {
                let by = chance.below(count);
                let tag = 1 << model.types[by].tag;
                if tags & tag == 0 {
                    tags |= tag;
                    left -= 1;
                    let to = chance.small(0..=model.types[number].states - 1);
                    model.types[number].add(from, by as u8, to);
                }
            }
        }
    }
    let more = chance.of(&[0, 0, 1, 2, 5]);
    sprinkle(chance, &mut model, more, left);
    model
}

/// Adds steps: another end for a step that is there, or any step.
fn sprinkle(chance: &mut Chance, model: &mut Model, steps: usize, left: usize) {
    let count = model.types.len();
    for _ in 0..steps.min(left) {
        let block = &mut model.types[chance.below(count)];
        let to = chance.small(0..=block.states - 1);
        if chance.percent(60) && !block.steps.is_empty() {
            let Step { from, by, .. } = chance.of(&block.steps);
            block.add(from, by, to);
        } else {
            let from = chance.small(0..=block.states - 1);
            block.add(from, chance.below(count) as u8, to);
        }
    }
}

/// Any steps at all.
fn any(chance: &mut Chance, size: Size) -> Model {
    let mut model = blank(chance, size);
    let steps = chance.below(size.steps + 1);
    any_steps(chance, &mut model, steps);
    model
}

fn any_steps(chance: &mut Chance, model: &mut Model, steps: usize) {
    let count = model.types.len();
    for _ in 0..steps {
        let block = &mut model.types[chance.below(count)];
        let last = block.states - 1;
        let (from, to) = (chance.small(0..=last), chance.small(0..=last));
        block.add(from, chance.below(count) as u8, to);
    }
}

/// No two types of one tag, so that nothing competes, whatever the steps.
fn one_type_a_tag(chance: &mut Chance, size: Size) -> Model {
    let mut model = blank(
        chance,
        Size {
            types: size.types.min(size.tags),
            ..size
        },
    );
    let spare = chance.small(0..=2);
    model.tags = (model.types.len() as u8 + spare).min(LIMITS.tags);
    for (number, block) in (0..).zip(&mut model.types) {
        block.tag = number;
    }
    let steps = chance.below(size.steps + 1);
    any_steps(chance, &mut model, steps);
    model
}

/// Types that hold one another without end, from their start states.
fn nesting(chance: &mut Chance, size: Size) -> Model {
    let mut model = by_tag(chance, size);
    let ring = chance.within(1..=3.min(model.types.len()));
    for number in 0..ring {
        let next = (number + 1) % ring;
        let tag = model.types[next].tag;
        let taken: Vec<bool> = model.types.iter().map(|block| block.tag == tag).collect();
        let block = &mut model.types[number];
        if chance.percent(80) {
            block
                .steps
                .retain(|step| step.from != 0 || !taken[usize::from(step.by)]);
        }
        block.add(0, next as u8, 0);
        if chance.percent(80) {
            block.accept(0);
        }
    }
    model.roots = vec![chance.below(ring) as u8];
    model
}

/// Each type holds the next one; the last bears a tree, or does not.
fn chain(chance: &mut Chance, size: Size) -> Model {
    let most = if chance.once_in(10) {
        LIMITS.types
    } else {
        size.types
    };
    let length = chance.small(1..=most);
    let tags = chance.small(1..=size.tags);
    let mut types: Vec<Type> = (1..length)
        .map(|next| {
            let block = Type::new(chance.small(0..=tags - 1), 2)
                .step(0, next, 1)
                .accepts(1);
            if chance.once_in(4) {
                block.step(1, next, 1)
            } else {
                block
            }
        })
        .collect();
    types.push(Type::new(chance.small(0..=tags - 1), 1));
    if chance.percent(60) {
        types.last_mut().expect("the last type").accept(0);
    }
    let mut model = Model {
        tags,
        types,
        roots: vec![0],
    };
    if chance.once_in(3) {
        sprinkle(chance, &mut model, 2, 2);
    }
    model
}

/// At the limits in types, in states or, seldom, in all.
fn at_limits(chance: &mut Chance) -> Model {
    let few = chance.small(1..=3);
    let states = chance.of(&[8, 16, 32]);
    match chance.below(20) {
        0 => full(chance, LIMITS.types, states, LIMITS.steps),
        1 => full(chance, few, LIMITS.states, LIMITS.steps),
        2..11 => full(chance, LIMITS.types, 2, 130),
        _ => full(chance, few, LIMITS.states, 90),
    }
}

/// This many types, states each and steps in all, often with one type of a tag in the steps.
fn full(chance: &mut Chance, types: u8, states: u8, steps: usize) -> Model {
    let tags = chance.of(&[1, 8, 32]);
    let carried = if chance.percent(60) {
        types.min(tags)
    } else {
        types
    };
    let everywhere = chance.once_in(3);
    let blocks = (0..types)
        .map(|number| Type::new(number % tags, states))
        .map(|block| match everywhere {
            true => (0..states).fold(block, Type::accepts),
            false => accepting(chance, block),
        })
        .collect();
    let mut model = Model {
        tags,
        types: blocks,
        roots: vec![chance.small(0..=types - 1)],
    };
    let mut left = steps;
    while left > 0 {
        let block = &mut model.types[chance.below(usize::from(types))];
        let (from, to) = (chance.small(0..=states - 1), chance.small(0..=states - 1));
        if block.add(from, chance.small(0..=carried - 1), to) {
            left -= 1;
        }
    }
    model
}
