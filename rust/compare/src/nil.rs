//! Nillable types for a random schema.

use crate::chance::Chance;
use crate::guide::{Guide, NEVER};
use crate::model::{Model, Type};
use plain::codes::{CLOSE_BRACKET, NEXT, OPEN_BRACKET, USE};
use plain::limits::{MOST_ROOTS, MOST_STEPS, MOST_TYPES};

/// Makes types nillable, or adds one that is.
pub fn add(chance: &mut Chance, model: &mut Model) {
    match chance.below(10) {
        0..3 => any(chance, model),
        3..5 => without_trees(chance, model),
        _ => beside(chance, model),
    }
}

/// Few or many of the types.
fn any(chance: &mut Chance, model: &mut Model) {
    let share = chance.of(&[10, 30, 60, 100]);
    for block in &mut model.types {
        block.nillable = chance.percent(share);
    }
}

/// Types that bear no tree otherwise.
fn without_trees(chance: &mut Chance, model: &mut Model) {
    let tree = Guide::new(model).tree;
    for (block, tree) in model.types.iter_mut().zip(tree) {
        block.nillable = tree == NEVER && chance.percent(70);
    }
}

/// A type with nil trees alone that may come where another of its tag may, in each place or in most. They compete
/// if the other is nillable too.
fn beside(chance: &mut Chance, model: &mut Model) {
    let steps: usize = model.types.iter().map(|block| block.steps.len()).sum();
    if model.types.len() == MOST_TYPES || 2 * steps > MOST_STEPS {
        return any(chance, model);
    }
    let other = chance.below(model.types.len()) as u8;
    let new = model.types.len() as u8;
    let share = chance.of(&[50, 90, 100]);
    for block in &mut model.types {
        match block.content.take() {
            None => steps_beside(chance, block, share, other, new),
            Some(text) => block.set_content(uses_beside(chance, text, share, other, new)),
        }
    }
    let tag = model.types[usize::from(other)].tag;
    let mut block = Type::new(tag, 1);
    block.nillable = true;
    model.types.push(block);
    if model.roots.contains(&other) && model.roots.len() < MOST_ROOTS && chance.percent(share) {
        model.roots.push(new);
    }
    model.types[usize::from(other)].nillable = chance.once_in(4);
}

/// Adds a step by the new type beside most of those by the other.
fn steps_beside(chance: &mut Chance, block: &mut Type, share: usize, other: u8, new: u8) {
    for step in block.steps.clone() {
        if step.by == other && chance.percent(share) {
            block.add(step.from, new, step.to);
        }
    }
}

/// The expression with a choice of both types in place of most uses of the other.
fn uses_beside(chance: &mut Chance, text: Vec<u8>, share: usize, other: u8, new: u8) -> Vec<u8> {
    let mut written = vec![];
    let mut rest = text.into_iter();
    while let Some(sign) = rest.next() {
        let of = if sign == USE { rest.next() } else { None };
        if of == Some(other) && chance.percent(share) {
            written.extend([OPEN_BRACKET, USE, other, NEXT, USE, new, CLOSE_BRACKET]);
        } else {
            written.push(sign);
            written.extend(of);
        }
    }
    written
}
