//! More roots for a random schema.

use crate::chance::Chance;
use crate::guide::{Guide, NEVER};
use crate::model::{Model, Type};
use plain::limits::{MOST_ROOTS, MOST_TAGS, MOST_TYPES};

/// Adds roots to a schema of one root, up to eight in all, and gives them in any order.
pub fn add(chance: &mut Chance, model: &mut Model) {
    let most = match chance.below(4) {
        0 => MOST_ROOTS,
        1 => chance.within(2..=MOST_ROOTS),
        _ => chance.within(2..=3),
    };
    match chance.below(10) {
        0..5 => of_other_tags(chance, model, most),
        5..7 => any(chance, model, most),
        7 => without_trees(chance, model, most),
        _ => {
            of_other_tags(chance, model, most);
            leaves(model, most);
        }
    }
    chance.shuffle(&mut model.roots);
}

/// The types that are no roots, in any order.
fn others(chance: &mut Chance, model: &Model) -> Vec<u8> {
    let mut others: Vec<u8> = (0..model.types.len() as u8).collect();
    others.retain(|of| !model.roots.contains(of));
    chance.shuffle(&mut others);
    others
}

/// Any types, of which two may compete.
fn any(chance: &mut Chance, model: &mut Model, most: usize) {
    let others = others(chance, model);
    model.roots.extend(others);
    model.roots.truncate(most);
}

/// Types of tags that no root has yet, so that no roots compete.
fn of_other_tags(chance: &mut Chance, model: &mut Model, most: usize) {
    for of in others(chance, model) {
        let tag = |of: u8| model.types[usize::from(of)].tag;
        let new = model.roots.iter().all(|&root| tag(root) != tag(of));
        if new && model.roots.len() < most {
            model.roots.push(of);
        }
    }
}

/// Types that bear no tree, of any tag.
fn without_trees(chance: &mut Chance, model: &mut Model, most: usize) {
    let mut barren = others(chance, model);
    let guide = Guide::new(model);
    barren.retain(|&of| guide.tree[usize::from(of)] == NEVER);
    model.roots.extend(barren);
    while model.roots.len() < most && model.types.len() < MOST_TYPES {
        let tag = chance.small(0..=model.tags - 1);
        model.roots.push(model.types.len() as u8);
        model.types.push(Type::new(tag, 1));
    }
    model.roots.truncate(most);
}

/// New types without children, each of a new tag.
fn leaves(model: &mut Model, most: usize) {
    while model.roots.len() < most
        && model.types.len() < MOST_TYPES
        && usize::from(model.tags) < MOST_TAGS
    {
        model.roots.push(model.types.len() as u8);
        model.types.push(Type::leaf(model.tags));
        model.tags += 1;
    }
}
