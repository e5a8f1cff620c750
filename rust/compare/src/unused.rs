//! Types that no valid document uses: more of them for a random schema, or none.

use crate::chance::Chance;
use crate::guide::{Guide, NEVER};
use crate::model::{Model, Step, Type, uses};
use plain::codes::USE;
use plain::limits::{MOST_ROOTS, MOST_STEPS, MOST_TYPES};

/// Takes their trees from types that are there, or adds types to which nothing leads.
pub fn add(chance: &mut Chance, model: &mut Model) {
    match chance.below(3) {
        0 => beside(chance, model),
        1 => wither(chance, model),
        _ => {
            beside(chance, model);
            wither(chance, model);
        }
    }
}

/// Takes the trees of some types that are no roots, mostly such that a root still has one.
fn wither(chance: &mut Chance, model: &mut Model) {
    let share = chance.of(&[10, 30, 60]);
    for of in 0..model.types.len() as u8 {
        if model.roots.contains(&of) || !chance.percent(share) {
            continue;
        }
        let place = usize::from(of);
        let before = model.types[place].clone();
        model.types[place] = treeless(chance, of, &before);
        if !chance.once_in(20) && !some_root_bears(model) {
            model.types[place] = before;
        }
    }
}

/// A type of the same tag without trees: with no accepting state, or one that needs itself.
fn treeless(chance: &mut Chance, of: u8, before: &Type) -> Type {
    if before.content.is_some() && chance.percent(50) {
        return Type::with_content(before.tag, vec![USE, of]);
    }
    let mut block = Type::new(before.tag, before.states);
    block.steps = before.steps.clone();
    block
}

fn some_root_bears(model: &Model) -> bool {
    let tree = Guide::new(model).tree;
    model.roots.iter().any(|&of| tree[usize::from(of)] != NEVER)
}

/// Adds types that hold what others hold, and to which nothing leads but perhaps a root without trees.
fn beside(chance: &mut Chance, model: &mut Model) {
    for _ in 0..chance.within(1..=4) {
        let steps: usize = model.types.iter().map(|block| block.steps.len()).sum();
        let mut block = model.types[chance.below(model.types.len())].clone();
        if model.types.len() == MOST_TYPES || steps + block.steps.len() > MOST_STEPS {
            return;
        }
        block.tag = chance.small(0..=model.tags - 1);
        let of = model.types.len() as u8;
        if model.roots.len() < MOST_ROOTS && chance.once_in(4) {
            block = Type::new(block.tag, 1);
            model.roots.push(of);
        }
        model.types.push(block);
    }
}

/// Leaves such types out of a schema with a valid document; an expression that uses one is by its states then.
pub fn leave_out(model: &mut Model) {
    let used = used(model);
    let mut numbers = vec![None; used.len()];
    let places = used.iter().enumerate().filter(|(_, used)| **used);
    for (new, (old, _)) in (0..).zip(places) {
        numbers[old] = Some(new);
    }
    if numbers.iter().all(Option::is_none) {
        return;
    }
    let number = |of: u8| numbers[usize::from(of)];
    model.roots = model.roots.iter().filter_map(|&of| number(of)).collect();
    let mut left = used.into_iter();
    model.types.retain(|_| left.next() == Some(true));
    for block in &mut model.types {
        let content = block.content.take();
        if let Some(text) = content.and_then(|text| renumbered(text, number)) {
            block.set_content(text);
            continue;
        }
        let steps = block.steps.iter().filter_map(|step| {
            let by = number(step.by)?;
            Some(Step { by, ..*step })
        });
        block.steps = steps.collect();
    }
}

/// The expression with new numbers; none if it uses a type that has none.
fn renumbered(mut text: Vec<u8>, number: impl Fn(u8) -> Option<u8>) -> Option<Vec<u8>> {
    for of in uses(&mut text) {
        *of = number(*of)?;
    }
    Some(text)
}

/// For each type whether some valid document uses it.
fn used(model: &Model) -> Vec<bool> {
    let guide = Guide::new(model);
    let mut used = vec![false; model.types.len()];
    let bears = |&of: &u8| guide.tree[usize::from(of)] != NEVER;
    let mut queue: Vec<u8> = model.roots.iter().copied().filter(bears).collect();
    while let Some(of) = queue.pop() {
        if std::mem::replace(&mut used[usize::from(of)], true) {
            continue;
        }
        let mut ahead = vec![0];
        let mut place = 0;
        while let Some(&state) = ahead.get(place) {
            for step in guide.steps(of, state) {
                queue.push(step.by);
                if !ahead.contains(&step.to) {
                    ahead.push(step.to);
                }
            }
            place += 1;
        }
    }
    used
}

#[cfg(test)]
mod tests {
    use super::{leave_out, used};
    use crate::chance::Chance;
    use crate::schemas;
    use plain::{Schema, Trimming, schema_file};

    /// For each type of the schema that a file states whether it is used; none if it states none.
    fn used_by_plain(file: &[u8]) -> Option<Vec<bool>> {
        let mut schema = Schema::BLANK;
        schema_file::read(file, &mut schema).ok()?;
        let trimming = Trimming::of(&schema);
        let types = 0..schema.types;
        Some(types.map(|of| trimming.is_used(of)).collect())
    }

    #[test]
    fn the_same_types_as_plain_finds() {
        let mut some = 0;
        for index in 0..5_000 {
            let mut chance = Chance::of_input(3, index);
            let mut model = schemas::schema(&mut chance);
            let Some(expected) = used_by_plain(&model.file(&mut chance)) else {
                continue;
            };
            assert_eq!(used(&model), expected);
            some += u32::from(expected.contains(&false) && expected.contains(&true));
            if expected.contains(&true) {
                leave_out(&mut model);
                let left = used_by_plain(&model.file(&mut chance));
                let count = expected.iter().filter(|used| **used).count();
                assert_eq!(left, Some(vec![true; count]));
            }
        }
        assert!(some > 500, "{some}");
    }
}
