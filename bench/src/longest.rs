//! Schemas whose files are the longest of one ROOT and only old commands, 8,389 bytes, and steps for them.
use crate::random::Random;
use crate::schemas::{Type, schema, typed};
use plain::Schema;

/// Types of 32 states, all accepting, and the steps in the first: with 64 types and 1,024 steps a longest schema file.
pub fn longest(types: u8, steps: Vec<[u8; 3]>, root: u8) -> Schema {
    let mut all: Vec<Type> = (0..types)
        .map(|a| typed(a % 32, 32, u32::MAX, []))
        .collect();
    all[0].steps = steps;
    schema(32, root, &all)
}

/// From each of 32 states one step by a type of each tag: from the even states by types 0 to 31, from the odd ones by 32 to 63. So all 64 types are
/// used, and none compete.
pub fn one_of_each_tag() -> Vec<[u8; 3]> {
    let step = |p: u8, tag: u8| [p, tag + 32 * (p % 2), (p + tag + 1) % 32];
    (0..32)
        .flat_map(|p| (0..32).map(move |tag| step(p, tag)))
        .collect()
}

/// The other longest schema file: 64 types of 32 states, all accepting, with 16 steps each, one from each of the first 16 states. So none compete;
/// each type holds the 16 after it, so all are used.
pub fn longest_spread() -> Schema {
    let steps = |a: u8| (0..16).map(move |s| [s, (a + 1 + s) % 64, s + 1]);
    let types: Vec<Type> = (0..64)
        .map(|a| Type {
            tag: a % 32,
            states: 32,
            accepting: u32::MAX,
            steps: steps(a).collect(),
        })
        .collect();
    schema(32, 0, &types)
}

/// From two states by sixteen types to each state, shuffled: no processor foresees which earlier steps are from the same state as the next.
pub fn shuffled() -> Vec<[u8; 3]> {
    let steps = (0..1024u16).map(|n| [(n % 2) as u8, (n / 2 % 16) as u8, (n / 32) as u8]);
    in_any_order(steps.collect())
}

/// The steps shuffled, always in the same way.
pub fn in_any_order(mut steps: Vec<[u8; 3]>) -> Vec<[u8; 3]> {
    let mut random = Random(88_172_645_463_325_252);
    for i in (1..steps.len()).rev() {
        steps.swap(i, random.below(i as u64 + 1) as usize);
    }
    steps
}
