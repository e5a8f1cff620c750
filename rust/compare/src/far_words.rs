//! Schemas in which two types compete only after a long word, since the two states from which they
//! come are reached together, but late; and schemas with longer and shorter words.

use crate::chance::Chance;
use crate::model::{Model, Type};

const TURN: u8 = 1;
const NUDGE: u8 = 2;
const PART: u8 = 3;
const ONE: u8 = 4;
const OTHER: u8 = 5;

/// A ring of states that one type turns. Another moves the last state alone, so that two states come
/// nearer by one in each turn.
pub fn turning(chance: &mut Chance) -> Model {
    let states = match chance.below(100) {
        0..5 => 32,
        5..20 => chance.small(20..=32),
        _ => chance.small(2..=12),
    };
    let last = states - 1;
    let mut owner = Type::new(0, states);
    for state in 0..states {
        owner.add(state, TURN, (state + 1) % states);
        owner.add(state, NUDGE, if state == last { 0 } else { state });
    }
    if chance.once_in(4) {
        // The longest word that there is: every pair of states comes before the one that is sought.
        owner = owner.step(last, PART, 0).step(last, PART, states / 2);
        owner = owner.step(last, ONE, 0).step(0, OTHER, 0).accepts(0);
    } else {
        let mut any = || chance.small(0..=last);
        let parting = any();
        owner = owner.step(parting, PART, any()).step(parting, PART, any());
        owner = owner
            .step(any(), ONE, any())
            .step(any(), OTHER, any())
            .accepts(any());
    }
    under_a_root(chance, owner)
}

/// Two rings of different lengths that one type turns.
pub fn two_rings(chance: &mut Chance) -> Model {
    let most = if chance.percent(15) { 15 } else { 5 };
    let first = chance.small(1..=most);
    let second = chance.small(1..=(most + 1).min(31 - first));
    let mut owner = Type::new(0, 1 + first + second).accepts(0);
    for (start, length) in [(1, first), (1 + first, second)] {
        for state in 0..length {
            owner.add(start + state, TURN, start + (state + 1) % length);
        }
        owner.add(0, PART, start);
    }
    owner.add(chance.small(1..=first), ONE, 0);
    owner.add(chance.small(1 + first..=first + second), OTHER, 0);
    under_a_root(chance, owner)
}

/// A type with ways of two lengths, or two such types.
pub fn ways(chance: &mut Chance) -> Model {
    let owner = two_ways(chance);
    let mut model = under_a_root(chance, owner);
    if chance.percent(50) {
        let mut beside = two_ways(chance);
        beside.tag = model.tags;
        model.tags += 1;
        let number = model.types.len() as u8;
        model.types.push(beside);
        let root = &mut model.types[usize::from(model.roots[0])];
        root.add(0, number, root.states - 1);
    }
    model
}

/// Two ways to a state and some steps beside them; from there, and perhaps from any others, the two
/// types that may compete lead to the end.
fn two_ways(chance: &mut Chance) -> Type {
    let most = if chance.once_in(8) { 15 } else { 6 };
    let (one, other) = (chance.small(1..=most), chance.small(1..=most));
    let meeting = one + other - 1;
    let end = meeting + 1;
    let by = [TURN, NUDGE, PART];
    let mut owner = Type::new(0, end + 1).accepts(end);
    for way in [1..one, one..meeting] {
        let mut state = 0;
        for next in way.chain([meeting]) {
            owner.add(state, chance.of(&by), next);
            state = next;
        }
    }
    for _ in 0..chance.within(0..=4) {
        let (from, to) = (chance.small(0..=meeting), chance.small(0..=meeting));
        owner.add(from, chance.of(&by), to);
    }
    for of in [ONE, OTHER] {
        owner.add(meeting, of, end);
        if chance.once_in(3) {
            owner.add(chance.small(0..=meeting), of, end);
        }
    }
    owner
}

/// The owner of five leaves, of which the last two have one tag or, sometimes, two; at the root or below it.
fn under_a_root(chance: &mut Chance, owner: Type) -> Model {
    let last_tag = if chance.once_in(4) { OTHER } else { ONE };
    let mut types = vec![owner];
    types.extend([TURN, NUDGE, PART, ONE, last_tag].map(Type::leaf));
    let mut root = 0;
    if chance.percent(50) {
        root = types.len() as u8;
        types.push(Type::new(6, 2).accepts(1).step(0, 0, 1));
    }
    Model {
        tags: 7,
        types,
        roots: vec![root],
    }
}
