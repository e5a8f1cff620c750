//! The word of a witness is a shortest one.

use std::collections::BTreeSet;

use super::{Block, confirmed, file, hex, leaf, searched};
use crate::limits::WITNESS;

type Step = (u8, u8, u8);

/// Type 0 with these steps, accepting in a state, over leaves; types 1 and 2 have one tag.
fn over_leaves(states: u8, accepting: u8, steps: &[Step]) -> Vec<u8> {
    let owner: Block = (0, states, &[accepting], steps);
    file(5, &[owner, leaf(1), leaf(1), leaf(2), leaf(3), leaf(4)], 0)
}

/// Five types lead from state 0 to state 6.
const LONG: [Step; 5] = [(0, 3, 1), (1, 3, 2), (2, 3, 3), (3, 3, 4), (4, 3, 6)];
/// Two types do.
const SHORT: [Step; 2] = [(0, 4, 5), (5, 4, 6)];
const RIVALS: [Step; 2] = [(6, 1, 7), (6, 2, 7)];

#[test]
fn a_short_way_beside_a_long_one() {
    for ways in [[&LONG[..], &SHORT].concat(), [&SHORT[..], &LONG].concat()] {
        let schema = over_leaves(8, 7, &[&ways[..], &RIVALS].concat());
        assert_eq!(searched(&schema), (9, 0, hex("00 01 02 02 00 04 04")));
        assert!(confirmed(&schema, 0, 1, 2, &[4, 4]));
        assert!(!confirmed(&schema, 0, 1, 2, &[3; 5]));
    }
    let schema = over_leaves(8, 7, &[&LONG[..], &RIVALS].concat());
    assert_eq!(
        searched(&schema),
        (9, 0, hex("00 01 02 05 00 03 03 03 03 03"))
    );
    assert!(confirmed(&schema, 0, 1, 2, &[3; 5]));
}

#[test]
fn at_once_and_later() {
    let schema = over_leaves(
        3,
        2,
        &[(0, 3, 1), (1, 1, 2), (1, 2, 2), (0, 1, 2), (0, 2, 2)],
    );
    assert_eq!(searched(&schema), (9, 0, hex("00 01 02 00 00")));
    assert!(!confirmed(&schema, 0, 1, 2, &[3]));
}

#[test]
fn two_shortest_words() {
    let steps = &[
        (0, 5, 1),
        (0, 6, 2),
        (1, 1, 3),
        (1, 2, 3),
        (2, 3, 3),
        (2, 4, 3),
    ];
    let owner: Block = (0, 4, &[3], steps);
    let leaves = [1, 1, 2, 2, 3, 4].map(leaf);
    let schema = file(5, &[&[owner][..], &leaves].concat(), 0);
    assert!(confirmed(&schema, 0, 1, 2, &[5]));
    assert!(confirmed(&schema, 0, 3, 4, &[6]));
    assert!(!confirmed(&schema, 0, 1, 2, &[6]));
    assert_eq!(searched(&schema).2.len(), 6);
}

#[test]
fn by_one_path_or_by_two_at_once() {
    // Two types by one path, three by two paths.
    let one = [(0, 3, 1), (1, 3, 2), (2, 1, 9), (2, 2, 9)];
    let two = [(0, 4, 3), (0, 4, 4), (3, 4, 5), (4, 4, 6)];
    let on = [(5, 4, 7), (6, 4, 8), (7, 1, 9), (8, 2, 9)];
    let schema = over_leaves(10, 9, &[one, two, on].concat());
    assert_eq!(searched(&schema), (9, 0, hex("00 01 02 02 00 03 03")));
    assert!(!confirmed(&schema, 0, 1, 2, &[4; 3]));
    // Three types by one path, two by two paths.
    let one = [(0, 3, 1), (1, 3, 2), (2, 3, 7), (7, 1, 9), (7, 2, 9)];
    let schema = over_leaves(10, 9, &[&one[..], &two, &[(5, 1, 9), (6, 2, 9)]].concat());
    assert_eq!(searched(&schema), (9, 0, hex("00 01 02 02 00 04 04")));
    assert!(!confirmed(&schema, 0, 1, 2, &[3; 3]));
}

#[test]
fn a_shorter_word_in_a_larger_type() {
    let root: Block = (0, 2, &[1], &[(0, 1, 1), (0, 2, 1)]);
    let after_two: Block = (1, 4, &[3], &[(0, 5, 1), (1, 5, 2), (2, 3, 3), (2, 4, 3)]);
    let at_once: Block = (2, 2, &[1], &[(0, 3, 1), (0, 4, 1)]);
    let leaves = [leaf(3), leaf(3), leaf(4)];
    let schema = file(5, &[&[root, after_two, at_once][..], &leaves].concat(), 0);
    assert_eq!(searched(&schema), (9, 0, hex("01 03 04 02 00 05 05")));
    assert!(!confirmed(&schema, 2, 3, 4, &[]));
    let schema = file(5, &[&[root, at_once, after_two][..], &leaves].concat(), 0);
    assert_eq!(searched(&schema), (9, 0, hex("01 03 04 00 00")));
    assert!(!confirmed(&schema, 2, 3, 4, &[5, 5]));
}

/// A ring of 32 states that type 3 turns. Type 4 moves the last alone, type 5 leads from it to two
/// states; type 1 leads from the last and type 2 from the first.
fn ring() -> Vec<Step> {
    let mut steps = vec![(31, 5, 16), (31, 5, 0), (31, 1, 0), (0, 2, 0)];
    for state in 0..32 {
        steps.push((state, 3, (state + 1) % 32));
        steps.push((state, 4, if state == 31 { 0 } else { state }));
    }
    steps
}

/// The pairs of states to which one type leads from these.
fn one_type_on(steps: &[Step], pairs: &BTreeSet<(u8, u8)>) -> BTreeSet<(u8, u8)> {
    let from = |state: u8| steps.iter().filter(move |step| step.0 == state);
    let on = pairs.iter().flat_map(|&(p, q)| {
        let both = from(p).flat_map(move |one| from(q).map(move |other| (one, other)));
        both.filter(|(one, other)| one.1 == other.1)
    });
    on.map(|(one, other)| (one.2.min(other.2), one.2.max(other.2)))
        .collect()
}

/// In a type with these steps J and K, which lead from state 0 and from state 31, compete after 527
/// types: no word of fewer types leads to both states.
fn after_527(schema: &[u8], steps: &[Step], j: u8, k: u8) {
    let (number, place, bytes) = searched(schema);
    assert_eq!((number, place, bytes.len()), (9, 0, WITNESS));
    assert_eq!(bytes[..5], [0, j, k, 0x0F, 0x02]);
    assert!(confirmed(schema, 0, j, k, &bytes[5..]));
    let mut pairs = BTreeSet::from([(0, 0)]);
    for _ in 0..527 {
        assert!(!pairs.contains(&(0, 31)));
        pairs = one_type_on(steps, &pairs);
    }
    assert!(pairs.contains(&(0, 31)));
}

#[test]
fn a_shortest_word_of_527_types() {
    after_527(&over_leaves(32, 0, &ring()), &ring(), 1, 2);
}

/// The schema of the test cases' longest word, `long_way` of tests/listing/words.py: pair after pair
/// by rising distance, and each leads at the furthest to the next.
#[test]
fn the_longest_word_of_the_cases() {
    let mut steps: Vec<Step> = (0..31).map(|p| (p, 1, p + 1)).collect();
    steps.push((31, 2, 0));
    steps.extend((0..16).map(|d| (31 - d, 2, d + 1)));
    steps.extend((16..31).flat_map(|d| [(31 - d, d - 13, 0), (31, d - 13, d + 1)]));
    steps.extend([(0, 18, 0), (31, 19, 0)]);
    let owner: Block = (0, 32, &[0], &steps);
    let leaves: Vec<Block> = (0..18).chain([17]).map(leaf).collect();
    let schema = file(18, &[&[owner][..], &leaves].concat(), 0);
    after_527(&schema, &steps, 18, 19);
}
