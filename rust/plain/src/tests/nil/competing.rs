//! Which types bear a tree, and which compete, by the kinds of their trees.

use super::super::{
    Block, CLOSE, FINISH, OPEN, accepted, check, code, confirmed, file_of_bytes, hex, leaf, read,
    reduced, refused, searched, stated, unused,
};
use super::{SOME_KINDS, childless, nil, over_one, plain};
use crate::kinds::Kinds;
use crate::{Kind, States, Trimming};

/// The answer to type 0 with a child of tag 1, opened so.
fn child_opened(schema: &[u8], kind: Kind) -> (u8, usize, Vec<u8>) {
    let child = [code(kind), 1, CLOSE, 1];
    read(
        schema,
        &[&[OPEN, 0], &child[..], &[CLOSE, 0, FINISH]].concat(),
    )
}

#[test]
fn trees_opened_by_each_kind() {
    for kinds in SOME_KINDS {
        let schema = over_one(childless(1, kinds));
        if kinds.is_empty() {
            refused(&schema, 8, 0);
            continue;
        }
        for kind in Kind::ALL {
            let expected = match kinds.contains(&kind) {
                true => (0, 9, vec![0, 1]),
                false => (13, 2, vec![0]),
            };
            assert_eq!(child_opened(&schema, kind), expected);
        }
    }
}

/// Each two of the sets of kinds.
fn two_of_each() -> impl Iterator<Item = [&'static [Kind]; 2]> {
    let with = |one| SOME_KINDS.map(|other| [one, other]);
    SOME_KINDS.into_iter().flat_map(with)
}

#[test]
fn numbers_of_the_sets() {
    for (n, kinds) in (0..).zip(SOME_KINDS) {
        assert!(Kinds(n).iter().eq(kinds.iter().copied()));
        assert_eq!(Kinds(n).is_empty(), kinds.is_empty());
        let live = match kinds.contains(&Kind::Plain) {
            true => States(0b11),
            false => States(0b10),
        };
        assert_eq!(Kinds::of(live, kinds.contains(&Kind::Nil)), Kinds(n));
    }
    let numbers = (0..4).flat_map(|one| [0, 1, 2, 3].map(|other| [Kinds(one), Kinds(other)]));
    for ([one, other], types) in numbers.zip(two_of_each()) {
        assert_eq!(one.meets(other), compared(types) == 9);
    }
}

/// What a schema is answered in which two types with trees of these kinds are next to be opened.
fn compared([one, other]: [&[Kind]; 2]) -> u8 {
    match () {
        _ if one.is_empty() && other.is_empty() => 8,
        _ if one.iter().any(|kind| other.contains(kind)) => 9,
        _ => 0,
    }
}

/// Which of two such types an opening gets, by their numbers where one without trees is left out.
fn given(types: [&[Kind]; 2], kind: Kind) -> Option<u8> {
    let mut used = types.iter().filter(|kinds| !kinds.is_empty());
    let number = used.position(|kinds| kinds.contains(&kind))?;
    Some(number as u8)
}

#[test]
fn children_by_kind() {
    let owner: Block = (0, 2, &[1], &[(0, 1, 1), (0, 2, 1)]);
    for types in two_of_each() {
        let [one, other] = types.map(|kinds| childless(1, kinds));
        let schema = file_of_bytes(2, &[plain(owner), one, other], &[0]);
        let number = compared(types);
        let witness = if number == 9 { "00 01 02 00 00" } else { "" };
        assert_eq!(searched(&schema), (number, 0, hex(witness)));
        assert_eq!(confirmed(&schema, 0, 1, 2, &[]), number == 9);
        if number > 0 {
            continue;
        }
        let schema = reduced(&schema);
        for kind in Kind::ALL {
            let expected = match given(types, kind) {
                Some(n) => (0, 9, vec![0, 1 + n]),
                None => (13, 2, vec![0]),
            };
            assert_eq!(child_opened(&schema, kind), expected);
        }
    }
}

#[test]
fn roots_by_kind() {
    let both_orders = |types| [[0, 1], [1, 0]].map(|roots| (types, roots));
    for (types, roots) in two_of_each().flat_map(both_orders) {
        let blocks = types.map(|kinds| childless(0, kinds));
        let schema = file_of_bytes(1, &blocks, &roots);
        let number = compared(types);
        let witness = if number == 9 { "FF 00 01 00 00" } else { "" };
        assert_eq!(searched(&schema), (number, 0, hex(witness)));
        assert_eq!(confirmed(&schema, 255, 0, 1, &[]), number == 9);
        if number > 0 {
            continue;
        }
        let schema = reduced(&schema);
        for kind in Kind::ALL {
            let expected = match given(types, kind) {
                Some(n) => (0, 5, vec![n]),
                None => (13, 0, vec![]),
            };
            let whole = [code(kind), 0, CLOSE, 0, FINISH];
            assert_eq!(read(&schema, &whole), expected);
        }
    }
}

/// The pairs that compete at once in a type with these steps; types 1 to 4 are of one tag, with trees
/// that are plain, nil, of both kinds and of none.
fn compete(steps: &[(u8, u8, u8)]) -> Vec<(u8, u8)> {
    let owner: Block = (0, 2, &[1], steps);
    let mut blocks = vec![plain(owner)];
    let kinds: [&[Kind]; 4] = [&[Kind::Plain], &[Kind::Nil], &Kind::ALL, &[]];
    blocks.extend(kinds.map(|kinds| childless(1, kinds)));
    let schema = file_of_bytes(2, &blocks, &[0]);
    let bytes = searched(&schema).2;
    let pairs = (1..5).flat_map(|one| (one + 1..5).map(move |other| (one, other)));
    let found: Vec<_> = pairs
        .filter(|&(one, other)| confirmed(&schema, 0, one, other, &[]))
        .collect();
    assert_eq!(bytes.is_empty(), found.is_empty());
    assert!(bytes.is_empty() || found.contains(&(bytes[1], bytes[2])));
    found
}

#[test]
fn several_types_of_one_tag() {
    assert_eq!(compete(&[(0, 1, 1), (0, 2, 1), (0, 4, 1)]), []);
    assert_eq!(compete(&[(0, 2, 1), (0, 1, 1)]), []);
    assert_eq!(
        compete(&[(0, 1, 1), (0, 2, 1), (0, 3, 1)]),
        [(1, 3), (2, 3)]
    );
    assert_eq!(compete(&[(0, 3, 1), (0, 4, 1), (0, 2, 1)]), [(2, 3)]);
    assert_eq!(compete(&[(0, 4, 1), (0, 3, 1)]), []);
}

#[test]
fn roots_are_looked_at_first() {
    // Types 1 and 2 compete in type 0. Types 3 and 4 are of one tag and share no kind.
    let owner: Block = (0, 2, &[1], &[(0, 1, 1), (0, 2, 1)]);
    let blocks = [
        plain(owner),
        childless(1, &[Kind::Nil]),
        childless(1, &Kind::ALL),
        childless(2, &[Kind::Plain]),
        childless(2, &[Kind::Nil]),
    ];
    let file = |roots: &[u8]| file_of_bytes(3, &blocks, roots);
    assert_eq!(check(&file(&[0, 3, 4])), (9, 0, hex("00 01 02 00 00")));
    assert!(!confirmed(&file(&[0, 3, 4]), 255, 3, 4, &[]));
    unused(&file(&[4, 3]), 2);
    assert_eq!(
        searched(&file(&[4, 2, 0, 1])),
        (9, 0, hex("FF 01 02 00 00"))
    );
    assert!(!confirmed(&file(&[4, 2, 0, 1]), 0, 1, 2, &[]));
}

#[test]
fn words_through_nil_elements() {
    // Types 1 and 2 come after one of type 3, or after two of type 4, a leaf.
    let steps = &[(0, 4, 1), (1, 4, 2), (0, 3, 2), (2, 1, 3), (2, 2, 3)];
    let owner: Block = (0, 4, &[3], steps);
    let file = |third: &[Kind], first: &[Kind], second: &[Kind]| {
        let rivals = [first, second].map(|kinds| childless(1, kinds));
        let others = [childless(2, third), plain(leaf(3))];
        file_of_bytes(4, &[&[plain(owner)], &rivals[..], &others].concat(), &[0])
    };
    let [by_plain, by_nil] = [&[Kind::Plain][..], &[Kind::Nil]];
    for kind in [by_plain, by_nil] {
        let schema = file(by_nil, kind, kind);
        assert_eq!(check(&schema), (9, 0, hex("00 01 02 01 00 03")));
        assert!(!confirmed(&schema, 0, 1, 2, &[4, 4]));
        let schema = file(&[], kind, kind);
        assert_eq!(searched(&schema), (9, 0, hex("00 01 02 02 00 04 04")));
        assert_eq!(searched(&file(by_nil, kind, &[])), (0, 0, vec![]));
    }
    accepted(&file(by_nil, by_nil, by_plain));
    assert_eq!(
        read(
            &file(by_nil, by_plain, by_nil),
            &hex("21 00 23 02 22 02 23 01 22 01 22 00 2F")
        ),
        (0, 13, vec![0, 3, 2])
    );
}

#[test]
fn after_a_longer_word_by_one_kind() {
    // At once a plain one and a nil one; after one of type 3 two plain ones.
    let steps = &[(0, 1, 2), (0, 2, 2), (0, 3, 1), (1, 1, 2), (1, 4, 2)];
    let mut blocks = vec![plain((0, 3, &[2], steps))];
    let kinds = [Kind::Plain, Kind::Nil, Kind::Nil, Kind::Plain];
    let tags = [1, 1, 2, 1];
    blocks.extend(tags.iter().zip(kinds).map(|(&tag, k)| childless(tag, &[k])));
    let schema = file_of_bytes(3, &blocks, &[0]);
    assert_eq!(check(&schema), (9, 0, hex("00 01 04 01 00 03")));
    assert!(!confirmed(&schema, 0, 1, 2, &[]));
}

#[test]
fn live_states_and_reached_types() {
    // Type 0 holds type 1, which has no plain tree though it has a step by type 2; type 2 holds type 3.
    let dead: Block = (1, 3, &[], &[(0, 2, 1), (1, 2, 2)]);
    let trimming = |dead: Vec<u8>| {
        let owner = plain((0, 2, &[1], &[(0, 1, 1)]));
        let beside = plain((2, 2, &[1], &[(0, 3, 1)]));
        let blocks = [owner, dead, beside, plain(leaf(3))];
        Trimming::of(&stated(&file_of_bytes(4, &blocks, &[0])))
    };
    let with = trimming(nil(dead));
    let live = [States(0b11), States::NONE, States(0b11), States::START];
    assert_eq!(with.live[..4], live);
    assert_eq!(with.opened[..4], [Kinds(1), Kinds(3), Kinds(1), Kinds(1)]);
    assert_eq!(with.opened[4..], [Kinds::NONE; 60]);
    // Nothing stands inside a nil element, so types 2 and 3 are not reached.
    assert_eq!(with.reached[..4], [true, true, false, false]);
    let without = trimming(plain(dead));
    assert_eq!(without.live[..2], [States(0b10), States::NONE]);
    assert_eq!(without.opened[..2], [Kinds::NONE; 2]);
    assert_eq!(without.reached[..4], [true, false, false, false]);
}

#[test]
fn competition_inside_a_nillable_type() {
    let within = |accepting: &'static [u8]| {
        let bad: Block = (1, 3, accepting, &[(0, 2, 1), (0, 3, 1)]);
        let owner: Block = (0, 2, &[1], &[(0, 1, 1)]);
        let blocks = [plain(owner), nil(bad), plain(leaf(2)), plain(leaf(2))];
        file_of_bytes(3, &blocks, &[0])
    };
    // No element of type 1 has children that end in state 1.
    let place = 2 + 9;
    for accepting in [&[][..], &[2], &[0, 2]] {
        let schema = within(accepting);
        unused(&schema, place + 3 + 2 * accepting.len() + 8 + 1);
    }
    assert_eq!(check(&within(&[1])), (9, 0, hex("01 02 03 00 00")));
}

#[test]
fn a_chain_that_rests_on_nil() {
    // Each type needs the next.
    let steps: Vec<[(u8, u8, u8); 1]> = (1..64).map(|next| [(0, next, 1)]).collect();
    let chain = |last: &[Kind]| {
        let linked = steps.iter().map(|step| plain((0, 2, &[1], step)));
        let blocks: Vec<Vec<u8>> = linked.chain([childless(0, last)]).collect();
        file_of_bytes(1, &blocks, &[0])
    };
    refused(&chain(&[]), 8, 0);
    let types: Vec<u8> = (0..64).collect();
    let whole = |last: Kind| {
        let down = [OPEN, 0].repeat(63);
        let up = [CLOSE, 0].repeat(64);
        [&down[..], &[code(last), 0], &up, &[FINISH]].concat()
    };
    let schema = chain(&[Kind::Nil]);
    assert_eq!(read(&schema, &whole(Kind::Nil)), (0, 257, types.clone()));
    let refused = (13, 126, types[..63].to_vec());
    assert_eq!(read(&schema, &whole(Kind::Plain)), refused);
}
