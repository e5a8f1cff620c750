//! Calls on schemas and readings as values, among them some that no file stated and no events led to.

use super::super::made_up::{call_open, inside, root_given};
use super::super::{Block, file_of_bytes, stated};
use super::{childless, plain, wall};
use crate::limits::MOST_OPEN;
use crate::questions::{
    FINISHED, INCOMPLETE, NO_SUCH_OPENING, NOTHING_OPEN, OTHER_TAG, TOO_DEEP, UNKNOWN_TAG,
};
use crate::{Answer, Kind, Reading, Schema, States, Trimming, competition};

#[test]
fn states_of_a_nil_element() {
    let schema = stated(&wall());
    let open = call_open(&schema, Reading::FRESH, Kind::Plain, 0).1;
    let rack = call_open(&schema, open, Kind::Nil, 1).1;
    assert_eq!((rack.depth, rack.types[1]), (2, 1));
    assert_eq!(rack.sets[..2], [States::START, States::NONE]);
    let closed = rack.close(&schema, 1);
    assert_eq!((closed.answer, closed.reading.depth), (Answer::Taken, 1));
    let rack = call_open(&schema, closed.reading, Kind::Plain, 1).1;
    assert_eq!(rack.sets[..2], [States::START, States::START]);
}

#[test]
fn elements_without_states() {
    let refused = Answer::Refused;
    let mut schema = stated(&wall());
    // Type 1 is nillable, type 0 is not.
    let (rack, wall) = (inside(1, 0), inside(0, 0));
    assert_eq!(rack.close(&schema, 1).answer, Answer::Taken);
    assert_eq!(rack.close(&schema, 0).answer, refused(OTHER_TAG));
    assert_eq!(wall.close(&schema, 0).answer, refused(INCOMPLETE));
    for (kind, tag) in Kind::ALL
        .into_iter()
        .flat_map(|kind| [0, 1, 2, 3].map(|tag| (kind, tag)))
    {
        let answers = [rack, wall].map(|reading| call_open(&schema, reading, kind, tag).0);
        assert_eq!(answers, [refused(NO_SUCH_OPENING); 2]);
    }
    // With states a nillable type is asked for a word.
    let rack = |set| inside(1, set).close(&schema, 1).answer;
    assert_eq!(
        [rack(0b01), rack(0b10)],
        [refused(INCOMPLETE), Answer::Taken]
    );
    // The start state accepts, but the set does not have it.
    assert_eq!(schema.accepting[0], States::START);
    schema.nillable[0] = true;
    assert_eq!(wall.close(&schema, 0).answer, Answer::Taken);
}

#[test]
fn questions_of_a_nil_opening_in_order() {
    let mut schema = stated(&wall());
    schema.nillable = [true; 64];
    let refused = Answer::Refused;
    let asked = |reading: Reading, tag| call_open(&schema, reading, Kind::Nil, tag).0;
    let mut finished = inside(1, 0b01);
    finished.finished = true;
    assert_eq!(asked(finished, 99), refused(FINISHED));
    assert_eq!(asked(inside(1, 0b01), 4), refused(UNKNOWN_TAG));
    assert_eq!(asked(inside(1, 0b01), 1), refused(NO_SUCH_OPENING));
    assert_eq!(asked(inside(1, 0b01), 2), Answer::Typed(2));
    let mut deep = inside(0, 1);
    deep.depth = MOST_OPEN as u8;
    deep.sets = [States::START; MOST_OPEN];
    assert_eq!(asked(deep, 1), refused(TOO_DEEP));
    assert_eq!(asked(deep, 0), refused(NO_SUCH_OPENING));
    let after = Reading {
        rooted: true,
        ..Reading::FRESH
    };
    assert_eq!(asked(after, 0), refused(NO_SUCH_OPENING));
    assert_eq!(after.close(&schema, 0).answer, refused(NOTHING_OPEN));
    assert_eq!(asked(Reading::FRESH, 0), Answer::Typed(0));
}

/// The type that a child gets in type 0 and the states that follow it there, in the child the states of
/// its kind.
fn next(schema: &Schema, kind: Kind) -> Option<(u8, u32)> {
    let (answer, after) = call_open(schema, inside(0, 0b1), kind, 1);
    match answer {
        Answer::Typed(of) => {
            assert_eq!((after.types[1], after.sets[1]), (of, kind.first_states()));
            Some((of, after.sets[0].0))
        }
        answer => {
            assert_eq!(answer, Answer::Refused(NO_SUCH_OPENING));
            None
        }
    }
}

#[test]
fn the_smallest_type_of_a_kind() {
    // From state 0 types 1, 2 and 3, with trees that are plain, nil and both, each lead to a state.
    let owner: Block = (0, 4, &[1, 2, 3], &[(0, 3, 3), (0, 1, 1), (0, 2, 2)]);
    let mut blocks = vec![plain(owner)];
    let kinds: [&[Kind]; 3] = [&[Kind::Plain], &[Kind::Nil], &Kind::ALL];
    blocks.extend(kinds.map(|kinds| childless(1, kinds)));
    let mut schema = stated(&file_of_bytes(2, &blocks, &[0]));
    let both = |schema: &Schema| Kind::ALL.map(|kind| next(schema, kind));
    assert_eq!(both(&schema), [Some((1, 0b10)), Some((2, 0b100))]);
    schema.nillable[2] = false;
    assert_eq!(both(&schema), [Some((1, 0b10)), Some((3, 0b1000))]);
    schema.accepting[1] = States::NONE;
    assert_eq!(both(&schema), [Some((3, 0b1000)), Some((3, 0b1000))]);
    // Only state 1 is live, to which type 1 leads.
    schema.accepting[0] = States(0b10);
    schema.nillable[1] = true;
    assert_eq!(both(&schema), [None, Some((1, 0b10))]);
}

#[test]
fn the_smallest_root_of_a_kind() {
    let kinds: [&[Kind]; 4] = [&[], &[Kind::Nil], &[Kind::Plain], &Kind::ALL];
    let blocks = kinds.map(|kinds| childless(0, kinds));
    let mut schema = stated(&file_of_bytes(2, &blocks, &[3, 2, 1, 0]));
    let given = |schema: &Schema| Kind::ALL.map(|kind| root_given(schema, kind, 0));
    assert_eq!(given(&schema), [Some(2), Some(1)]);
    assert_eq!(root_given(&schema, Kind::Nil, 1), None);
    schema.roots = 2;
    assert_eq!(given(&schema), [Some(2), Some(3)]);
    schema.root[..2].copy_from_slice(&[1, 0]);
    assert_eq!(given(&schema), [None, Some(1)]);
    schema.nillable[0] = true;
    assert_eq!(given(&schema), [None, Some(0)]);
    let found = |schema: &Schema| competition::find(schema, &Trimming::of(schema));
    let both = found(&schema).unwrap();
    assert_eq!((both.within, both.one, both.other), (255, 0, 1));
    schema.nillable[1] = false;
    assert_eq!(found(&schema), None);
}

#[test]
fn flags_of_types_that_are_not_used() {
    let mut schema = stated(&wall());
    let before = Trimming::of(&schema);
    schema.nillable[5..].fill(true);
    assert!(schema.within_limits());
    assert_eq!(Trimming::of(&schema), before);
}
