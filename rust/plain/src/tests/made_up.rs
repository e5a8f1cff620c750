//! Calls on schemas and readings that no file stated and no events led to.

use super::{Block, OPEN, OPEN_NIL, boots, code, file_of_roots, leaf, stated};
use crate::limits::{MOST_OPEN, MOST_ROOTS, MOST_STEPS, MOST_TYPES};
use crate::questions::{
    INCOMPLETE, NO_EVENT, NO_SUCH_OPENING, OUTSIDE_LIMITS, TOO_DEEP, UNKNOWN_TAG,
};
use crate::{
    Answer, Answered, Kind, Reading, Schema, States, Trimming, competition, event_file,
    event_file_by_steps,
};

/// An element of this type is open, in these states.
pub(super) fn inside(of: u8, set: u32) -> Reading {
    let mut reading = Reading {
        depth: 1,
        rooted: true,
        ..Reading::FRESH
    };
    reading.types[0] = of;
    reading.sets[0] = States(set);
    reading
}

/// Every call on these gets 10, and the reading is unchanged.
fn outside(schema: &Schema, reading: Reading) {
    let answered = Answered {
        answer: Answer::Refused(OUTSIDE_LIMITS),
        reading,
    };
    assert_eq!(reading.open(schema, 0), answered);
    assert_eq!(reading.open_nil(schema, 0), answered);
    assert_eq!(reading.close(schema, 0), answered);
    assert_eq!(reading.finish(schema), answered);
}

/// Changes to the boots' schema by which it is outside the limits.
pub(super) const OUTSIDE: [fn(&mut Schema); 18] = [
    |schema| schema.tags = 0,
    |schema| schema.tags = 33,
    |schema| schema.types = 0,
    |schema| schema.types = 65,
    |schema| schema.roots = 0,
    |schema| schema.roots = MOST_ROOTS as u8 + 1,
    |schema| schema.roots = u8::MAX,
    |schema| schema.root[0] = 4,
    |schema| (schema.roots, schema.root[7]) = (8, 4),
    |schema| schema.tag[3] = 3,
    |schema| schema.states[1] = 0,
    |schema| schema.states[1] = 33,
    |schema| schema.accepting[0] = States(0b100),
    |schema| schema.steps[3] = MOST_STEPS as u16 - 2,
    |schema| schema.from[0] = 2,
    |schema| schema.by[2] = 4,
    |schema| schema.to[2] = 2,
    |schema| schema.steps[1] = u16::MAX,
];

#[test]
fn schemas_outside_the_limits() {
    for change in OUTSIDE {
        let mut schema = stated(&boots());
        assert!(schema.within_limits());
        change(&mut schema);
        assert!(!schema.within_limits());
        outside(&schema, Reading::FRESH);
        let number = |events: &[u8]| event_file::read(&schema, events, &mut []).number;
        assert_eq!(number(&[OPEN, 0]), OUTSIDE_LIMITS);
        assert_eq!(number(&[OPEN_NIL, 0]), OUTSIDE_LIMITS);
        assert_eq!((number(&[]), number(&[OPEN])), (NO_EVENT, NO_EVENT));
    }
}

#[test]
fn entries_that_are_not_used() {
    let mut schema = stated(&boots());
    schema.tag[4] = 99;
    schema.states[MOST_TYPES - 1] = 99;
    schema.by[3] = 99;
    schema.root[1] = 99;
    schema.nillable[4..].fill(true);
    assert!(schema.within_limits());
    let mut reading = inside(0, 0b01);
    reading.types[1] = 99;
    assert_eq!(reading.open(&schema, 2).answer, Answer::Typed(2));
}

#[test]
fn levels_outside_the_limits() {
    let schema = stated(&boots());
    outside(&schema, inside(4, 1));
    outside(&schema, inside(0, 0b100));
    outside(&schema, inside(1, 0b10));
    let mut deep = inside(0, 1);
    deep.sets = [States::START; MOST_OPEN];
    deep.depth = MOST_OPEN as u8 + 1;
    outside(&schema, deep);
    deep.depth -= 1;
    let refused = |number| Answer::Refused(number);
    assert_eq!(deep.open(&schema, 1).answer, refused(TOO_DEEP));
    assert_eq!(deep.open(&schema, 0).answer, refused(NO_SUCH_OPENING));
    assert_eq!(deep.open(&schema, 3).answer, refused(UNKNOWN_TAG));
}

#[test]
fn the_smallest_type_and_the_live_states() {
    let mut schema = stated(&boots());
    // From both states a boot may come: for hire, type 1, or for sale, type 3.
    let both = inside(0, 0b11).open(&schema, 1);
    assert_eq!(both.answer, Answer::Typed(1));
    assert_eq!(both.reading.sets[..2], [States(0b01), States::START]);
    // Without an accepting state type 1 bears no tree, so the boot is for sale.
    schema.accepting[1] = States::NONE;
    let for_sale = inside(0, 0b11).open(&schema, 1);
    assert_eq!(for_sale.answer, Answer::Typed(3));
    assert_eq!(for_sale.reading.sets[0], States(0b10));
    // The root bears no tree.
    schema.accepting[0] = States::NONE;
    let answer = Reading::FRESH.open(&schema, 0).answer;
    assert_eq!(answer, Answer::Refused(NO_SUCH_OPENING));
}

#[test]
fn the_set_of_no_states() {
    let schema = stated(&boots());
    let refused = |number| Answer::Refused(number);
    let empty = inside(0, 0);
    assert_eq!(empty.open(&schema, 1).answer, refused(NO_SUCH_OPENING));
    assert_eq!(empty.close(&schema, 0).answer, refused(INCOMPLETE));
    assert_eq!(inside(0, 0b10).close(&schema, 0).answer, Answer::Taken);
}

/// The answer to an opening and the reading that follows it, by value and on a lent reading alike.
pub(super) fn call_open(
    schema: &Schema,
    reading: Reading,
    kind: Kind,
    tag: u8,
) -> (Answer, Reading) {
    let mut lent = reading;
    let (answered, answer) = match kind {
        Kind::Plain => (reading.open(schema, tag), lent.open_lent(schema, tag)),
        Kind::Nil => (
            reading.open_nil(schema, tag),
            lent.open_nil_lent(schema, tag),
        ),
    };
    assert_eq!((answered.answer, answered.reading), (answer, lent));
    let refused = matches!(answer, Answer::Refused(_));
    assert_eq!(refused, lent == reading);
    (answer, lent)
}

/// The type that a first opening gets, alike from a call and from an event file of both layouts.
pub(super) fn root_given(schema: &Schema, kind: Kind, tag: u8) -> Option<u8> {
    let called = match call_open(schema, Reading::FRESH, kind, tag).0 {
        Answer::Typed(of) => Some(of),
        answer => {
            assert_eq!(answer, Answer::Refused(NO_SUCH_OPENING));
            None
        }
    };
    for read in [event_file::read, event_file_by_steps::read] {
        let mut types = [99];
        let count = read(schema, &[code(kind), tag], &mut types).count;
        assert_eq!(types[..count].first().copied(), called);
    }
    called
}

#[test]
fn the_smallest_root_of_a_tag() {
    let barren: Block = (0, 1, &[], &[]);
    let blocks = [barren, leaf(0), leaf(0), leaf(0), leaf(1)];
    let mut schema = stated(&file_of_roots(3, &blocks, &[3, 4, 0, 2]));
    let given = |schema: &Schema| [0, 1, 2].map(|tag| root_given(schema, Kind::Plain, tag));
    // Type 0 bears no tree, and type 1 is no root.
    assert_eq!(given(&schema), [Some(2), Some(4), None]);
    schema.roots = 3;
    assert_eq!(given(&schema), [Some(3), Some(4), None]);
    schema.roots = 1;
    assert_eq!(given(&schema), [Some(3), None, None]);
    // Once a root was opened there is no other.
    let rooted = Reading {
        rooted: true,
        ..Reading::FRESH
    };
    let answer = rooted.open(&schema, 0).answer;
    assert_eq!(answer, Answer::Refused(NO_SUCH_OPENING));
}

#[test]
fn a_root_twice_is_no_competition() {
    let mut schema = stated(&file_of_roots(2, &[leaf(0), leaf(1), leaf(0)], &[0, 1]));
    schema.roots = MOST_ROOTS as u8;
    schema.root = [1, 0, 0, 1, 1, 0, 1, 0];
    assert!(schema.within_limits());
    let found = |schema: &Schema| competition::find(schema, &Trimming::of(schema));
    assert_eq!(found(&schema), None);
    assert_eq!(
        [0, 1].map(|tag| root_given(&schema, Kind::Plain, tag)),
        [Some(0), Some(1)]
    );
    schema.root[7] = 2;
    let found = found(&schema).unwrap();
    assert_eq!((found.within, found.one, found.other), (255, 0, 2));
}
