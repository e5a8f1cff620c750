//! Event files with openings as nil.

use super::super::{
    Block, CLOSE, FINISH, OPEN, OPEN_NIL, accepted, file_of_bytes, hex, print, read, read_into,
    refused, stated,
};
use super::{childless, nil, over_one, plain, wall};
use crate::{Kind, Opening, event_file, event_file_by_steps, openings};

#[test]
fn a_rack_empty_on_purpose() {
    accepted(&wall());
    let events = hex("21 00 23 01 22 01 21 01 21 03 22 03 21 02 22 02 22 01 23 01 22 01 22 00 2F");
    let types = vec![0, 1, 1, 3, 4, 1];
    assert_eq!(read(&wall(), &events), (0, events.len(), types));
    assert_eq!(
        print(&wall(), &hex("21 00 23 01 22 01 22 00 2F")),
        b"depth tag type\n1 0 0\n2 1 1\naccepted 2\n"
    );
    // Empty, but not on purpose.
    let empty = hex("21 00 21 01 22 01");
    assert_eq!(read(&wall(), &empty), (17, 4, vec![0, 1]));
    // The wall is not nillable, and neither is a boot.
    assert_eq!(read(&wall(), &hex("23 00")), (13, 0, vec![]));
    let boot = hex("21 00 21 01 23 02");
    assert_eq!(read(&wall(), &boot), (13, 4, vec![0, 1]));
}

#[test]
fn inside_a_nil_element() {
    let within = |then: &str| {
        let (number, at, types) = read(&wall(), &hex(&format!("21 00 23 01 {then}")));
        assert_eq!((at, types), (4, vec![0, 1]));
        number
    };
    for tag in ["00", "01", "02", "03"] {
        assert_eq!(within(&format!("21 {tag}")), 13);
        assert_eq!(within(&format!("23 {tag}")), 13);
    }
    assert_eq!((within("21 04"), within("23 04")), (12, 12));
    assert_eq!((within("22 00"), within("22 04")), (16, 12));
    assert_eq!((within("2F"), within("23")), (18, 19));
}

#[test]
fn a_type_that_needs_itself() {
    let endless: Block = (0, 2, &[1], &[(0, 0, 1)]);
    refused(&file_of_bytes(1, &[plain(endless)], &[0]), 8, 0);
    let by_states = file_of_bytes(1, &[nil(endless)], &[0]);
    let by_expression = hex("10 01 11 00 00 32 00 3F 15 14 00 1F");
    for schema in [by_states, by_expression] {
        assert_eq!(read(&schema, &hex("23 00 22 00 2F")), (0, 5, vec![0]));
        assert_eq!(read(&schema, &hex("21 00 22 00")), (17, 2, vec![0]));
        // Of the nil child it bears a plain tree.
        let nested = hex("21 00 21 00 23 00 22 00 22 00 22 00 2F");
        assert_eq!(read(&schema, &nested), (0, 13, vec![0; 3]));
    }
}

#[test]
fn a_nil_root() {
    let blocks = [0, 1].map(|tag| childless(tag, &Kind::ALL));
    let schema = file_of_bytes(2, &blocks, &[0, 1]);
    for (tag, other) in [(0, 1), (1, 0)] {
        let after = |then: &[u8]| {
            let (number, at, types) = read(&schema, &[&[OPEN_NIL, tag], then].concat());
            assert_eq!(types, [tag]);
            (number, at)
        };
        assert_eq!(after(&[CLOSE, tag, FINISH]), (0, 5));
        assert_eq!(after(&[FINISH]), (18, 2));
        assert_eq!(after(&[CLOSE, other]), (16, 2));
        assert_eq!(after(&[CLOSE, tag, OPEN_NIL, tag]), (13, 4));
        assert_eq!(after(&[CLOSE, tag, OPEN, other]), (13, 4));
        assert_eq!(after(&[CLOSE, tag, CLOSE, tag]), (15, 4));
        assert_eq!(after(&[CLOSE, tag, FINISH, OPEN_NIL, 99]), (11, 5));
    }
    assert_eq!(read(&schema, &[OPEN_NIL, 2]), (12, 0, vec![]));
}

#[test]
fn at_the_sixty_fifth_level() {
    // Type 0 holds itself without end and may be nil; no type has tag 1.
    let nested: Block = (0, 1, &[0], &[(0, 0, 0)]);
    let schema = file_of_bytes(2, &[nil(nested)], &[0]);
    let then = |levels: usize, more: &[u8]| {
        let (number, at, types) = read(&schema, &[&[OPEN, 0].repeat(levels), more].concat());
        assert_eq!(types, vec![0; at / 2]);
        (number, at)
    };
    assert_eq!(then(64, &[OPEN_NIL, 0]), (14, 128));
    assert_eq!(then(64, &[OPEN_NIL, 1]), (13, 128));
    assert_eq!(then(64, &[OPEN_NIL, 2]), (12, 128));
    // The 64th level is nil: no document of any depth goes on inside it.
    assert_eq!(then(63, &[OPEN_NIL, 0, OPEN_NIL, 0]), (13, 128));
    assert_eq!(then(63, &[OPEN_NIL, 0, OPEN, 0]), (13, 128));
    assert_eq!(then(63, &[OPEN_NIL, 0, FINISH]), (18, 128));
}

#[test]
fn nil_events_of_a_file() {
    let schema = over_one(childless(1, &[Kind::Nil]));
    assert_eq!(read(&schema, &[OPEN_NIL]), (19, 0, vec![]));
    for none in [&[OPEN_NIL][..], &[0x24, 1], &[0x20, 1]] {
        let events = [&[OPEN, 0], none].concat();
        assert_eq!(read(&schema, &events), (19, 2, vec![0]));
    }
    let whole = [OPEN, 0, OPEN_NIL, 1, CLOSE, 1, CLOSE, 0, FINISH];
    assert_eq!(read_into(&schema, &whole, 2), (0, 9, vec![0, 1]));
    assert_eq!(read_into(&schema, &whole, 1), (20, 2, vec![0]));
    assert_eq!(read_into(&schema, &whole, 0), (20, 0, vec![]));
    // A full buffer is asked last.
    let wrong = [OPEN, 0, OPEN_NIL, 0];
    assert_eq!(read_into(&schema, &wrong, 1), (13, 2, vec![0]));
}

#[test]
fn openings_of_either_kind() {
    let of = |events: &[u8]| {
        openings(events)
            .map(|Opening { level, tag }| (level, tag))
            .collect::<Vec<_>>()
    };
    let events = hex("22 09 23 C8 2F 21 01 22 07 23 02");
    assert_eq!(of(&events), [(1, 200), (2, 1), (2, 2)]);
    assert_eq!(of(&events), of(&hex("22 09 21 C8 2F 21 01 22 07 21 02")));
    assert_eq!(of(&[OPEN_NIL, 1, OPEN_NIL]), [(1, 1)]);
}

/// Every list of so many openings of either kind and closings of tags 0 and 1.
fn lists(events: usize) -> Vec<Vec<u8>> {
    let codes = [OPEN, OPEN_NIL, CLOSE];
    let each = codes.map(|code| [[code, 0], [code, 1]]).concat();
    let mut lists = vec![vec![]];
    for _ in 0..events {
        let more = |list: &Vec<u8>| {
            each.iter()
                .map(|event| [&list[..], event].concat())
                .collect()
        };
        lists = lists.iter().flat_map::<Vec<_>, _>(more).collect();
    }
    lists
}

#[test]
fn both_layouts_answer_alike() {
    let endless: Block = (0, 2, &[1], &[(0, 0, 1)]);
    let schemas = [
        wall(),
        over_one(childless(1, &[Kind::Nil])),
        over_one(childless(1, &Kind::ALL)),
        file_of_bytes(1, &[nil(endless)], &[0]),
    ];
    for schema in schemas.iter().map(|file| stated(file)) {
        for file in (0..5).flat_map(lists) {
            let mut types = [[9; 8]; 2];
            let [ours, theirs] = &mut types;
            let answer = event_file::read(&schema, &file, ours);
            assert_eq!(answer, event_file_by_steps::read(&schema, &file, theirs));
            assert_eq!(ours, theirs);
        }
    }
}
