//! What would have been taken: each depth, each list of few events, files cut and damaged at each byte, each event at the place.

mod common;

use common::{both, one_event_more};
use plain::codes::{CLOSE, FINISH, NIL, OPEN, OPEN_NIL};
use plain::limits::{MOST_OPEN, MOST_OPENINGS, MOST_TAGS, WITNESS};
use plain::{Expected, Kind};

/// Type 0, tag 0, holds itself and types 1 and 2, of tag 1, in any number; type 0 is nillable, type 1 a
/// leaf, and type 2 has nil trees alone.
fn nested() -> Vec<u8> {
    let mut schema = vec![0x10, 2, 0x11, 0, 1, 0x12, 0, NIL];
    schema.extend((0..3).flat_map(|by| [0x13, 0, by, 0]));
    schema.extend([0x11, 1, 1, 0x12, 0, 0x11, 1, 1, NIL, 0x14, 0, 0x1F]);
    schema
}

/// A wall of racks that may be nil; on a rack hire boots, the sale mark, boots for sale.
fn wall() -> Vec<u8> {
    let wall = [0x11, 0, 0, 0x32, 1, 0x34, 0x3F];
    let rack = [0x11, 1, 0, 0x32, 2, 0x34, 0x32, 3, 0x32, 4, 0x34, 0x3F, NIL];
    let boots = [2, 3, 2].map(|tag| [0x11, tag, 0, 0x3F]).concat();
    [&[0x10, 4], &wall[..], &rack, &boots, &[0x14, 0, 0x1F]].concat()
}

/// Two racks and a nil one, and the finish.
fn racks() -> Vec<u8> {
    let boot = [OPEN, 2, CLOSE, 2];
    let mark = [OPEN, 3, CLOSE, 3];
    let rack = [&[OPEN, 1], &boot[..], &mark, &boot, &[CLOSE, 1]].concat();
    let nil = [OPEN_NIL, 1, CLOSE, 1];
    [&[OPEN, 0], &rack[..], &nil, &rack, &[CLOSE, 0, FINISH]].concat()
}

/// Both answers to the events under an accepted schema, which are the same.
fn expected(schema: &[u8], events: &[u8]) -> Expected {
    let answers = both(schema, events, WITNESS, events.len());
    answers.expected.expect("the schema is accepted")
}

/// Is the file's last event, at this place, taken? What the engine's typing says.
fn is_taken(schema: &[u8], file: &[u8], at: usize) -> bool {
    let mut types = vec![0; file.len()];
    let job = typestock::type_document(schema, file, &mut [0; WITNESS], &mut types);
    match job {
        typestock::Job::EventsRead { number, place, .. } => number == 0 || place > at,
        typestock::Job::SchemaRefused { .. } => panic!("{job:?}"),
    }
}

/// Asks each event of each tag at the answer's place, and holds the answer to those that are taken.
fn hold_to_events(schema: &[u8], events: &[u8]) {
    let answer = expected(schema, events);
    let before = &events[..answer.place];
    let taken = |next: &[u8]| is_taken(schema, &[before, next].concat(), before.len());
    let tags = 0..MOST_TAGS as u8 + 1;
    let openings = tags.clone().flat_map(|tag| {
        let kinds = [(Kind::Plain, OPEN), (Kind::Nil, OPEN_NIL)];
        kinds.map(|(kind, code)| taken(&[code, tag]).then_some((kind, tag)))
    });
    assert!(answer.openings().eq(openings.flatten()), "{answer:?}");
    assert_eq!(answer.closes, tags.clone().any(|tag| taken(&[CLOSE, tag])));
    assert_eq!(answer.finishes, taken(&[FINISH]));
}

#[test]
fn files_cut_at_every_byte() {
    let events = racks();
    for end in 0..=events.len() {
        hold_to_events(&wall(), &events[..end]);
    }
}

#[test]
fn files_damaged_at_every_byte() {
    let events = racks();
    for at in 0..events.len() {
        for byte in [0, 1, 2, 3, 4, OPEN, CLOSE, OPEN_NIL, FINISH, 0xFF] {
            let mut damaged = events.clone();
            damaged[at] = byte;
            hold_to_events(&wall(), &damaged);
        }
    }
}

#[test]
fn every_list_of_few_events() {
    let mut files = vec![vec![]];
    for _ in 0..4 {
        files = one_event_more(&files);
        files
            .iter()
            .for_each(|file| hold_to_events(&nested(), file));
    }
}

#[test]
fn every_depth() {
    for depth in 0..=MOST_OPEN {
        let down = [OPEN, 0].repeat(depth);
        for last in [OPEN, OPEN_NIL] {
            let answer = expected(&nested(), &[&down[..], &[last, 0]].concat());
            let (number, open) = match depth {
                MOST_OPEN => (14, depth),
                _ => (19, depth + 1),
            };
            assert_eq!((answer.number, answer.place), (number, 2 * open));
            assert_eq!(answer.open_types(), vec![0; open]);
            // In a nil element and in the 64th there are no openings.
            let inside = last == OPEN && open < MOST_OPEN;
            assert_eq!(answer.count, if inside { 4 } else { 0 });
            assert!(answer.closes && !answer.finishes);
        }
    }
    // Elements that were closed are not told.
    for open in 0..MOST_OPEN {
        let up = [
            [OPEN, 0].repeat(MOST_OPEN),
            [CLOSE, 0].repeat(MOST_OPEN - open),
        ]
        .concat();
        let answer = expected(&nested(), &up);
        assert_eq!(answer.open_types(), vec![0; open]);
        assert_eq!((answer.closes, answer.finishes), (open > 0, open == 0));
        assert_eq!(answer.count, if open > 0 { 4 } else { 0 });
    }
}

/// Each type of 32, each of a tag of its own, is a leaf or holds all: nillable, and the first eight roots.
fn all_tags() -> Vec<u8> {
    let tags = MOST_TAGS as u8;
    let mut schema = vec![0x10, tags, 0x11, 0, 1, 0x12, 0, NIL];
    schema.extend((0..tags).flat_map(|by| [0x13, 0, tags - 1 - by, 0]));
    schema.extend((1..tags).flat_map(|tag| [0x11, tag, 1, 0x12, 0, NIL]));
    schema.extend((0..8).rev().flat_map(|root| [0x14, root]));
    schema.push(0x1F);
    schema
}

#[test]
fn the_widest_list() {
    let each = |tags: u8| (0..tags).flat_map(|tag| Kind::ALL.map(|kind| (kind, tag)));
    let roots = expected(&all_tags(), &[]);
    assert!(roots.openings().eq(each(8)));
    let inside = expected(&all_tags(), &[OPEN, 0, FINISH]);
    assert_eq!(inside.count, MOST_OPENINGS);
    assert!(inside.openings().eq(each(MOST_TAGS as u8)));
    hold_to_events(&all_tags(), &[OPEN, 0, FINISH]);
}

#[test]
fn types_buffers_of_every_length() {
    let events = [[OPEN, 0].repeat(64), vec![FINISH]].concat();
    for length in 0..=70 {
        let answers = both(&nested(), &events, WITNESS, length);
        let answer = answers.expected.unwrap();
        assert_eq!((answer.number, answer.place), (18, 128));
    }
}

#[test]
fn witness_buffers_of_every_length() {
    let events = racks();
    let competing = [
        0x10, 1, 0x11, 0, 1, 0x12, 0, 0x11, 0, 1, 0x12, 0, 0x14, 0, 0x14, 1, 0x1F,
    ];
    for length in 0..=WITNESS + 40 {
        let told = |schema: &[u8]| both(schema, &events, length, 0).expected.is_some();
        assert_eq!(told(&wall()), length >= WITNESS);
        assert!(!told(&competing));
    }
}

#[test]
fn places_of_many_bytes() {
    let children = [OPEN, 1, CLOSE, 1].repeat(150_000);
    let events = [&[OPEN, 0], &children[..], &[OPEN, 2]].concat();
    let answer = expected(&nested(), &events);
    assert_eq!((answer.number, answer.place), (12, 2 + children.len()));
    assert_eq!((answer.depth, answer.count), (1, 4));
}

#[test]
fn slices_of_no_bytes() {
    let refused = typestock::expect_document(&[], &[], &mut []).unwrap_err();
    assert_eq!((refused.number, refused.place), (1, 0));
    let told = typestock::expect_document(&wall(), &[], &mut [0; WITNESS]).unwrap();
    let refusal = told
        .refusal()
        .map(|refusal| (refusal.number, refusal.place));
    assert_eq!(refusal, Some((19, 0)));
    let openings: Vec<(u8, bool)> = told
        .openings()
        .map(|opening| (opening.tag, opening.nil))
        .collect();
    assert_eq!(openings, [(0, false)]);
}
