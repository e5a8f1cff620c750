//! NIL and openings as nil: each place, each pair of kinds, each list of few events, each tag, type and state.

mod common;

use common::{both, one_event_more};
use compare::Fixed;
use plain::Job;
use plain::codes::{CLOSE, FINISH, NIL, OPEN, OPEN_NIL};
use plain::limits::{NO_PARENT, WITNESS};

/// The commands of a file, and whether a NIL may stand right before each: an owner by states, one by an
/// expression, a leaf, two roots.
const COMMANDS: [(&[u8], bool); 14] = [
    (&[0x10, 3], false),
    (&[0x11, 0, 2], false),
    (&[0x12, 1], true),
    (&[0x13, 0, 1, 1], true),
    (&[0x13, 1, 2, 1], true),
    (&[0x11, 1, 0], true),
    (&[0x32, 2], false),
    (&[0x34], false),
    (&[0x3F], false),
    (&[0x11, 2, 1], true),
    (&[0x12, 0], true),
    (&[0x14, 0], true),
    (&[0x14, 2], false),
    (&[0x1F], false),
];

/// The file of these commands with as many NILs before each as are given for it.
fn with_nil(counts: [usize; 14]) -> Vec<u8> {
    let parts = COMMANDS.iter().zip(counts);
    let parts = parts.map(|((command, _), count)| [&[NIL].repeat(count), *command].concat());
    parts.collect::<Vec<_>>().concat()
}

/// The place of the command with this number if no NIL stands before it.
fn place_of(number: usize) -> usize {
    let before = COMMANDS[..number].iter();
    before.map(|(command, _)| command.len()).sum()
}

#[test]
fn nil_before_each_command() {
    for (number, (_, fits)) in COMMANDS.iter().enumerate() {
        let place = place_of(number);
        let answer = |count| {
            let mut counts = [0; 14];
            counts[number] = count;
            both(&with_nil(counts), &[], WITNESS, 0).schema
        };
        assert_eq!(answer(1), if *fits { (0, 0) } else { (3, place) });
        let twice = if *fits { (6, place + 1) } else { (3, place) };
        assert_eq!((answer(2), answer(3)), (twice, twice));
    }
    let mut past_the_end = with_nil([0; 14]);
    past_the_end.push(NIL);
    let answer = both(&past_the_end, &[], WITNESS, 0).schema;
    assert_eq!(answer, (3, place_of(14)));
}

#[test]
fn nil_before_each_two_commands() {
    // The type in whose block a NIL right before the command stands.
    let block = |number: usize| match number {
        2..=5 => 0,
        9 => 1,
        _ => 2,
    };
    let fitting = (0..14).filter(|&number| COMMANDS[number].1);
    for (one, other) in fitting
        .clone()
        .flat_map(|one| fitting.clone().map(move |other| (one, other)))
        .filter(|(one, other)| one < other)
    {
        let mut counts = [0; 14];
        (counts[one], counts[other]) = (1, 1);
        let again = (6, place_of(other) + 1);
        let same = block(one) == block(other);
        let answer = both(&with_nil(counts), &[], WITNESS, 0).schema;
        assert_eq!(answer, if same { again } else { (0, 0) });
    }
}

/// A type of this tag without children: with a plain tree, nillable, both or neither.
fn childless(tag: u8, plain: bool, nillable: bool) -> Vec<u8> {
    let mut block = vec![0x11, tag, 1];
    block.extend([0x12, 0].iter().filter(|_| plain));
    block.extend(nillable.then_some(NIL));
    block
}

/// Types 1 and 2 of this tag, with these trees, in type 0 or as roots.
fn two_of_a_tag(tag: u8, types: [[bool; 2]; 2], roots: &[u8]) -> Vec<u8> {
    let mut schema = vec![0x10, 32, 0x11, 0, 2, 0x12, 1, 0x13, 0, 1, 1, 0x13, 0, 2, 1];
    for [plain, nillable] in types {
        schema.extend(childless(tag, plain, nillable));
    }
    schema.extend(roots.iter().flat_map(|&root| [0x14, root]));
    schema.push(0x1F);
    schema
}

/// What a schema with two such types of one tag is answered: 24 at the one without trees.
fn compared([one, other]: [[bool; 2]; 2]) -> (u8, usize) {
    match [one, other].map(|kinds| kinds == [false; 2]) {
        [true, true] => (8, 0),
        [true, false] => (24, 15),
        [false, true] => (24, 15 + childless(0, one[0], one[1]).len()),
        _ if (0..2).any(|kind| one[kind] && other[kind]) => (9, 0),
        _ => (0, 0),
    }
}

/// Two types with these trees, of this tag, compete if they share a kind; else an opening of a kind is taken if
/// one of them has a tree of it.
fn compete_by_kinds(tag: u8, [one, other]: [[bool; 2]; 2]) {
    let answer = compared([one, other]);
    for (within, roots) in [
        (0, &[0][..]),
        (NO_PARENT, &[1, 0, 2]),
        (NO_PARENT, &[2, 1, 0]),
    ] {
        let mut schema = two_of_a_tag(tag, [one, other], roots);
        let answers = both(&schema, &[], WITNESS, 0);
        let shared = answer.0 == 9;
        let fixed = shared.then_some(Fixed { within, length: 0 });
        assert_eq!((answers.schema, answers.witness), (answer, fixed));
        if answer.0 == 24 {
            schema = typestock::reduced(&schema).unwrap();
        }
        let around: [&[u8]; 2] = match within {
            0 => [&[OPEN, 0], &[CLOSE, 0]],
            _ => [&[], &[]],
        };
        for (kind, code) in [OPEN, OPEN_NIL].into_iter().enumerate() {
            let events = [around[0], &[code, tag, CLOSE, tag], around[1], &[FINISH]].concat();
            let taken = match both(&schema, &events, WITNESS, 2).job {
                Job::EventsRead { number, .. } => Some(number == 0),
                Job::SchemaRefused { .. } => None,
            };
            let read = matches!(answer.0, 0 | 24);
            assert_eq!(taken, read.then_some(one[kind] || other[kind]));
        }
    }
}

#[test]
fn competition_by_each_two_kinds() {
    let kinds = [[false, false], [true, false], [false, true], [true, true]];
    for (one, other) in kinds
        .iter()
        .flat_map(|one| kinds.map(|other| (*one, other)))
    {
        for tag in [1, 4, 31] {
            compete_by_kinds(tag, [one, other]);
        }
    }
}

/// Type 0, tag 0, holds itself and types 1 and 2, of tag 1, in any number; type 0 is nillable, type 1 a
/// leaf, and type 2 has nil trees alone.
fn nested() -> Vec<u8> {
    let mut schema = vec![0x10, 2, 0x11, 0, 1, 0x12, 0, NIL];
    schema.extend((0..3).flat_map(|by| [0x13, 0, by, 0]));
    schema.extend(childless(1, true, false));
    schema.extend(childless(1, false, true));
    schema.extend([0x14, 0, 0x1F]);
    schema
}

#[test]
fn every_list_of_few_events() {
    let mut files = vec![vec![]];
    let mut whole = 0;
    for _ in 0..5 {
        files = one_event_more(&files);
        let taken = |file: &&Vec<u8>| {
            let job = both(&nested(), file, WITNESS, 3).job;
            matches!(job, Job::EventsRead { number: 0, .. })
        };
        whole += files.iter().filter(taken).count();
    }
    // The root alone, plain or nil; and a plain one with a child of each tag and kind.
    assert_eq!(whole, 2 + 4);
}

#[test]
fn nil_elements_at_the_lowest_level() {
    let job = |more: &[u8]| {
        let events = [&[OPEN, 0].repeat(63), more].concat();
        match both(&nested(), &events, WITNESS, 100).job {
            Job::EventsRead { number, count, .. } => (number, count),
            job => panic!("{job:?}"),
        }
    };
    assert_eq!(job(&[OPEN_NIL, 0, CLOSE, 0, OPEN_NIL, 1]), (19, 65));
    assert_eq!(job(&[OPEN_NIL, 0, OPEN_NIL, 1]), (13, 64));
    assert_eq!(job(&[OPEN, 0, OPEN_NIL, 1]), (14, 64));
    assert_eq!(job(&[OPEN, 0, OPEN_NIL, 2]), (12, 64));
    let whole = [
        &[OPEN_NIL, 1, CLOSE, 1][..],
        &[CLOSE, 0].repeat(63),
        &[FINISH],
    ]
    .concat();
    assert_eq!(job(&whole), (0, 64));
    for end in 0..whole.len() {
        assert_eq!(job(&whole[..end]).0, 19);
    }
}

/// The answer to an event file and the types given.
fn typed(schema: &[u8], events: &[u8]) -> (u8, usize, Vec<u8>) {
    both(schema, events, WITNESS, 64);
    let mut types = vec![0; 64];
    let job = typestock::type_document(schema, events, &mut [0; WITNESS], &mut types);
    let typestock::Job::EventsRead {
        number,
        place,
        count,
    } = job
    else {
        panic!("{job:?}");
    };
    types.truncate(count);
    (number, place, types)
}

/// A document whose root is opened so and has nil children of these tags.
fn over_nil(root: [u8; 2], children: impl Iterator<Item = u8>) -> Vec<u8> {
    let mut events = root.to_vec();
    events.extend(children.flat_map(|tag| [OPEN_NIL, tag, CLOSE, tag]));
    events.extend([CLOSE, root[1], FINISH]);
    events
}

/// Type 0, of tag 0, holds types 1 to 31, of tags 1 to 31, in any number, then type 32, of tag 0, then types
/// 33 to 63, of tags 1 to 31. All but type 0 have nil trees alone.
fn sixty_four_types(root: u8) -> Vec<u8> {
    let mut schema = vec![0x10, 32, 0x11, 0, 2, 0x12, 0, 0x12, 1];
    schema.extend((1..64).flat_map(|by| [0x13, by / 33, by, by / 32]));
    schema.extend((1..64).flat_map(|of| childless(of % 32, false, true)));
    schema.extend([0x14, root, 0x1F]);
    schema
}

#[test]
fn nil_openings_of_every_tag_and_type() {
    let whole = over_nil([OPEN, 0], (1..64).map(|of| of % 32));
    let types: Vec<u8> = (0..64).collect();
    let answer = typed(&sixty_four_types(0), &whole);
    assert_eq!(answer, (0, whole.len(), types.clone()));
    for of in 1..64 {
        // Opened plainly it would need an accepting start state.
        let place = 4 * of - 2;
        let mut plain = whole.clone();
        plain[place] = OPEN;
        let answer = typed(&sixty_four_types(0), &plain);
        assert_eq!(answer, (13, place, types[..of].to_vec()));
        // As the one root it is the one type that is used.
        let tag = of as u8 % 32;
        let alone = over_nil([OPEN_NIL, tag], std::iter::empty());
        let schema = sixty_four_types(of as u8);
        assert_eq!(both(&schema, &[], WITNESS, 0).schema, (24, 2));
        let schema = typestock::reduced(&schema).unwrap();
        assert_eq!(typed(&schema, &alone), (0, 5, vec![0]));
        let inside = [OPEN_NIL, tag, OPEN_NIL, tag];
        assert_eq!(typed(&schema, &inside), (13, 2, vec![0]));
    }
}

/// Type 63, of tag 31, holds 31 of type 62, of tag 30, which has nil trees alone: a state after each. Then it holds
/// the others, of the other tags, in any number: of each tag one type that is plain and one that is nil.
#[test]
fn nil_openings_from_every_state() {
    let mut schema = vec![0x10, 32];
    let tag = |of: u8| if of < 60 { of / 2 } else { 31 };
    schema.extend((0..62).flat_map(|of| childless(tag(of), of % 2 == 0, of % 2 == 1)));
    schema.extend(childless(30, false, true));
    schema.extend([0x11, 31, 32, 0x12, 31]);
    schema.extend((0..31).flat_map(|from| [0x13, from, 62, from + 1]));
    schema.extend((0..62).flat_map(|by| [0x13, 31, by, 31]));
    schema.extend([0x14, 63, 0x1F]);
    for children in 0..=32 {
        let events = over_nil([OPEN, 31], std::iter::repeat_n(30, children));
        let (number, place) = match children {
            31 => (0, events.len()),
            32 => (13, 2 + 4 * 31),
            _ => (17, 2 + 4 * children),
        };
        let types = [&[63][..], &vec![62; children.min(31)]].concat();
        assert_eq!(typed(&schema, &events), (number, place, types));
    }
}
