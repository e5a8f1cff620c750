//! Inputs at the edges of the file forms and of the lent buffers.

mod common;

use common::both;
use compare::Fixed;
use plain::Job;
use plain::codes::{CLOSE, FINISH, NIL, OPEN};
use plain::limits::{MOST_ROOTS, NO_PARENT, WITNESS};

/// One type that holds itself without end.
const NESTING: [u8; 14] = [0x10, 1, 0x11, 0, 1, 0x12, 0, 0x13, 0, 0, 0, 0x14, 0, 0x1F];

/// Type 0 has 32 states and two types that compete only after each pair of states was passed.
fn longest_word() -> Vec<u8> {
    let [turn, nudge, part, one, other] = [1, 2, 3, 4, 5];
    let mut schema = vec![0x10, 5, 0x11, 0, 32, 0x12, 0];
    for state in 0..32 {
        schema.extend([0x13, state, turn, (state + 1) % 32]);
        schema.extend([0x13, state, nudge, if state == 31 { 0 } else { state }]);
    }
    for [from, by, to] in [[31, part, 16], [31, part, 0], [31, one, 0], [0, other, 0]] {
        schema.extend([0x13, from, by, to]);
    }
    for tag in [1, 2, 3, 4, 4] {
        schema.extend([0x11, tag, 1, 0x12, 0]);
    }
    schema.extend([0x14, 0, 0x1F]);
    schema
}

#[test]
fn witness_buffers_of_every_length() {
    let refused = [0x10, 0x21];
    for length in 0..=WITNESS + 40 {
        let short = length < WITNESS;
        let number = |schema: &[u8]| both(schema, &[], length, 0).schema.0;
        assert_eq!(number(&NESTING), if short { 1 } else { 0 });
        assert_eq!(number(&refused), if short { 1 } else { 4 });
        assert_eq!(number(&longest_word()), if short { 1 } else { 9 });
    }
}

#[test]
fn a_word_that_fills_the_witness_buffer() {
    let mut buffer = [0; typestock::WITNESS];
    let answer = typestock::check_schema(&longest_word(), &mut buffer);
    assert_eq!((answer.number, answer.place), (9, 0));
    let found = typestock::witness(&buffer).expect("a witness");
    assert_eq!((found.within, found.one, found.other), (Some(0), 4, 5));
    assert_eq!(found.word.len(), 527);
}

/// In type 0 types 1 and 2 compete after five of type 3 and after two of type 4. In type 3 they
/// compete at once. The steps stand in this order or the other way round.
fn two_ways(turned: bool) -> Vec<u8> {
    let mut steps = [[0, 3, 1], [1, 3, 2], [2, 3, 3], [3, 3, 4], [4, 3, 6]].to_vec();
    steps.extend([[0, 4, 5], [5, 4, 6], [6, 1, 7], [6, 2, 7]]);
    if turned {
        steps.reverse();
    }
    let mut schema = vec![0x10, 4, 0x11, 0, 8, 0x12, 7];
    for [from, by, to] in steps {
        schema.extend([0x13, from, by, to]);
    }
    schema.extend([0x11, 1, 1, 0x12, 0].repeat(2));
    schema.extend([0x11, 2, 2, 0x12, 1, 0x13, 0, 1, 1, 0x13, 0, 2, 1]);
    schema.extend([0x11, 3, 1, 0x12, 0, 0x14, 0, 0x1F]);
    schema
}

#[test]
fn words_are_shortest_in_the_smallest_type() {
    let fixed = |schema: &[u8]| both(schema, &[], WITNESS, 0).witness;
    let after = |length| Some(Fixed { within: 0, length });
    assert_eq!(fixed(&two_ways(false)), after(2));
    assert_eq!(fixed(&two_ways(true)), after(2));
    assert_eq!(fixed(&longest_word()), after(527));
    assert_eq!(fixed(&NESTING), None);
}

#[test]
fn types_buffers_of_every_length() {
    let events = [[OPEN, 0].repeat(64), [CLOSE, 0].repeat(64), vec![FINISH]].concat();
    for length in 0..=70 {
        let expected = match length {
            0..64 => Job::EventsRead {
                number: 20,
                place: 2 * length,
                count: length,
            },
            _ => Job::EventsRead {
                number: 0,
                place: 257,
                count: 64,
            },
        };
        assert_eq!(both(&NESTING, &events, WITNESS, length).job, expected);
    }
}

#[test]
fn files_cut_at_every_byte() {
    let schema = longest_word();
    for end in 0..schema.len() {
        assert_eq!(both(&schema[..end], &[], WITNESS, 0).schema.0, 2);
    }
    let events = [OPEN, 0, OPEN, 0, CLOSE, 0, CLOSE, 0, FINISH];
    for end in 0..events.len() {
        let job = both(&NESTING, &events[..end], WITNESS, 9).job;
        let count = (end / 2).min(2);
        assert_eq!(
            job,
            Job::EventsRead {
                number: 19,
                place: end / 2 * 2,
                count
            }
        );
    }
}

/// Type 0 by this expression, and 31 leaves of tags of their own.
fn over_leaves(text: &[u8]) -> Vec<u8> {
    let mut schema = vec![0x10, 32, 0x11, 0, 0];
    schema.extend(text);
    schema.push(0x3F);
    schema.extend((1..32).flat_map(|tag| [0x11, tag, 0, 0x3F]));
    schema.extend([0x14, 0, 0x1F]);
    schema
}

/// The same below a root, type 32, that holds each of them, so that all are used whatever the expression.
fn over_used_leaves(text: &[u8]) -> Vec<u8> {
    let mut schema = over_leaves(text);
    schema.truncate(schema.len() - 3);
    schema.extend([0x11, 0, 1, 0x12, 0]);
    schema.extend((0..32).flat_map(|by| [0x13, 0, by, 0]));
    schema.extend([0x14, 32, 0x1F]);
    schema
}

/// Number and place of type 0 by this expression, which may be wrong.
fn expression(text: &[u8]) -> (u8, usize) {
    both(&over_used_leaves(text), &[], WITNESS, 0).schema
}

#[test]
fn every_expression_of_few_commands() {
    let signs: [&[u8]; 5] = [&[0x30], &[0x31], &[0x32, 1], &[0x33], &[0x34]];
    let mut texts = vec![vec![]];
    for _ in 0..6 {
        texts = texts
            .iter()
            .flat_map(|text| signs.map(|sign| [text, sign].concat()))
            .collect();
        let taken = texts.iter().filter(|text| expression(text).0 == 0).count();
        assert!(0 < taken && taken < texts.len());
    }
}

#[test]
fn expressions_cut_at_every_byte() {
    // ((1 | 2)* (3 |))* 4
    let text = [
        0x30, 0x30, 0x32, 1, 0x33, 0x32, 2, 0x31, 0x34, 0x30, 0x32, 3, 0x33, 0x31, 0x31, 0x34,
        0x32, 4,
    ];
    let schema = over_used_leaves(&text);
    for end in 0..schema.len() {
        assert_eq!(both(&schema[..end], &[], WITNESS, 0).schema.0, 2);
    }
    assert_eq!(both(&schema, &[], WITNESS, 0).schema, (0, 0));
}

#[test]
fn uses_and_brackets_at_their_limits() {
    let uses = |count: u8| {
        let uses = (0..count).flat_map(|n| [0x32, 1 + n % 31, 0x34]);
        expression(&uses.collect::<Vec<u8>>())
    };
    assert_eq!((uses(31), uses(32)), ((0, 0), (22, 5 + 3 * 31)));
    let deep = |depth| expression(&[vec![0x30; depth], vec![0x31; depth]].concat());
    assert_eq!((deep(16), deep(17)), ((0, 0), (23, 5 + 16)));
}

#[test]
fn steps_of_expressions_at_their_limit() {
    // Each of 31 uses may follow each.
    let mut any = vec![0x30];
    any.extend((1..32).flat_map(|of| [0x32, of, 0x33]));
    any.extend([0x31, 0x34]);
    for steps in 30..35 {
        let mut schema = over_leaves(&any);
        schema.truncate(schema.len() - 3);
        let unused = schema.len();
        schema.extend([0x11, 0, 32]);
        schema.extend((0..steps.min(32)).flat_map(|to| [0x13, 0, 0, to]));
        schema.extend([0x11, 0, 0, 0x32, 1]);
        let place = schema.len();
        schema.extend([0x3F, 0x14, 0, 0x1F]);
        let expected = if steps < 32 { (24, unused) } else { (5, place) };
        assert_eq!(both(&schema, &[], WITNESS, 0).schema, expected);
    }
}

#[test]
fn expressions_of_many_bytes() {
    let parts: [&[u8]; 4] = [
        &[0x33],
        &[0x30, 0x31],
        &[0x30, 0x31, 0x34],
        &[0x30, 0x33, 0x31],
    ];
    for part in parts {
        let many = part.repeat(300_000);
        assert_eq!(expression(&many), (0, 0));
        let then = |more: &[u8]| expression(&[&many, more].concat());
        let place = 5 + many.len();
        assert_eq!(then(&[0x32, 63]), (7, place));
        assert_eq!(then(&[0x32, 64]), (4, place));
        assert_eq!(then(&[0x31]), (21, place));
    }
}

#[test]
fn slices_of_no_bytes() {
    assert_eq!(typestock::check_schema(&[], &mut []).number, 1);
    assert_eq!(
        typestock::type_document(&[], &[], &mut [], &mut []),
        typestock::Job::SchemaRefused {
            number: 1,
            place: 0
        }
    );
    let mut witness = [0; typestock::WITNESS];
    assert_eq!(
        typestock::type_document(&NESTING, &[], &mut witness, &mut []),
        typestock::Job::EventsRead {
            number: 19,
            place: 0,
            count: 0
        }
    );
    assert_eq!(typestock::openings(&[]).count(), 0);
}

#[test]
fn places_and_counts_of_many_bytes() {
    let children = 150_000;
    let mut events = [
        &[OPEN, 0][..],
        &[OPEN, 0, CLOSE, 0].repeat(children),
        &[CLOSE, 0, FINISH],
    ]
    .concat();
    let count = children + 1;
    let job = |events: &[u8], room| both(&NESTING, events, WITNESS, room).job;
    let place = events.len();
    assert_eq!(
        job(&events, count),
        Job::EventsRead {
            number: 0,
            place,
            count
        }
    );
    assert_eq!(
        job(&events, count - 1),
        Job::EventsRead {
            number: 20,
            place: place - 7,
            count: count - 1
        }
    );
    events.push(FINISH);
    assert_eq!(
        job(&events, count),
        Job::EventsRead {
            number: 11,
            place,
            count
        }
    );
    let schema = [&NESTING[..], &[0x10; 100_000]].concat();
    assert_eq!(both(&schema, &[], WITNESS, 0).schema, (3, NESTING.len()));
}

#[test]
fn levels_of_openings_past_the_limit() {
    let down = [OPEN, 7].repeat(100_000);
    both(&NESTING, &down, WITNESS, 100);
    assert_eq!(
        typestock::openings(&down)
            .last()
            .map(|opening| opening.level),
        Some(100_000)
    );
}

/// Leaves of these tags, and the ROOTs of these types; the place of the first ROOT.
fn leaves_and_roots(tags: &[u8], roots: &[u8]) -> (Vec<u8>, usize) {
    let mut schema = vec![0x10, 32];
    schema.extend(tags.iter().flat_map(|&tag| [0x11, tag, 1, 0x12, 0]));
    let place = schema.len();
    schema.extend(roots.iter().flat_map(|&root| [0x14, root]));
    schema.push(0x1F);
    (schema, place)
}

/// Each of these tags opened and closed as a whole document: the type, if it is valid.
fn roots_given(schema: &[u8], tags: u8) -> Vec<Option<u8>> {
    let given = |tag| {
        let mut types = [0; 1];
        let mut witness = [0; WITNESS];
        let events = [OPEN, tag, CLOSE, tag, FINISH];
        both(schema, &events, WITNESS, 1);
        let job = typestock::type_document(schema, &events, &mut witness, &mut types);
        let taken = typestock::Job::EventsRead {
            number: 0,
            place: 5,
            count: 1,
        };
        (job == taken).then_some(types[0])
    };
    (0..tags).map(given).collect()
}

#[test]
fn roots_at_their_limit() {
    let tags: Vec<u8> = (0..32).rev().collect();
    let number = |roots: &[u8]| {
        let (schema, place) = leaves_and_roots(&tags, roots);
        let (number, at) = both(&schema, &[], WITNESS, 0).schema;
        (number, at.saturating_sub(place))
    };
    for count in 1..=MOST_ROOTS {
        let roots: Vec<u8> = (0..count as u8).map(|n| 31 - 3 * n).collect();
        // The other leaves are not used; those that are rise in their order.
        assert_eq!(number(&roots), (24, 0));
        let schema = typestock::reduced(&leaves_and_roots(&tags, &roots).0);
        let used: Vec<u8> = roots.iter().rev().copied().collect();
        for (tag, of) in (0..).zip(roots_given(&schema.unwrap(), 32)) {
            let number = used.iter().position(|&root| root == 31 - tag);
            assert_eq!(of.map(usize::from), number);
        }
        // One more: new, given, and of a type that there is not.
        let past = 2 * count;
        let with = |more: u8| number(&[&roots[..], &[more]].concat());
        let full = count == MOST_ROOTS;
        assert_eq!(with(0), if full { (5, past) } else { (24, 0) });
        for again in [roots[0], roots[count - 1]] {
            assert_eq!(with(again), (if full { 5 } else { 6 }, past));
        }
        for unknown in [32, 63, 64, 255] {
            assert_eq!(with(unknown), (4, past));
        }
    }
    assert_eq!(number(&[]), (3, 0));
}

#[test]
fn commands_among_roots() {
    let between: [&[u8]; 13] = [
        &[NIL],
        &[0x10, 1],
        &[0x11, 0, 1],
        &[0x11, 0, 0, 0x3F],
        &[0x12, 0],
        &[0x13, 0, 0, 0],
        &[0x30],
        &[0x31],
        &[0x32, 0],
        &[0x33],
        &[0x34],
        &[0x3F],
        &[0x1F],
    ];
    for (command, after) in between
        .iter()
        .flat_map(|command| [(command, 1), (command, 8)])
    {
        let tags: Vec<u8> = (0..9).collect();
        let roots = [0, 1, 2, 3, 4, 5, 6, 7, 8];
        let (mut schema, place) = leaves_and_roots(&tags, &roots);
        let at = place + 2 * after;
        schema.splice(at..at, command.iter().copied());
        // A byte after DONE is out of order too.
        let expected = if command[0] == 0x1F { at + 1 } else { at };
        assert_eq!(both(&schema, &[], WITNESS, 0).schema, (3, expected));
    }
    let (schema, place) = leaves_and_roots(&[0, 1, 2], &[2, 0, 1]);
    for end in 0..schema.len() {
        let at = if end <= place {
            None
        } else {
            Some(place + (end - place) / 2 * 2)
        };
        let (number, found) = both(&schema[..end], &[], WITNESS, 0).schema;
        assert_eq!((number, at.unwrap_or(found)), (2, found));
    }
    assert_eq!(both(&[0x10, 1, 0x14, 0], &[], WITNESS, 0).schema, (3, 2));
}

#[test]
fn every_pair_of_roots_that_compete() {
    for (one, other) in (0..8).flat_map(|one| (0..8).map(move |other| (one, other))) {
        let mut tags: Vec<u8> = (0..8).collect();
        tags[other] = tags[one];
        for roots in [[0, 1, 2, 3, 4, 5, 6, 7], [7, 3, 1, 0, 2, 6, 5, 4]] {
            let (schema, _) = leaves_and_roots(&tags, &roots);
            let fixed = both(&schema, &[], WITNESS, 0).witness;
            let competes = one != other;
            let within = NO_PARENT;
            assert_eq!(fixed, competes.then_some(Fixed { within, length: 0 }));
            if competes {
                let mut buffer = [0xEE; WITNESS];
                typestock::check_schema(&schema, &mut buffer);
                let (one, other) = (one.min(other) as u8, one.max(other) as u8);
                assert_eq!(buffer[..6], [NO_PARENT, one, other, 0, 0, 0xEE]);
            }
        }
    }
}

#[test]
fn roots_compete_before_types() {
    // Types 1 and 2 compete in type 0. Type 3 and 4, which need not be there, have one tag.
    let mut types = vec![0x10, 4, 0x11, 0, 2, 0x12, 1, 0x13, 0, 1, 1, 0x13, 0, 2, 1];
    types.extend([0x11, 1, 1, 0x12, 0].repeat(2));
    types.extend([0x11, 2, 1, 0x12, 0].repeat(2));
    let fixed = |count: usize, roots: &[u8]| {
        let mut schema = types[..15 + 5 * (count - 1)].to_vec();
        schema.extend(roots.iter().flat_map(|&root| [0x14, root]));
        schema.push(0x1F);
        both(&schema, &[OPEN, 2, CLOSE, 2, FINISH], WITNESS, 1).witness
    };
    let length = 0;
    let in_type = Some(Fixed { within: 0, length });
    let of_roots = Some(Fixed {
        within: NO_PARENT,
        length,
    });
    assert_eq!(fixed(3, &[0]), in_type);
    assert_eq!(fixed(3, &[0, 1]), in_type);
    assert_eq!(fixed(4, &[3, 0]), in_type);
    assert_eq!(fixed(4, &[0, 1, 3]), in_type);
    assert_eq!(fixed(3, &[2, 0, 1]), of_roots);
    assert_eq!(fixed(4, &[2, 3, 0, 1]), of_roots);
    assert_eq!(fixed(5, &[0, 3, 4]), of_roots);
    assert_eq!(fixed(5, &[4, 1, 3, 0]), of_roots);
    // Unused types are looked for before.
    assert_eq!(fixed(4, &[0, 1, 2]), None);
    assert_eq!(fixed(5, &[0, 3]), None);
    assert_eq!(fixed(5, &[3, 4]), None);
}

#[test]
fn roots_without_trees() {
    // Types 0 to 7 bear no tree, of one tag or of two; type 8 bears one.
    for tags in [[0; 8], [0, 1, 0, 1, 0, 1, 0, 1]] {
        let mut types = vec![0x10, 2];
        types.extend(tags.iter().flat_map(|&tag| [0x11, tag, 2, 0x12, 1]));
        types.extend([0x11, 1, 1, 0x12, 0]);
        for bearing in 0..=8 {
            let roots = (0..8).map(|n| [0x14, if n == bearing { 8 } else { n }]);
            let mut schema = types.clone();
            schema.extend(roots.flatten());
            schema.push(0x1F);
            let number = both(&schema, &[], WITNESS, 0).schema;
            assert_eq!(number, if bearing == 8 { (8, 0) } else { (24, 2) });
            if bearing < 8 {
                let schema = typestock::reduced(&schema).unwrap();
                assert_eq!(roots_given(&schema, 2), [None, Some(0)]);
            }
        }
    }
}
