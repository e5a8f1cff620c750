// Buffers of every length, damaged files and small threads: which bytes are written, and that every answer is one of document 01's or 02's
// (the wrapper tests that of each).
mod common;
use common::{
    checked, expected, hex, read, refused, typed, written, LISTS, R, R_BY_EXPRESSIONS, R_EVENTS,
    STOCK, WALL, WALL_EVENTS,
};
use typestock::{check_schema, openings, witness, Job, SchemaAnswer, Witness, WITNESS};

// The steps of a content automaton whose types 2 and 3 lead on from the states 30 and 31 alone. Type 1 enters two cycles, of the states 1 to
// 15 and 16 to 31, and goes round them. Both are at their ends, 15 and 31, for the first time after 240 types; type 4 then brings both into
// the first cycle, to 15 and 1, 14 types on they are at 14 and 15, type 5 brings both into the second, to 16 and 17, and 14 types on they are
// at 30 and 31. So no word of fewer than 270 types comes to both.
fn long_way() -> Vec<[u8; 3]> {
    let mut steps = vec![[0, 1, 1], [0, 1, 16], [30, 2, 1], [31, 3, 1]];
    steps.extend([[15, 4, 15], [31, 4, 1], [14, 5, 16], [15, 5, 17]]);
    steps.extend((1..=15).map(|p| [p, 1, if p == 15 { 1 } else { p + 1 }]));
    steps.extend((16..=31).map(|p| [p, 1, if p == 31 { 16 } else { p + 1 }]));
    steps
}

// The schema: types 2 and 3 have one tag, and types 1 to 5 no children.
fn long_witness() -> Vec<u8> {
    let mut schema = hex("10 05 11 00 20 12 01");
    for [from, by, to] in long_way() {
        schema.extend([0x13, from, by, to]);
    }
    for tag in [1, 2, 2, 3, 4] {
        schema.extend([0x11, tag, 1, 0x12, 0]);
    }
    schema.extend([0x14, 0, 0x1f]);
    schema
}

#[test]
fn a_word_of_270_types() {
    let (answer, bytes) = checked(&long_witness(), WITNESS);
    let refused = SchemaAnswer {
        number: 9,
        place: 0,
    };
    assert_eq!(answer, refused);
    let found = witness(&bytes).unwrap();
    assert_eq!((found.within, found.one, found.other), (Some(0), 2, 3));
    assert_eq!(found.word.len(), 270);
    let mut states = vec![0];
    for &a in found.word {
        let steps = long_way();
        let on = steps.iter().filter(|s| s[1] == a && states.contains(&s[0]));
        states = on.map(|s| s[2]).collect();
    }
    assert!(states.contains(&30) && states.contains(&31));
}

#[test]
fn witness_buffers_of_every_length() {
    let competing = long_witness();
    let (_, expected) = checked(&competing, WITNESS);
    for room in 0..=WITNESS + 300 {
        let long = room >= WITNESS;
        let (answer, found) = checked(&competing, room);
        assert_eq!(answer.number, if long { 9 } else { 1 });
        assert_eq!(found, if long { &expected[..] } else { &[] });
        let (job, found, types) = typed(&competing, &hex(R_EVENTS), room, 8);
        assert_eq!(job, refused(if long { 9 } else { 1 }, 0));
        assert_eq!(found, if long { &expected[..] } else { &[] });
        assert_eq!(types, []);
        let (answer, _) = checked(&hex(R), room);
        assert_eq!(answer.number, if long { 0 } else { 1 });
    }
}

// The lists with all four types as roots, of which the last two compete: the witness has five bytes.
#[test]
fn witness_buffers_of_competing_roots() {
    let competing = hex(&format!("{LISTS} 14 03 14 00 14 02 14 01 1F"));
    for room in 0..=WITNESS + 40 {
        let (number, expected) = if room < WITNESS {
            (1, vec![])
        } else {
            (9, hex("FF 02 03 00 00"))
        };
        let (answer, found) = checked(&competing, room);
        assert_eq!((answer.number, answer.place), (number, 0));
        assert_eq!(found, expected);
        let (job, found, types) = typed(&competing, &hex(STOCK), room, 8);
        assert_eq!((job, found), (refused(number, 0), expected));
        assert_eq!(types, []);
    }
}

// Of a schema and a document: where its openings are, and their types.
type Typed = (&'static str, &'static str, &'static [usize], &'static [u8]);

const DOCUMENTS: [Typed; 2] = [
    (R, R_EVENTS, &[0, 2, 6, 10], &[0, 1, 2, 3]),
    (WALL, WALL_EVENTS, &[0, 2, 6, 8, 12], &[0, 1, 1, 3, 4]),
];

#[test]
fn types_buffers_of_every_length() {
    for (schema, events, places, given) in DOCUMENTS {
        let (schema, events) = (hex(schema), hex(events));
        for room in 0..=40 {
            let (job, _, types) = typed(&schema, &events, WITNESS, room);
            let expected = match places.get(room) {
                Some(&place) => read(20, place, room),
                None => read(0, events.len(), given.len()),
            };
            assert_eq!(job, expected);
            assert_eq!(types, given[..room.min(given.len())]);
        }
    }
}

#[test]
fn no_bytes() {
    assert_eq!(checked(&[], 0).0.number, 1);
    assert_eq!(typed(&[], &[], 0, 0).0, refused(1, 0));
    assert_eq!(typed(&[], &[], WITNESS, 0).0, refused(2, 0));
    assert_eq!(typed(&hex(R), &[], WITNESS, 0).0, read(19, 0, 0));
    assert_eq!(openings(&[]).next(), None);
}

#[test]
fn one_file_as_both() {
    let r = hex(R);
    assert_eq!(typed(&r, &r, WITNESS, 4).0, read(19, 0, 0));
}

// The bytes of a command or an event, with its operands.
fn size(code: u8) -> usize {
    match code {
        0x13 => 4,
        0x11 => 3,
        0x10 | 0x12 | 0x14 | 0x21..=0x23 | 0x32 => 2,
        _ => 1,
    }
}

// Where the last command or event of a file cut to the length begins, if its operands are cut off; else the length.
fn cut_at(file: &[u8], length: usize) -> usize {
    let mut at = 0;
    while at < length && at + size(file[at]) <= length {
        at += size(file[at]);
    }
    at
}

#[test]
fn files_cut_short() {
    let lists = hex(&format!("{LISTS} 14 01 14 00 1F"));
    for schema in [hex(R), hex(R_BY_EXPRESSIONS), lists, hex(WALL)] {
        for length in 0..schema.len() {
            let expected = SchemaAnswer {
                number: 2,
                place: cut_at(&schema, length),
            };
            assert_eq!(checked(&schema[..length], WITNESS).0, expected);
        }
    }
    for (schema, events, places, given) in DOCUMENTS {
        let (schema, events) = (hex(schema), hex(events));
        for length in 0..events.len() {
            let cut = &events[..length];
            let count = places.iter().filter(|&&p| p + 2 <= length).count();
            let (job, _, types) = typed(&schema, cut, WITNESS, given.len());
            assert_eq!(job, read(19, cut_at(&events, length), count));
            assert_eq!(types, given[..count]);
            assert_eq!(openings(cut).count(), count);
        }
    }
}

// Each byte of a schema file changed to each value: both calls agree on it.
fn schema_byte_changed(schema: &[u8], events: &[u8]) {
    for place in 0..schema.len() {
        for value in 0..=255 {
            let mut damaged = schema.to_vec();
            damaged[place] = value;
            let (answer, found) = checked(&damaged, WITNESS);
            let (job, same, _) = typed(&damaged, events, WITNESS, 4);
            assert_eq!(found, same);
            match job {
                Job::SchemaRefused { number, place } => {
                    assert_eq!(answer, SchemaAnswer { number, place })
                }
                Job::EventsRead { .. } => assert_eq!(answer.number, 0),
            }
        }
    }
}

// So of R, by states and by expressions, of a schema with three roots and of one with a nillable type; of each byte of the events, no more is counted
// than there are openings.
#[test]
fn one_byte_changed() {
    schema_byte_changed(&hex(R_BY_EXPRESSIONS), &hex(R_EVENTS));
    let lists = hex(&format!("{LISTS} 14 01 14 00 14 03 1F"));
    schema_byte_changed(&lists, &hex(STOCK));
    for (schema, events, _, given) in DOCUMENTS {
        let (schema, events) = (hex(schema), hex(events));
        schema_byte_changed(&schema, &events);
        for (place, value) in (0..events.len()).flat_map(|p| (0..=255).map(move |v| (p, v))) {
            let mut damaged = events.clone();
            damaged[place] = value;
            let (job, _, _) = typed(&schema, &damaged, WITNESS, given.len());
            let Job::EventsRead { count, .. } = job else {
                panic!("the schema is refused");
            };
            assert!(count <= openings(&damaged).count());
        }
    }
}

// No level is below 0, an opening needs its tag, and after the last there is none.
#[test]
fn openings_of_any_bytes() {
    let pairs = |text: &str| -> Vec<(usize, u8)> {
        openings(&hex(text)).map(|o| (o.level, o.tag)).collect()
    };
    assert_eq!(
        pairs("22 00 22 00 21 FF 2F 21 07 22 00 21 21"),
        [(1, 255), (2, 7), (2, 33)]
    );
    assert_eq!(
        pairs("22 00 23 FF 2F 23 07 22 00 21 23 23"),
        [(1, 255), (2, 7), (2, 35)]
    );
    assert_eq!(pairs("21 00 21"), [(1, 0)]);
    assert_eq!(pairs("21 00 00 21 01"), [(1, 0)]);
    let file = hex("21 00 22 00");
    let mut all = openings(&file);
    assert!(all.next().is_some());
    assert_eq!((all.next(), all.next()), (None, None));
    assert_eq!(openings(&[0x21; 20_000]).last().unwrap().level, 10_000);
}

#[test]
fn witnesses_read_off() {
    let expected = Witness {
        within: Some(3),
        one: 1,
        other: 63,
        word: &[7; 258],
    };
    let mut bytes = vec![3, 1, 63, 2, 1];
    bytes.extend([7; 258]);
    assert_eq!(witness(&bytes), Some(expected));
    bytes.extend([200; 40]);
    assert_eq!(witness(&bytes), Some(expected));
    assert_eq!(witness(&bytes[..262]), None);
    for (place, value) in [
        (0, 64),
        (1, 63),
        (1, 64),
        (2, 1),
        (2, 64),
        (3, 255),
        (4, 2),
        (262, 64),
    ] {
        let mut none = bytes.clone();
        none[place] = value;
        assert_eq!(witness(&none), None);
    }
    let of_roots = Witness {
        within: None,
        one: 0,
        other: 63,
        word: &[],
    };
    assert_eq!(witness(&[255, 0, 63, 0, 0]), Some(of_roots));
    assert_eq!(witness(&[255, 0, 63, 0, 0, 255]), Some(of_roots));
    for none in [
        [255, 0, 63, 1, 0],
        [255, 0, 63, 0, 1],
        [255, 63, 0, 0, 0],
        [255, 0, 0, 0, 0],
        [255, 0, 64, 0, 0],
        [255, 254, 255, 0, 0],
        [254, 0, 63, 0, 0],
    ] {
        let mut bytes = none.to_vec();
        bytes.resize(1000, 0);
        assert_eq!(witness(&bytes), None);
    }
    let longest = |n: u16| {
        let mut bytes = vec![0, 1, 2];
        bytes.extend(n.to_le_bytes());
        bytes.resize(1000, 0);
        witness(&bytes).map(|w| w.word.len())
    };
    assert_eq!((longest(527), longest(528)), (Some(527), None));
    assert_eq!(witness(&[]), None);
    assert_eq!(witness(&[0, 1, 2, 0]), None);
}

// One type of itself, in brackets 16 deep around 31 uses.
fn deepest() -> Vec<u8> {
    let open = "30 ".repeat(16);
    let uses = "32 00 34 ".repeat(31);
    let close = "31 ".repeat(16);
    hex(&format!("10 01 11 00 00 {open} {uses} {close} 3F 14 00 1F"))
}

// Calls at once, each on a stack of 128 KB.
#[test]
fn small_threads() {
    let work = || {
        let (competing, deepest) = (long_witness(), deepest());
        let roots = hex(&format!("{LISTS} 14 02 14 00 14 03 14 01 1F"));
        let stored = hex(&format!("{LISTS} 14 01 1F"));
        let (wall, wall_events) = (hex(WALL), hex(WALL_EVENTS));
        let (schema, events) = (hex(R), hex(R_EVENTS));
        for _ in 0..200 {
            let mut buffer = vec![0; WITNESS];
            assert_eq!(check_schema(&competing, &mut buffer).number, 9);
            assert_eq!(check_schema(&deepest, &mut buffer).number, 0);
            assert_eq!(check_schema(&roots, &mut buffer).number, 9);
            assert_eq!(check_schema(&stored, &mut buffer).number, 24);
            assert_eq!(written(&stored, 100).0, Ok(19));
            assert_eq!(written(&deepest, deepest.len()).0, Ok(deepest.len()));
            let (job, _, types) = typed(&schema, &events, WITNESS, 4);
            assert_eq!((job, types), (read(0, 17, 4), vec![0, 1, 2, 3]));
            let (job, _, types) = typed(&wall, &wall_events, WITNESS, 5);
            assert_eq!((job, types), (read(0, 21, 5), vec![0, 1, 1, 3, 4]));
            let told = expected(&wall, &wall_events[..2], WITNESS).0.unwrap();
            assert_eq!((told.inside().len(), told.openings().len()), (1, 2));
        }
    };
    let threads: Vec<_> = (0..8)
        .map(|_| {
            let small = std::thread::Builder::new().stack_size(128 * 1024);
            small.spawn(work).unwrap()
        })
        .collect();
    for thread in threads {
        thread.join().unwrap();
    }
}
