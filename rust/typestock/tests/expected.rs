// What would have been taken where an event file is refused: samples by hand, and each event against what is told of it.
mod common;
use common::{expected, hex, read, typed, LISTS, R, R_EVENTS, STOCK, WALL, WALL_EVENTS};
use typestock::event::{CLOSE, FINISH, OPEN, OPEN_NIL};
use typestock::{
    Expected, ExpectedOpening, Job, Refusal, SchemaRefused, LEVELS, OPENINGS, WITNESS,
};

// Elements of one tag inside each other, of types 0 and 1 in turn.
const NESTED: &str = "10 01  11 00 01 13 00 01 00 12 00  11 00 01 13 00 00 00 12 00  14 00 1F";

fn told(schema: &[u8], events: &[u8]) -> Expected {
    let (told, witness) = expected(schema, events, WITNESS);
    assert_eq!(witness, []);
    told.expect("the schema is accepted")
}

fn plain(tag: u8) -> ExpectedOpening {
    ExpectedOpening { tag, nil: false }
}

fn nil(tag: u8) -> ExpectedOpening {
    ExpectedOpening { tag, nil: true }
}

// What is told: the types of the open elements, the openings, whether a closing, whether a finish.
type Taken<'a> = (&'a [u8], &'a [ExpectedOpening], bool, bool);

// The events are refused with the number at the place, and that would have been taken.
fn tells(schema: &str, events: &str, number: u8, place: usize, taken: Taken) {
    let told = told(&hex(schema), &hex(events));
    assert_eq!(told.refusal(), Some(Refusal { number, place }));
    taken_is(&told, taken);
}

fn taken_is(told: &Expected, (types, openings, closes, finishes): Taken) {
    assert_eq!(told.inside().collect::<Vec<_>>(), types);
    assert_eq!(told.openings().collect::<Vec<_>>(), openings);
    assert_eq!((told.closes(), told.finishes()), (closes, finishes));
}

const NOTHING: Taken = (&[], &[], false, false);

#[test]
fn r_second_opening_of_tag_2() {
    let taken = (&[0][..], &[plain(1)][..], true, false);
    tells(R, "21 00 21 02 22 02 21 02", 13, 6, taken);
    // whichever event is refused there
    for (event, number) in [
        ("21 03", 12),
        ("23 01", 13),
        ("22 01", 16),
        ("2F", 18),
        ("24", 19),
    ] {
        let events = format!("21 00 21 02 22 02 {event}");
        tells(R, &events, number, 6, taken);
    }
}

// R's document up to each of its events.
#[test]
fn r_cut_short() {
    let boots = [plain(1), plain(2)];
    let after: [Taken; 9] = [
        (&[], &[plain(0)], false, false),
        (&[0], &boots, false, false),
        (&[0, 1], &[], true, false),
        (&[0], &boots, false, false),
        (&[0, 2], &[], true, false),
        (&[0], &[plain(1)], true, false),
        (&[0, 3], &[], true, false),
        (&[0], &[plain(1)], true, false),
        (&[], &[], false, true),
    ];
    let (schema, events) = (hex(R), hex(R_EVENTS));
    for cut in 0..events.len() {
        let told = told(&schema, &events[..cut]);
        let place = cut - cut % 2;
        assert_eq!(told.refusal(), Some(Refusal { number: 19, place }));
        taken_is(&told, after[cut / 2]);
    }
}

#[test]
fn after_a_finish() {
    let (schema, whole) = (hex(R), hex(R_EVENTS));
    let taken = told(&schema, &whole);
    assert_eq!(taken.refusal(), None);
    taken_is(&taken, NOTHING);
    for (event, number) in [
        ("21 00", 11),
        ("22 00", 11),
        ("2F", 11),
        ("00", 19),
        ("21", 19),
    ] {
        tells(R, &format!("{R_EVENTS} {event}"), number, 17, NOTHING);
    }
}

#[test]
fn roots() {
    let schema = format!("{LISTS} 14 01 14 00 1F");
    let both = [plain(0), plain(1)];
    tells(&schema, "", 19, 0, (&[], &both, false, false));
    tells(&schema, "21 02", 13, 0, (&[], &both, false, false));
    tells(
        &schema,
        "21 01 21 00",
        13,
        2,
        (&[1], &[plain(2)], true, false),
    );
    tells(
        &schema,
        "21 01 21 02 2F",
        18,
        4,
        (&[1, 3], &[], true, false),
    );
    tells(&schema, "21 01 22 01 21 00", 13, 4, (&[], &[], false, true));
}

#[test]
fn a_rack_empty_on_purpose() {
    let racks = [plain(1), nil(1)];
    tells(WALL, "23 00", 13, 0, (&[], &[plain(0)], false, false));
    tells(WALL, "21 00 21 00", 13, 2, (&[0], &racks, true, false));
    let boots = [plain(2), plain(3)];
    tells(
        WALL,
        "21 00 21 01 22 01",
        17,
        4,
        (&[0, 1], &boots, false, false),
    );
    tells(
        WALL,
        "21 00 23 01 21 03",
        13,
        4,
        (&[0, 1], &[], true, false),
    );
    // the one type has no tree that is opened plainly
    let schema = "10 01 11 00 01 15 14 00 1F";
    tells(schema, "21 00", 13, 0, (&[], &[nil(0)], false, false));
}

// The types of so many elements of NESTED.
fn in_turn(deep: usize) -> Vec<u8> {
    [0, 1].into_iter().cycle().take(deep).collect()
}

#[test]
fn elements_62_to_64_deep() {
    for (deep, number) in [(62, 18), (63, 18), (64, 18), (64, 14)] {
        let last = if number == 14 { "21 00" } else { "2F" };
        let events = format!("{} {last}", "21 00 ".repeat(deep));
        let listed: &[ExpectedOpening] = if deep < LEVELS { &[plain(0)] } else { &[] };
        tells(
            NESTED,
            &events,
            number,
            2 * deep,
            (&in_turn(deep), listed, true, false),
        );
    }
}

// On the way up from 64 elements, of which the 64th has type 1. The wrapper panics if an entry past the open elements is not 0.
#[test]
fn elements_closed_from_64_up() {
    for closed in 1..LEVELS {
        let events = format!("{} {} 2F", "21 00 ".repeat(64), "22 00 ".repeat(closed));
        let types = in_turn(LEVELS - closed);
        let taken = (&types[..], &[plain(0)][..], true, false);
        tells(NESTED, &events, 18, 2 * (LEVELS + closed), taken);
    }
}

// 32 types, each of a tag of its own and nillable; type 0 has children of all.
fn every_opening() -> Vec<u8> {
    let steps: String = (0..32).map(|a| format!("13 00 {a:02X} 00 ")).collect();
    let types: String = (1..32)
        .map(|a| format!("11 {a:02X} 01 12 00 15 "))
        .collect();
    hex(&format!("10 20 11 00 01 12 00 15 {steps} {types} 14 00 1F"))
}

#[test]
fn openings_64() {
    let schema = every_opening();
    let all: Vec<_> = (0..32).flat_map(|tag| [plain(tag), nil(tag)]).collect();
    assert_eq!(all.len(), OPENINGS);
    taken_is(&told(&schema, &hex("21 00")), (&[0], &all, true, false));
    let root = [plain(0), nil(0)];
    taken_is(&told(&schema, &[]), (&[], &root, false, false));
    taken_is(
        &told(&schema, &hex("21 00 23 1F")),
        (&[0, 31], &[], true, false),
    );
}

#[test]
fn refused_schemas() {
    let events = hex(R_EVENTS);
    for (schema, number, place, witness) in [
        ("", 2, 0, ""),
        ("10 21", 4, 0, ""),
        ("10 01 11 00 00 31", 21, 5, ""),
        ("10 01  11 00 02 13 00 00 01 12 01  14 00 1F", 8, 0, ""),
        (&format!("{LISTS} 14 00 1F"), 24, 11, ""),
        (
            &format!("{LISTS} 14 03 14 00 14 02 14 01 1F"),
            9,
            0,
            "FF 02 03 00 00",
        ),
    ] {
        let (told, found) = expected(&hex(schema), &events, WITNESS);
        assert_eq!(told, Err(SchemaRefused { number, place }));
        assert_eq!(found, hex(witness));
    }
}

#[test]
fn witness_buffers_of_every_length() {
    let (schema, events) = (hex(R), hex(R_EVENTS));
    for room in 0..=WITNESS + 40 {
        let (told, witness) = expected(&schema, &events, room);
        assert_eq!(witness, []);
        let number = told.map_or_else(|r| r.number, |_| 0);
        assert_eq!(number, u8::from(room < WITNESS));
    }
}

// The event file's number and place from the typing call, with room for every type.
fn answered(schema: &[u8], events: &[u8]) -> (u8, usize) {
    match typed(schema, events, WITNESS, events.len() / 2).0 {
        Job::EventsRead { number, place, .. } => (number, place),
        Job::SchemaRefused { .. } => panic!("the schema is refused"),
    }
}

// Both calls give one number and one place.
fn agreed(schema: &[u8], events: &[u8]) -> Expected {
    let told = told(schema, events);
    let (number, place) = answered(schema, events);
    let refusal = (number > 0).then_some(Refusal { number, place });
    assert_eq!(told.refusal(), refusal);
    told
}

// The types of the elements that are open after events that are taken, of those given to the openings.
fn open_after(events: &[u8], types: Vec<u8>) -> Vec<u8> {
    let (mut open, mut types) = (vec![], types.into_iter());
    for event in events.chunks(2) {
        match event[0] {
            OPEN | OPEN_NIL => open.extend(types.next()),
            CLOSE => open.truncate(open.len() - 1),
            _ => {}
        }
    }
    open
}

// After events that are taken, the typing call takes an event exactly if it is told, and the elements that are open have the types given to them.
fn tells_exactly(schema: &[u8], events: &[u8]) {
    let told = agreed(schema, events);
    let takes = |event: &[u8]| {
        let (number, place) = answered(schema, &[events, event].concat());
        number == 0 || place > events.len()
    };
    let opened = (0..=255)
        .flat_map(|tag| [plain(tag), nil(tag)])
        .filter(|o| takes(&[if o.nil { OPEN_NIL } else { OPEN }, o.tag]));
    assert!(told.openings().eq(opened));
    assert_eq!(told.closes(), (0..=255).any(|tag| takes(&[CLOSE, tag])));
    assert_eq!(told.finishes(), takes(&[FINISH]));
    let (_, _, types) = typed(schema, events, WITNESS, events.len() / 2);
    assert!(told.inside().eq(open_after(events, types)));
}

// Schemas with a document of each.
fn documents() -> Vec<(Vec<u8>, Vec<u8>)> {
    let lists = format!("{LISTS} 14 01 14 00 1F");
    let mut both = [(R, R_EVENTS), (WALL, WALL_EVENTS), (&lists, STOCK)]
        .map(|(schema, events)| (hex(schema), hex(events)))
        .to_vec();
    both.push((
        every_opening(),
        hex("21 00 23 1F 22 1F 21 02 22 02 22 00 2F"),
    ));
    both
}

#[test]
fn events_taken_exactly_if_told() {
    for (schema, events) in documents() {
        for taken in (0..events.len()).step_by(2).chain([events.len()]) {
            tells_exactly(&schema, &events[..taken]);
        }
    }
    for deep in 62..=64 {
        tells_exactly(&hex(NESTED), &[OPEN, 0].repeat(deep));
    }
}

#[test]
fn one_byte_changed() {
    for (schema, events) in documents() {
        for (place, value) in (0..events.len()).flat_map(|p| (0..=255).map(move |v| (p, v))) {
            let mut damaged = events.clone();
            damaged[place] = value;
            agreed(&schema, &damaged);
        }
    }
}

// The typing call has no room for a type; this one gives none out.
#[test]
fn without_20() {
    let (schema, events) = (hex(R), hex(R_EVENTS));
    assert_eq!(typed(&schema, &events, WITNESS, 0).0, read(20, 0, 0));
    assert_eq!(told(&schema, &events).refusal(), None);
}

#[test]
fn no_bytes() {
    let refused = |number| Err(SchemaRefused { number, place: 0 });
    assert_eq!(expected(&[], &[], 0).0, refused(1));
    assert_eq!(expected(&[], &[], WITNESS).0, refused(2));
    tells(R, "", 19, 0, (&[], &[plain(0)], false, false));
}
