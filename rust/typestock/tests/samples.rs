// Document 01's "Samples from the boot wall", schemas written as expressions, schemas with several roots, elements that are nil, and files written
// by the names of their first bytes. Where a sample names elements a, b, c their tags are 1, 2, 3; the root's is 0.
mod common;
use common::{
    checked, hex, read, refused, typed, LISTS, R, R_BY_EXPRESSIONS, R_EVENTS, STOCK, WALL,
    WALL_EVENTS,
};
use typestock::{command, event, openings, witness, Opening, SchemaAnswer, Witness, WITNESS};

// The schema gets the number at the place, with the witness, from both calls.
fn schema_gets(schema: &str, number: u8, place: usize, expected: &str) {
    let schema = hex(schema);
    let expected = hex(expected);
    let (answer, found) = checked(&schema, WITNESS);
    assert_eq!(answer, SchemaAnswer { number, place });
    assert_eq!(found, expected);
    if number > 0 {
        let (job, found, _) = typed(&schema, &hex(R_EVENTS), WITNESS, 100);
        assert_eq!(job, refused(number, place));
        assert_eq!(found, expected);
    }
}

// The schema is accepted, and the events get the number at the place, with the types.
fn events_get(schema: &str, events: &str, number: u8, place: usize, types: &[u8]) {
    schema_gets(schema, 0, 0, "");
    let (job, _, found) = typed(&hex(schema), &hex(events), WITNESS, 100);
    assert_eq!(job, read(number, place, types.len()));
    assert_eq!(found, types);
}

fn levels_and_tags(events: &str) -> Vec<(usize, u8)> {
    openings(&hex(events)).map(|o| (o.level, o.tag)).collect()
}

#[test]
fn r() {
    events_get(R, R_EVENTS, 0, 17, &[0, 1, 2, 3]);
    assert_eq!(levels_and_tags(R_EVENTS), [(1, 0), (2, 1), (2, 2), (2, 1)]);
}

#[test]
fn r_root_closed_with_no_child() {
    events_get(R, "21 00 22 00", 17, 2, &[0]);
}

#[test]
fn r_second_opening_of_tag_2() {
    events_get(R, "21 00 21 02 22 02 21 02", 13, 6, &[0, 2]);
}

const CHOICE: &str = "10 04  11 00 02 12 01 13 00 01 01 13 00 02 01  11 01 02 12 01 13 00 03 01  11 01 02 12 01 13 00 04 01  11 02 01 12 00";

#[test]
fn a_gives_b1_or_b2() {
    let schema = format!("{CHOICE} 11 03 01 12 00 14 00 1F");
    schema_gets(&schema, 9, 0, "00 01 02 00 00");
    let mut buffer = [0xff; WITNESS];
    typestock::check_schema(&hex(&schema), &mut buffer);
    let expected = Witness {
        within: Some(0),
        one: 1,
        other: 2,
        word: &[],
    };
    assert_eq!(witness(&buffer), Some(expected));
}

#[test]
fn d_without_an_accepting_state() {
    // b2, type 2, at 24, and d are not used
    schema_gets(&format!("{CHOICE} 11 03 01 14 00 1F"), 24, 24, "");
}

#[test]
fn two_ways_by_one_type() {
    schema_gets(
        "10 03  11 00 04 13 00 01 01 13 00 01 02 13 01 02 03 13 02 03 03 12 03  11 01 01 12 00  11 02 01 12 00  11 02 01 12 00  14 00 1F",
        9,
        0,
        "00 02 03 01 00 01",
    );
}

#[test]
fn a1_then_a2_or_b1() {
    schema_gets(
        "10 03  11 00 03 12 02 13 00 01 01 13 01 02 02 13 01 03 02  11 01 01 12 00  11 01 01 12 00  11 02 01 12 00  14 00 1F",
        0,
        0,
        "",
    );
}

#[test]
fn last_but_one_is_a() {
    events_get(
        "10 03  11 00 03 12 02 13 00 01 00 13 00 02 00 13 00 01 01 13 01 01 02 13 01 02 02  11 01 01 12 00  11 02 01 12 00  14 00 1F",
        "21 00 21 01 22 01 22 00",
        17,
        6,
        &[0, 1],
    );
}

#[test]
fn a_again_near_the_end() {
    // types 1 to 4: a1, b1, c1, a2
    events_get(
        "10 04  11 00 05 13 00 01 01 13 00 02 02 13 01 02 02 13 02 02 02 13 02 03 02 13 02 04 03 13 03 03 04 12 04
         11 01 01 12 00  11 02 01 12 00  11 03 01 12 00  11 01 01 12 00  14 00 1F",
        "21 00  21 02 22 02 21 02 22 02 21 03 22 03 21 02 22 02 21 01 22 01 21 03 22 03  22 00 2F",
        0,
        29,
        &[0, 2, 2, 3, 2, 4, 3],
    );
}

#[test]
fn root_bears_no_tree() {
    schema_gets("10 01  11 00 02 13 00 00 01 12 01  14 00 1F", 8, 0, "");
}

const NESTED: &str = "10 01  11 00 01 13 00 00 00 12 00  14 00 1F";

#[test]
fn levels_64_and_the_next() {
    let open = "21 00 ".repeat(64);
    let close = "22 00 ".repeat(64);
    events_get(NESTED, &format!("{open} 21 00"), 14, 128, &[0; 64]);
    events_get(NESTED, &format!("{open} {close} 2F"), 0, 257, &[0; 64]);
    let deep: Vec<Opening> = openings(&hex(&open)).collect();
    let expected: Vec<Opening> = (1..=64).map(|level| Opening { level, tag: 0 }).collect();
    assert_eq!(deep, expected);
}

#[test]
fn witness_buffers_of_531_and_532_bytes() {
    let short = SchemaAnswer {
        number: 1,
        place: 0,
    };
    let accepted = SchemaAnswer {
        number: 0,
        place: 0,
    };
    assert_eq!(checked(&hex(R), 531).0, short);
    assert_eq!(checked(&hex(R), 532).0, accepted);
    assert_eq!(typed(&hex(R), &hex(R_EVENTS), 531, 4).0, refused(1, 0));
    assert_eq!(typed(&hex(R), &hex(R_EVENTS), 532, 4).0, read(0, 17, 4));
}

#[test]
fn tag_counts() {
    schema_gets("10 20", 2, 2, "");
    schema_gets("10 21", 4, 0, "");
}

#[test]
fn r_by_expressions() {
    events_get(R_BY_EXPRESSIONS, R_EVENTS, 0, 17, &[0, 1, 2, 3]);
    events_get(R_BY_EXPRESSIONS, "21 00 22 00", 17, 2, &[0]);
    events_get(R_BY_EXPRESSIONS, "21 00 21 02 22 02 21 02", 13, 6, &[0, 2]);
}

// a? (b | c)*
#[test]
fn a_or_none_then_b_and_c() {
    let schema = "10 04  11 00 00 30 32 01 33 31 30 32 02 33 32 03 31 34 3F  11 01 00 3F  11 02 00 3F  11 03 00 3F  14 00 1F";
    events_get(schema, "21 00 22 00 2F", 0, 5, &[0]);
    events_get(
        schema,
        "21 00  21 01 22 01 21 02 22 02 21 03 22 03 21 02 22 02  22 00 2F",
        0,
        21,
        &[0, 1, 2, 3, 2],
    );
    events_get(schema, "21 00  21 02 22 02 21 01", 13, 6, &[0, 2]);
    events_get(schema, "21 00  21 01 22 01 21 01", 13, 6, &[0, 1]);
}

// Content of the one type, from place 5 on, up to its 3F; then ROOT and DONE.
fn content_gets(content: &str, number: u8, place: usize) {
    schema_gets(
        &format!("10 01 11 00 00 {content} 3F 14 00 1F"),
        number,
        place,
        "",
    );
}

#[test]
fn commands_that_cannot_follow() {
    content_gets("", 0, 0);
    content_gets("33", 0, 0);
    content_gets("30 31 34", 0, 0);
    content_gets("31", 21, 5);
    content_gets("34", 21, 5);
    content_gets("32 00 34 34", 21, 8);
    content_gets("30 34 31", 21, 6);
    content_gets("32 00 33 34", 21, 8);
    content_gets("30 32 00", 21, 8);
    content_gets("12 00", 3, 5);
    content_gets("32 40", 4, 5);
    content_gets("32 01", 7, 5);
    content_gets("3F 30 31", 3, 6);
}

#[test]
fn uses_31_and_32() {
    let uses = "32 00 34 ".repeat(31);
    content_gets(&uses, 0, 0);
    content_gets(&format!("{uses} 32 00"), 22, 98);
    content_gets(&format!("{uses} 32 40"), 4, 98);
}

#[test]
fn brackets_16_and_17() {
    let nested = |n: usize| format!("{} {}", "30 ".repeat(n), "31 ".repeat(n));
    content_gets(&nested(16), 0, 0);
    content_gets(&nested(17), 23, 21);
}

// 31 uses, each repeated, have 31 steps from state 0 and 496 from the uses: two such types have 1,054.
#[test]
fn steps_of_expressions() {
    let content = format!("{} 3F", "32 00 34 ".repeat(31));
    let types = format!("10 01 11 00 00 {content} 11 00 00 {content}");
    schema_gets(&format!("{types} 14 00 1F"), 5, 195, "");
}

// The ROOTs of these types, and DONE.
fn roots(types: &[u8]) -> String {
    let roots: String = types.iter().map(|a| format!("14 {a:02X} ")).collect();
    format!("{roots} 1F")
}

#[test]
fn price_lists_and_stock_lists() {
    for both in [[0, 1], [1, 0]] {
        let schema = format!("{LISTS} {}", roots(&both));
        let prices = "21 00 21 02 22 02 21 02 22 02 22 00 2F";
        events_get(&schema, prices, 0, 13, &[0, 2, 2]);
        events_get(&schema, STOCK, 0, 13, &[1, 3, 3]);
        events_get(&schema, "21 00 22 00 21 01", 13, 4, &[0]);
        events_get(&schema, "21 00 21 01", 13, 2, &[0]);
        events_get(&schema, "21 02", 13, 0, &[]);
    }
    // with one root the types of the other kind of list are not used
    schema_gets(&format!("{LISTS} 14 00 1F"), 24, 11, "");
    schema_gets(&format!("{LISTS} 14 01 1F"), 24, 2, "");
}

#[test]
fn price_lists_by_expressions() {
    let schema = "10 03  11 00 00 32 02 34 3F  11 01 00 32 03 34 3F  11 02 00 3F  11 02 00 3F  14 01 14 00 1F";
    events_get(schema, STOCK, 0, 13, &[1, 3, 3]);
    events_get(schema, "21 00 22 00 2F", 0, 5, &[0]);
}

#[test]
fn roots_of_one_tag() {
    // all four types are roots, of which the two articles compete
    for all in [[0, 1, 2, 3], [3, 1, 0, 2]] {
        let schema = format!("{LISTS} {}", roots(&all));
        schema_gets(&schema, 9, 0, "FF 02 03 00 00");
        let mut buffer = [0xff; WITNESS];
        typestock::check_schema(&hex(&schema), &mut buffer);
        let expected = Witness {
            within: None,
            one: 2,
            other: 3,
            word: &[],
        };
        assert_eq!(witness(&buffer), Some(expected));
    }
    schema_gets(&format!("{LISTS} {}", roots(&[0, 3, 1])), 0, 0, "");
}

// Type 0 gives 1 or 2 at once; types 3 and 4 are of one tag.
#[test]
fn roots_are_looked_at_first() {
    let owner = "10 03  11 00 02 12 01 13 00 01 01 13 00 02 01  11 01 01 12 00  11 01 01 12 00";
    schema_gets(&format!("{owner} 14 00 1F"), 9, 0, "00 01 02 00 00");
    let types = format!("{owner}  11 02 01 12 00  11 02 01 12 00");
    // a type that no document uses is looked for before both
    schema_gets(&format!("{types} 14 00 1F"), 24, 25, "");
    schema_gets(&format!("{types} 14 03 14 00 1F"), 24, 30, "");
    schema_gets(&format!("{types} 14 04 14 03 1F"), 24, 2, "");
    schema_gets(
        &format!("{types} 14 00 14 04 14 03 1F"),
        9,
        0,
        "FF 03 04 00 00",
    );
}

// Types 0 and 1, of tag 0, bear no tree, type 2, of tag 0, and type 3, of tag 1, have no children.
#[test]
fn roots_that_bear_no_tree() {
    let types = "10 02  11 00 01  11 00 01  11 00 01 12 00  11 01 01 12 00";
    let schema = |types_of_roots: &[u8]| format!("{types} {}", roots(types_of_roots));
    schema_gets(&schema(&[0]), 8, 0, "");
    schema_gets(&schema(&[1, 0]), 8, 0, "");
    schema_gets(&schema(&[0, 1, 3]), 24, 2, "");
    schema_gets(&schema(&[0, 2, 1]), 24, 2, "");
}

// Eight or nine types with no children, each of a tag of its own: 42 or 47 bytes, then ROOTs.
#[test]
fn roots_8_and_9() {
    let types: String = (0..9).map(|a| format!("11 {a:02X} 01 12 00 ")).collect();
    let schema = |of: &[u8]| format!("10 09 {types} {}", roots(of));
    let eight = &types[..types.len() * 8 / 9];
    let eight = format!("10 09 {eight} {}", roots(&[0, 1, 2, 3, 7, 5, 6, 4]));
    for a in 0..8 {
        events_get(&eight, &format!("21 {a:02X} 22 {a:02X} 2F"), 0, 5, &[a]);
    }
    events_get(&eight, "21 08", 13, 0, &[]);
    schema_gets(&schema(&[8, 1, 2, 3, 7, 5, 6, 4]), 24, 2, "");
    schema_gets(&schema(&[7, 1, 2, 3, 0, 5, 6, 4]), 24, 42, "");
    schema_gets(&schema(&[]), 3, 47, "");
    schema_gets(&schema(&[8, 1, 2, 3, 7, 5, 6, 4, 0]), 5, 63, "");
    // a ninth that was given, or whose type was not
    schema_gets(&schema(&[8, 1, 2, 3, 7, 5, 6, 4, 8]), 5, 63, "");
    schema_gets(&schema(&[8, 1, 2, 3, 7, 5, 6, 4, 9]), 4, 63, "");
    schema_gets(&schema(&[8, 8]), 6, 49, "");
    schema_gets(&schema(&[8, 1, 2, 3, 7, 5, 6, 1]), 6, 61, "");
    schema_gets(&schema(&[8, 9]), 4, 49, "");
}

#[test]
fn roots_stand_together() {
    for between in ["11 00 01", "12 00", "13 00 00 00", "10 01", "30", "3F"] {
        let schema = format!("10 01 11 00 01 12 00 11 00 01 14 00 {between} 14 01 1F");
        schema_gets(&schema, 3, 12, "");
    }
    schema_gets("10 01 14 00", 3, 2, "");
    schema_gets("10 01 11 00 01 14 00 14", 2, 7, "");
}

#[test]
fn a_rack_empty_on_purpose() {
    events_get(WALL, WALL_EVENTS, 0, 21, &[0, 1, 1, 3, 4]);
    assert_eq!(
        levels_and_tags(WALL_EVENTS),
        [(1, 0), (2, 1), (2, 1), (3, 3), (3, 2)]
    );
    // opened plainly a rack needs its mark, and a nil one has nothing inside
    events_get(WALL, "21 00 21 01 22 01", 17, 4, &[0, 1]);
    for inside in ["21 02", "23 02", "21 03", "23 01"] {
        let events = format!("21 00 23 01 {inside}");
        events_get(WALL, &events, 13, 4, &[0, 1]);
    }
    events_get(WALL, "21 00 23 01 22 00", 16, 4, &[0, 1]);
    events_get(WALL, "21 00 23 01 2F", 18, 4, &[0, 1]);
    // neither the wall nor a boot is nillable
    events_get(WALL, "23 00", 13, 0, &[]);
    events_get(WALL, "21 00 21 01 23 02", 13, 4, &[0, 1]);
    events_get(WALL, "21 00 23 04", 12, 2, &[0]);
    events_get(WALL, "21 00 23", 19, 2, &[0]);
}

// The one type has no accepting state, so no tree that is opened plainly.
#[test]
fn a_nil_root() {
    let schema = "10 01 11 00 01 15 14 00 1F";
    events_get(schema, "23 00 22 00 2F", 0, 5, &[0]);
    events_get(schema, "21 00", 13, 0, &[]);
    events_get(schema, "23 00 22 00 23 00", 13, 4, &[0]);
    events_get(schema, "23 00 22 00 2F 23 00", 11, 5, &[0]);
    schema_gets("10 01 11 00 01 14 00 1F", 8, 0, "");
    // each needs one of its own type, and the innermost may be nil
    let nested = "10 01 11 00 00 32 00 3F 15 14 00 1F";
    events_get(
        nested,
        "21 00 21 00 23 00 22 00 22 00 22 00 2F",
        0,
        13,
        &[0; 3],
    );
    events_get(nested, "21 00 22 00", 17, 2, &[0]);
}

#[test]
fn where_nil_may_stand() {
    for block in [
        "15 12 00 13 00 00 00",
        "12 00 15 13 00 00 00",
        "12 00 13 00 00 00 15",
    ] {
        schema_gets(&format!("10 01 11 00 01 {block} 14 00 1F"), 0, 0, "");
        let twice = format!("10 01 11 00 01 {block} 15 14 00 1F");
        schema_gets(&twice, 6, 12, "");
    }
    schema_gets("10 01 11 00 00 3F 15 14 00 1F", 0, 0, "");
    for (schema, number, place) in [
        ("15", 3, 0),
        ("10 01 15", 3, 2),
        ("10 01 11 00 00 15", 3, 5),
        ("10 01 11 00 00 32 00 15", 3, 7),
        ("10 01 11 00 00 3F 15 15", 6, 7),
        ("10 01 11 00 00 3F 15 12 00", 3, 7),
        ("10 01 11 00 00 3F 15 13 00 00 00", 3, 7),
        ("10 01 11 00 01 14 00 15", 3, 7),
        ("10 01 11 00 01 15 14 00 1F 15", 3, 9),
        ("10 01 11 00 01 15", 2, 6),
    ] {
        schema_gets(schema, number, place, "");
    }
}

// Types 1 and 2 of one tag, in type 0 or as roots: both nillable, both with a tree that is opened plainly, or one of each.
#[test]
fn kinds_of_openings_compete_apart() {
    let plain = "11 01 01 12 00";
    let nil = "11 01 01 15";
    let both = "11 01 01 12 00 15";
    let schema = |one: &str, other: &str, roots: &str| {
        let owner = "11 00 02 12 01 13 00 01 01 13 00 02 01";
        format!("10 02 {owner} {one} {other} {roots} 1F")
    };
    for [one, other] in [[plain, plain], [nil, nil], [both, plain], [nil, both]] {
        schema_gets(&schema(one, other, "14 00"), 9, 0, "00 01 02 00 00");
        let roots = schema(one, other, "14 01 14 00 14 02");
        schema_gets(&roots, 9, 0, "FF 01 02 00 00");
    }
    let apart = schema(plain, nil, "14 00");
    events_get(&apart, "21 00 21 01 22 01 22 00 2F", 0, 9, &[0, 1]);
    events_get(&apart, "21 00 23 01 22 01 22 00 2F", 0, 9, &[0, 2]);
    let roots = schema(nil, plain, "14 01 14 00 14 02");
    events_get(&roots, "21 01 22 01 2F", 0, 5, &[2]);
    events_get(&roots, "23 01 22 01 2F", 0, 5, &[1]);
}

// A rack, (1 | 2)* 3, of hire boots, boxes and the mark, may be empty on purpose; a box has a boot in it.
#[test]
fn commands_and_events_by_their_names() {
    use command::{CLOSE_BRACKET, END, NIL, OPEN_BRACKET, OR, REPEAT, USE};
    use command::{DONE, FINAL, ROOT, STEP, TAGS, TYPE};
    use event::{CLOSE, FINISH, OPEN, OPEN_NIL};
    let choice = [OPEN_BRACKET, USE, 1, OR, USE, 2, CLOSE_BRACKET, REPEAT];
    let rack = [&[TYPE, 0, 0], &choice[..], &[USE, 3, END, NIL]].concat();
    let boxed = [TYPE, 2, 2, FINAL, 1, STEP, 0, 1, 1];
    let [boot, mark] = [1, 3].map(|tag| [TYPE, tag, 1, FINAL, 0]);
    let schema = [
        &[TAGS, 4],
        &rack[..],
        &boot,
        &boxed,
        &mark,
        &[ROOT, 0, DONE],
    ]
    .concat();
    let bytes = "10 04  11 00 00 30 32 01 33 32 02 31 34 32 03 3F 15  11 01 01 12 00
        11 02 02 12 01 13 00 01 01  11 03 01 12 00  14 00 1F";
    assert_eq!(schema, hex(bytes));
    let full = [
        OPEN, 0, OPEN, 2, OPEN, 1, CLOSE, 1, CLOSE, 2, OPEN, 3, CLOSE, 3, CLOSE, 0, FINISH,
    ];
    assert_eq!(
        full[..],
        hex("21 00 21 02 21 01 22 01 22 02 21 03 22 03 22 00 2F")
    );
    let (job, _, types) = typed(&schema, &full, WITNESS, 4);
    assert_eq!((job, types), (read(0, 17, 4), vec![0, 2, 1, 3]));
    let empty = [OPEN_NIL, 0, CLOSE, 0, FINISH];
    assert_eq!(empty[..], hex("23 00 22 00 2F"));
    let (job, _, types) = typed(&schema, &empty, WITNESS, 1);
    assert_eq!((job, types), (read(0, 5, 1), vec![0]));
}
