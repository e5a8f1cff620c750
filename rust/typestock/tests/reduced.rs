// Schema files with types that no valid document uses: their refusal, and the files that are written without them.
mod common;
use common::{
    checked, hex, read, typed, written, LISTS, R, R_BY_EXPRESSIONS, R_EVENTS, WALL, WALL_EVENTS,
};
use typestock::{reduced, write_reduced, NotWritten, SchemaAnswer, MOST_GAINED, WITNESS};

const ACCEPTED: SchemaAnswer = SchemaAnswer {
    number: 0,
    place: 0,
};

// The file is written so into an output that is long enough, and gets 20 with a shorter one; what is written is accepted, and written again it is the
// same.
fn writes(schema: &[u8], expected: &[u8]) {
    for room in 0..expected.len() {
        assert_eq!(
            written(schema, room),
            (Err(NotWritten { number: 20 }), vec![])
        );
    }
    for room in [expected.len(), expected.len() + 1, expected.len() + 300] {
        let (answer, file) = written(schema, room);
        assert_eq!(answer, Ok(expected.len()));
        assert_eq!(file, expected);
    }
    assert_eq!(reduced(schema).as_deref(), Ok(expected));
    assert_eq!(checked(expected, WITNESS).0, ACCEPTED);
    assert_eq!(reduced(expected).as_deref(), Ok(expected));
}

// The file is refused with 24 at the place, and written so.
fn becomes(schema: &str, place: usize, expected: &str) {
    let schema = hex(schema);
    let unused = SchemaAnswer { number: 24, place };
    assert_eq!(checked(&schema, WITNESS).0, unused);
    writes(&schema, &hex(expected));
}

#[test]
fn files_with_nothing_to_leave_out() {
    let lists = format!("{LISTS} 14 01 14 00 1F");
    for schema in [R, R_BY_EXPRESSIONS, WALL, &lists] {
        writes(&hex(schema), &hex(schema));
    }
}

#[test]
fn the_fifth_sample() {
    becomes(
        "10 04  11 00 02 12 01 13 00 01 01 13 00 02 01  11 01 02 12 01 13 00 03 01  11 01 02 12 01 13 00 04 01  11 02 01 12 00  11 03 01  14 00 1F",
        24,
        "10 04  11 00 02 12 01 13 00 01 01  11 01 02 12 01 13 00 02 01  11 02 01 12 00  14 00 1F",
    );
}

#[test]
fn roots_that_go() {
    let left = "10 03  11 01 01 12 00 13 00 01 00  11 02 01 12 00  14 00 1F";
    becomes(&format!("{LISTS} 14 01 1F"), 2, left);
    // the first of three, which has no tree, and the last
    becomes(
        "10 02  11 00 01  11 00 01 12 00  11 01 01  14 00 14 01 14 02 1F",
        2,
        "10 02  11 00 01 12 00  14 00 1F",
    );
}

// Type 0 is (1 | 2)* or 2* 3, and type 1 or 2 goes.
#[test]
fn expressions() {
    becomes(
        "10 02  11 00 00 30 32 01 33 32 02 31 34 3F 15  11 01 00 3F  11 01 01  14 00 1F",
        19,
        "10 02  11 00 03 12 00 12 01 12 02 13 00 01 01 13 01 01 01 13 02 01 01 15  11 01 00 3F  14 00 1F",
    );
    becomes(
        "10 03  11 00 00 32 02 34 32 03 3F  11 01 00 3F 15  11 01 00 3F  11 02 00 3F  14 00 1F",
        11,
        "10 03  11 00 00 32 01 34 32 02 3F  11 01 00 3F  11 02 00 3F  14 00 1F",
    );
}

// A rack needs its mark, type 3, or is nil; without the mark's FINAL only nil racks are left, and no boots.
#[test]
fn nil_alone_is_left() {
    let schema = WALL.replace("11 03 01 12 00", "11 03 01");
    becomes(
        &schema,
        29,
        "10 04  11 00 01 12 00 13 00 01 00  11 01 02 12 01 15  14 00 1F",
    );
}

#[test]
fn documents_before_and_after() {
    // R after a type that is not used, and with a type behind it
    let stored = "10 03 11 02 01 12 00  11 00 02 12 01 13 00 02 00 13 00 03 01 13 01 04 01
        11 01 01 12 00 11 02 01 12 00 11 01 01 12 00  11 00 01 12 00  14 01 1F";
    becomes(stored, 2, R);
    let schema = reduced(&hex(stored)).unwrap();
    let (job, _, types) = typed(&schema, &hex(R_EVENTS), WITNESS, 4);
    assert_eq!((job, types), (read(0, 17, 4), vec![0, 1, 2, 3]));
    let wall = format!("{} 11 00 01 12 00 14 00 1F", WALL.replace("14 00 1F", ""));
    becomes(&wall, 44, WALL);
    let schema = reduced(&hex(&wall)).unwrap();
    let (job, _, types) = typed(&schema, &hex(WALL_EVENTS), WITNESS, 5);
    assert_eq!((job, types), (read(0, 21, 5), vec![0, 1, 1, 3, 4]));
}

#[test]
fn refused_files() {
    let uses = format!("10 01 11 00 00 {} 3F 14 00 1F", "32 00 ".repeat(32));
    let nested = "30 ".repeat(17);
    let nested = format!("10 01 11 00 00 {nested}");
    let types = format!("10 01 {}", "11 00 01 ".repeat(65));
    for (schema, number) in [
        ("", 2),
        ("1F", 3),
        ("10 21", 4),
        (&types, 5),
        ("10 01 11 00 01 12 00 12 00", 6),
        ("10 01 11 00 01 13 00 01 00 14 00 1F", 7),
        ("10 01 11 00 01 14 00 1F", 8),
        ("10 01 11 00 01 12 00 11 00 01 12 00 14 00 14 01 1F", 9),
        ("10 01 11 00 00 34", 21),
        (&uses, 22),
        (&nested, 23),
    ] {
        let schema = hex(schema);
        for room in [0, 1, 500] {
            assert_eq!(written(&schema, room), (Err(NotWritten { number }), vec![]));
        }
        assert_eq!(reduced(&schema), Err(NotWritten { number }));
        assert_eq!(checked(&schema, WITNESS).0.number, number);
    }
    // types 0 and 1 compete as roots, and type 2 is not used: 24 for the reader, 9 for the writer
    let schema = hex("10 02 11 00 01 12 00 11 00 01 12 00 11 01 01 12 00 14 00 14 01 1F");
    assert_eq!(checked(&schema, WITNESS).0.number, 24);
    assert_eq!(
        write_reduced(&schema, &mut []),
        Err(NotWritten { number: 9 })
    );
    assert_eq!(NotWritten { number: 9 }.to_string(), "not written: 9");
}

// 31 uses in any order, the last of a type that has no tree, in an expression: what is written is much longer.
#[test]
fn the_room_that_is_always_enough() {
    let uses: String = (1..32).map(|a| format!("32 {a:02X} 33 ")).collect();
    let leaves: String = (1..31).map(|a| format!("11 {a:02X} 00 3F ")).collect();
    let schema = hex(&format!(
        "10 20 11 00 00 30 {uses} 31 34 3F {leaves} 11 1F 01 14 00 1F"
    ));
    let file = reduced(&schema).unwrap();
    assert_eq!(file.len(), schema.len() - 97 - 3 + 64 + 32 * 30 * 4);
    assert!(file.len() < schema.len() + MOST_GAINED);
    writes(&schema, &file);
}

// R, and a type that is not used, with each byte changed to each value: what is written is accepted, and nothing is written where a number of the
// reader's but 24 stands for it.
#[test]
fn one_byte_changed() {
    let schema = hex(&format!(
        "{} 11 02 00 32 02 34 3F 14 00 1F",
        R.replace("14 00 1F", "")
    ));
    for place in 0..schema.len() {
        for value in 0..=255 {
            let mut damaged = schema.clone();
            damaged[place] = value;
            let number = checked(&damaged, WITNESS).0.number;
            match reduced(&damaged) {
                Ok(file) => {
                    assert!(matches!(number, 0 | 24));
                    assert_eq!(number == 0, file == damaged);
                    assert_eq!(checked(&file, WITNESS).0, ACCEPTED);
                    assert_eq!(reduced(&file), Ok(file));
                }
                Err(refused) if number == 24 => assert_eq!(refused.number, 9),
                Err(refused) => assert_eq!(refused.number, number),
            }
        }
    }
}
