//! The samples of the boot wall, and the points that the questions' order settles.

mod expected;
mod expressions;
mod made_up;
mod nil;
mod reduced;
mod roots;
mod rows;
mod shortest;

use crate::codes::{CLOSE, FINISH, OPEN, OPEN_NIL};
use crate::competition::pair_number;
use crate::limits::WITNESS;
use crate::{
    Job, Kind, Opening, Schema, SchemaAnswer, Trimming, Witness, check_schema, competes,
    competition, has_documents, openings, print, schema_file, type_document, write_reduced,
};

/// A byte that no answer writes.
const UNTOUCHED: u8 = 0xEE;

/// The first byte of an opening.
fn code(kind: Kind) -> u8 {
    match kind {
        Kind::Plain => OPEN,
        Kind::Nil => OPEN_NIL,
    }
}

/// A type's tag, state count, accepting states and steps.
type Block<'a> = (u8, u8, &'a [u8], &'a [(u8, u8, u8)]);

fn leaf(tag: u8) -> Block<'static> {
    (tag, 1, &[0], &[])
}

fn file(tags: u8, blocks: &[Block], root: u8) -> Vec<u8> {
    file_of_roots(tags, blocks, &[root])
}

fn file_of_roots(tags: u8, blocks: &[Block], roots: &[u8]) -> Vec<u8> {
    let blocks: Vec<Vec<u8>> = blocks.iter().map(block_bytes).collect();
    file_of_bytes(tags, &blocks, roots)
}

fn block_bytes(&(tag, states, accepting, steps): &Block) -> Vec<u8> {
    let mut bytes = vec![0x11, tag, states];
    bytes.extend(accepting.iter().flat_map(|&state| [0x12, state]));
    bytes.extend(
        steps
            .iter()
            .flat_map(|&(from, by, to)| [0x13, from, by, to]),
    );
    bytes
}

fn file_of_bytes(tags: u8, blocks: &[Vec<u8>], roots: &[u8]) -> Vec<u8> {
    let mut bytes = vec![0x10, tags];
    bytes.extend(blocks.concat());
    bytes.extend(roots.iter().flat_map(|&root| [0x14, root]));
    bytes.push(0x1F);
    bytes
}

fn hex(text: &str) -> Vec<u8> {
    text.split_whitespace()
        .map(|byte| u8::from_str_radix(byte, 16).unwrap())
        .collect()
}

/// The schema that a file states.
fn stated(file: &[u8]) -> Schema {
    let mut schema = Schema::BLANK;
    schema_file::read(file, &mut schema).unwrap();
    schema
}

/// The number and place of a schema file, and the bytes of the witness that were written.
fn check(schema: &[u8]) -> (u8, usize, Vec<u8>) {
    let mut buffer = [UNTOUCHED; WITNESS];
    let SchemaAnswer { number, place } = check_schema(schema, &mut buffer);
    let written = match number {
        9 => Witness::from_bytes(&buffer).unwrap().length(),
        _ => 0,
    };
    assert!(buffer[written..].iter().all(|&byte| byte == UNTOUCHED));
    (number, place, buffer[..written].to_vec())
}

/// Is it a witness of the schema that the file states?
fn confirmed(schema: &[u8], within: u8, one: u8, other: u8, word: &[u8]) -> bool {
    let witness = Witness {
        within,
        one,
        other,
        word,
    };
    competes(schema, &witness)
}

fn refused(schema: &[u8], number: u8, place: usize) {
    assert_eq!(check(schema), (number, place, vec![]));
}

fn accepted(schema: &[u8]) {
    refused(schema, 0, 0);
}

/// The answer to a file that states a schema, with question 24 left out.
fn searched(file: &[u8]) -> (u8, usize, Vec<u8>) {
    let schema = stated(file);
    let trimming = Trimming::of(&schema);
    if !has_documents(&schema, &trimming) {
        return (8, 0, vec![]);
    }
    let Some(found) = competition::find(&schema, &trimming) else {
        return (0, 0, vec![]);
    };
    let mut witness = vec![UNTOUCHED; found.witness().length()];
    found.witness().store(&mut witness);
    (9, 0, witness)
}

/// It would be accepted but for question 24, which is answered at a place.
fn unused(file: &[u8], place: usize) {
    assert_eq!(searched(file), (0, 0, vec![]));
    refused(file, 24, place);
}

/// The file without its unused types, which is accepted.
fn reduced(file: &[u8]) -> Vec<u8> {
    let mut out = vec![UNTOUCHED; 10_000];
    let length = write_reduced(file, &mut out).unwrap();
    out.truncate(length);
    accepted(&out);
    out
}

/// The number and place of an event file under an accepted schema, and the types given.
fn read(schema: &[u8], events: &[u8]) -> (u8, usize, Vec<u8>) {
    read_into(schema, events, 100)
}

fn read_into(schema: &[u8], events: &[u8], room: usize) -> (u8, usize, Vec<u8>) {
    let mut buffer = [UNTOUCHED; WITNESS];
    let mut types = vec![UNTOUCHED; room];
    let Job::EventsRead {
        number,
        place,
        count,
    } = type_document(schema, events, &mut buffer, &mut types)
    else {
        panic!("the schema is accepted");
    };
    assert!(
        buffer
            .iter()
            .chain(&types[count..])
            .all(|&byte| byte == UNTOUCHED)
    );
    types.truncate(count);
    (number, place, types)
}

/// The tag stream of a root with leaves.
fn row(root: u8, children: &[u8]) -> Vec<u8> {
    let mut events = vec![OPEN, root];
    events.extend(children.iter().flat_map(|&tag| [OPEN, tag, CLOSE, tag]));
    events.extend([CLOSE, root, FINISH]);
    events
}

/// Hire boots, the sale mark, boots for sale.
fn boots() -> Vec<u8> {
    hex(
        "10 03 11 00 02 12 01 13 00 01 00 13 00 02 01 13 01 03 01 11 01 01 12 00 11 02 01 12 00 11 01 01 12 00 14 00 1F",
    )
}

/// a → b1 or b2, b1 → c, b2 → d.
fn two_readings(last: Block) -> Vec<u8> {
    let a: Block = (0, 2, &[1], &[(0, 1, 1), (0, 2, 1)]);
    let b1: Block = (1, 2, &[1], &[(0, 3, 1)]);
    let b2: Block = (1, 2, &[1], &[(0, 4, 1)]);
    file(4, &[a, b1, b2, leaf(2), last], 0)
}

/// Type 0 holds itself without end.
fn nesting() -> Vec<u8> {
    file(1, &[(0, 1, &[0], &[(0, 0, 0)])], 0)
}

#[test]
fn boots_before_and_after_the_sale_mark() {
    let events = hex("21 00 21 01 22 01 21 02 22 02 21 01 22 01 22 00 2F");
    assert_eq!(read(&boots(), &events), (0, events.len(), vec![0, 1, 2, 3]));
    let text = "depth tag type\n1 0 0\n2 1 1\n2 2 2\n2 1 3\naccepted 4\n";
    assert_eq!(print(&boots(), &events), text.as_bytes());
}

#[test]
fn boots_without_the_sale_mark() {
    assert_eq!(read(&boots(), &hex("21 00 22 00")), (17, 2, vec![0]));
    assert_eq!(
        print(&boots(), &hex("21 00 22 00")),
        b"depth tag type\n1 0 0\nrefused 17 at 2\n"
    );
}

#[test]
fn boots_with_two_sale_marks() {
    assert_eq!(read(&boots(), &row(0, &[2, 2])), (13, 6, vec![0, 2]));
}

#[test]
fn two_readings_compete() {
    let schema = two_readings(leaf(3));
    assert_eq!(check(&schema), (9, 0, hex("00 01 02 00 00")));
    assert_eq!(
        print(&schema, &[]),
        b"schema refused 9 at 0\ntype 0 gives 1 or 2 after 0\n"
    );
}

#[test]
fn a_type_without_trees_does_not_compete() {
    let schema = two_readings((3, 1, &[], &[]));
    unused(&schema, 24);
    let schema = reduced(&schema);
    let events = hex("21 00 21 01 21 02 22 02 22 01 22 00 2F");
    assert_eq!(read(&schema, &events), (0, 13, vec![0, 1, 2]));
    assert_eq!(
        read(&schema, &hex("21 00 21 01 21 03")),
        (13, 4, vec![0, 1])
    );
}

#[test]
fn states_apart_compete() {
    let owner: Block = (0, 4, &[3], &[(0, 1, 1), (0, 1, 2), (1, 2, 3), (2, 3, 3)]);
    let schema = file(3, &[owner, leaf(1), leaf(2), leaf(2)], 0);
    assert_eq!(check(&schema), (9, 0, hex("00 02 03 01 00 01")));
    assert!(confirmed(&schema, 0, 2, 3, &[1]));
    assert!(!confirmed(&schema, 0, 3, 2, &[1]));
    assert!(!confirmed(&schema, 0, 2, 3, &[]));
    assert!(!confirmed(&schema, 0, 2, 3, &[1, 1]));
    assert!(!confirmed(&schema, 0, 2, 3, &[200]));
    assert!(!confirmed(&schema, 1, 2, 3, &[1]));
    assert!(!confirmed(&schema, 0, 1, 2, &[1]));
    assert!(!confirmed(&schema, 0, 2, 200, &[1]));
}

#[test]
fn two_types_of_a_tag_one_after_the_other() {
    let owner: Block = (0, 3, &[2], &[(0, 1, 1), (1, 2, 2), (1, 3, 2)]);
    let schema = file(3, &[owner, leaf(1), leaf(1), leaf(2)], 0);
    accepted(&schema);
    assert_eq!(read(&schema, &row(0, &[1, 1])), (0, 13, vec![0, 1, 2]));
}

#[test]
fn several_steps_of_one_type() {
    let steps = &[(0, 1, 0), (0, 2, 0), (0, 1, 1), (1, 1, 2), (1, 2, 2)];
    let schema = file(3, &[(0, 3, &[2], steps), leaf(1), leaf(2)], 0);
    accepted(&schema);
    assert_eq!(read(&schema, &row(0, &[1])), (17, 6, vec![0, 1]));
    assert_eq!(
        read(&schema, &row(0, &[2, 1, 2])),
        (0, 17, vec![0, 2, 1, 2])
    );
}

/// The steps of a1? b1 (b1 or c1)* a2 c1.
const BY_POSITION: &[(u8, u8, u8)] = &[
    (0, 1, 1),
    (0, 2, 2),
    (1, 2, 2),
    (2, 2, 2),
    (2, 3, 2),
    (2, 4, 3),
    (3, 3, 4),
];

#[test]
fn types_by_position() {
    let schema = file(
        4,
        &[
            (0, 5, &[4], BY_POSITION),
            leaf(1),
            leaf(2),
            leaf(3),
            leaf(1),
        ],
        0,
    );
    let events = row(0, &[2, 2, 3, 2, 1, 3]);
    assert_eq!(
        read(&schema, &events),
        (0, events.len(), vec![0, 2, 2, 3, 2, 4, 3])
    );
}

#[test]
fn no_finite_tree() {
    refused(&file(1, &[(0, 2, &[1], &[(0, 0, 1)])], 0), 8, 0);
}

#[test]
fn sixty_four_levels() {
    let down = [OPEN, 0].repeat(65);
    assert_eq!(read(&nesting(), &down), (14, 128, vec![0; 64]));
    let whole = [[OPEN, 0].repeat(64), [CLOSE, 0].repeat(64), vec![FINISH]].concat();
    assert_eq!(read(&nesting(), &whole), (0, 257, vec![0; 64]));
}

#[test]
fn at_the_sixty_fifth_level() {
    // No type has tag 1.
    let schema = file(2, &[(0, 1, &[0], &[(0, 0, 0)])], 0);
    let down = [OPEN, 0].repeat(64);
    let then = |tag| read(&schema, &[&down[..], &[OPEN, tag]].concat()).0;
    assert_eq!((then(2), then(1), then(0)), (12, 13, 14));
}

#[test]
fn pairs_of_states() {
    let number = pair_number;
    assert_eq!((number(0, 0), number(3, 1), number(31, 31)), (0, 7, 527));
    assert_eq!(number(1, 3), 7);
}

#[test]
fn witness_buffers() {
    let answer = |room: usize| check_schema(&boots(), &mut vec![0; room]);
    assert_eq!(
        answer(531),
        SchemaAnswer {
            number: 1,
            place: 0
        }
    );
    assert_eq!(
        answer(532),
        SchemaAnswer {
            number: 0,
            place: 0
        }
    );
    assert_eq!(
        check_schema(&[], &mut []),
        SchemaAnswer {
            number: 1,
            place: 0
        }
    );
}

#[test]
fn witness_parts() {
    assert_eq!(Witness::from_bytes(&[]), None);
    assert_eq!(Witness::from_bytes(&[0, 1, 2, 1]), None);
    assert_eq!(Witness::from_bytes(&[0, 1, 2, 1, 0]), None);
    let parts = Witness {
        within: 0,
        one: 1,
        other: 2,
        word: &[7],
    };
    assert_eq!(Witness::from_bytes(&[0, 1, 2, 1, 0, 7, 8]), Some(parts));
    assert_eq!(Witness::from_bytes(&[0, 1, 2, 1, 1, 7, 8]), None);
}

#[test]
fn commands_and_operands() {
    refused(&[], 2, 0);
    refused(&hex("10 20"), 2, 2);
    refused(&hex("10 21"), 4, 0);
    refused(&hex("10 00"), 4, 0);
    refused(&hex("10"), 2, 0);
    refused(&hex("00"), 2, 0);
    refused(&hex("10 01 11 00"), 2, 2);
    refused(&hex("10 01 11 00 01 13 00 00"), 2, 5);
    refused(&hex("10 01 11 00 01 12 00 14 00"), 2, 9);
}

#[test]
fn order_of_commands() {
    refused(&hex("1F"), 3, 0);
    refused(&hex("11 00 01"), 3, 0);
    refused(&hex("10 01 10 01"), 3, 2);
    refused(&hex("10 01 12 00"), 3, 2);
    refused(&hex("10 01 14 00"), 3, 2);
    refused(&hex("10 01 11 00 01 1F"), 3, 5);
    refused(&hex("10 01 11 00 01 14 00 12 00"), 3, 7);
    refused(&hex("10 01 11 00 01 14 00 11 00 01"), 3, 7);
    // Out of order comes before out of range.
    refused(&hex("10 01 14 09"), 3, 2);
}

#[test]
fn bytes_after_done() {
    for byte in [0x00, 0x10, 0x1F, 0xFF] {
        refused(&[boots(), vec![byte]].concat(), 3, boots().len());
        refused(
            &[nesting(), vec![byte, 1, 2, 3]].concat(),
            3,
            nesting().len(),
        );
    }
    // Before 7, 8 and 9.
    refused(&hex("10 01 11 00 01 13 00 05 00 14 00 1F 00"), 3, 12);
    refused(&hex("10 01 11 00 01 14 00 1F 00"), 3, 8);
    let competing = two_readings(leaf(3));
    refused(&[competing.clone(), vec![0]].concat(), 3, competing.len());
}

#[test]
fn operands_in_range() {
    refused(&hex("10 01 11 01 01"), 4, 2);
    refused(&hex("10 01 11 00 21"), 4, 2);
    refused(&hex("10 01 11 00 20 12 20"), 4, 5);
    refused(&hex("10 01 11 00 02 13 02 00 00"), 4, 5);
    refused(&hex("10 01 11 00 02 13 00 00 02"), 4, 5);
    refused(&hex("10 01 11 00 02 13 00 40 00"), 4, 5);
    refused(&hex("10 01 11 00 02 14 01"), 4, 5);
}

#[test]
fn repeated_commands() {
    refused(&hex("10 01 11 00 02 12 01 12 01"), 6, 7);
    refused(&hex("10 01 11 00 02 13 00 00 01 12 00 13 00 00 01"), 6, 11);
    // Of a type that was never given.
    refused(
        &hex("10 01 11 00 01 13 00 3F 00 13 00 3F 00 14 00 1F"),
        6,
        9,
    );
    unused(&hex("10 01 11 00 01 12 00 11 00 01 12 00 14 01 1F"), 2);
}

#[test]
fn types_never_given() {
    refused(
        &hex("10 01 11 00 01 12 00 13 00 00 00 13 00 02 00 13 00 01 00 14 00 1F"),
        7,
        11,
    );
    accepted(&hex(
        "10 01 11 00 01 12 00 13 00 01 00 11 00 01 12 00 14 00 1F",
    ));
}

#[test]
fn sixty_four_types() {
    let types = |count: usize| [hex("10 01"), hex("11 00 01 12 00").repeat(count)].concat();
    unused(&[types(64), hex("14 3F 1F")].concat(), 2);
    refused(&[types(64), hex("11 00 01")].concat(), 5, 322);
    refused(&[types(64), hex("11 01 01")].concat(), 4, 322);
    refused(&[types(64), hex("14 40")].concat(), 4, 322);
}

#[test]
fn a_thousand_and_twenty_four_steps() {
    let mut bytes = hex("10 01 11 00 20 12 00");
    for from in 0..32 {
        bytes.extend((0..32).flat_map(|to| [0x13, from, 0, to]));
    }
    let then = |text: &str| [&bytes[..], &hex(text)].concat();
    accepted(&then("14 00 1F"));
    refused(&then("13 00 01 00"), 5, bytes.len());
    refused(&then("13 00 00 00"), 5, bytes.len());
    refused(&then("13 00 00 20"), 4, bytes.len());
    refused(&then("11 00 01 13 00 00 00"), 5, bytes.len() + 3);
}

/// As many old commands as a file can have, with these roots. Each type holds those after it, one from each
/// state.
fn longest_file(roots: impl Iterator<Item = u8>) -> Vec<u8> {
    let mut bytes = hex("10 20");
    for number in 0..64 {
        bytes.extend([0x11, number / 2, 32]);
        bytes.extend((0..32).flat_map(|state| [0x12, state]));
        let next = |from| (number + 1 + from) % 64;
        bytes.extend((0..16).flat_map(|from| [0x13, from, next(from), from + 1]));
    }
    bytes.extend(roots.flat_map(|of| [0x14, of]));
    bytes.push(0x1F);
    bytes
}

#[test]
fn the_longest_file() {
    let bytes = longest_file(std::iter::once(0));
    assert_eq!(bytes.len(), 8389);
    accepted(&bytes);
}

#[test]
fn the_smallest_type_that_has_competition() {
    let chain: Block = (0, 2, &[1], &[(0, 2, 1)]);
    let bad: Block = (1, 2, &[1], &[(0, 3, 1), (0, 4, 1)]);
    // Type 1 is never reached, so type 2 is the smallest.
    let schema = file(3, &[chain, bad, bad, leaf(2), leaf(2)], 0);
    assert_eq!(searched(&schema), (9, 0, hex("02 03 04 00 00")));
    assert!(!confirmed(&schema, 1, 3, 4, &[]));
    refused(&schema, 24, 11);
    // Without it there is none.
    unused(&file(3, &[leaf(0), bad, bad, leaf(2), leaf(2)], 0), 7);
}

#[test]
fn events_that_are_none() {
    assert_eq!(read(&nesting(), &[]), (19, 0, vec![]));
    assert_eq!(read(&nesting(), &[0]), (19, 0, vec![]));
    assert_eq!(read(&nesting(), &[OPEN]), (19, 0, vec![]));
    assert_eq!(read(&nesting(), &[OPEN, 0, CLOSE]), (19, 2, vec![0]));
    assert_eq!(read(&nesting(), &[OPEN, 0, CLOSE, 0]), (19, 4, vec![0]));
    assert_eq!(
        read(&nesting(), &[OPEN, 0, CLOSE, 0, FINISH, 0]),
        (19, 5, vec![0])
    );
    assert_eq!(
        read(&nesting(), &[OPEN, 0, CLOSE, 0, FINISH, OPEN]),
        (19, 5, vec![0])
    );
}

#[test]
fn events_refused() {
    let number = |events: &[u8]| read(&boots(), events).0;
    assert_eq!(number(&[OPEN, 3]), 12);
    assert_eq!(number(&[CLOSE, 3]), 12);
    assert_eq!(number(&[OPEN, 1]), 13);
    assert_eq!(number(&[CLOSE, 0]), 15);
    assert_eq!(number(&[OPEN, 0, CLOSE, 1]), 16);
    assert_eq!(number(&[FINISH]), 18);
    assert_eq!(number(&[OPEN, 0, FINISH]), 18);
    let root = row(0, &[2]);
    let after_root = |then: &[u8]| number(&[&root[..root.len() - 1], then].concat());
    assert_eq!(after_root(&[OPEN, 0]), 13);
    assert_eq!(after_root(&[CLOSE, 0]), 15);
    let after_finish = |then: &[u8]| read(&boots(), &[&root[..], then].concat());
    assert_eq!(after_finish(&[FINISH]), (11, 9, vec![0, 2]));
    assert_eq!(after_finish(&[OPEN, 99]), (11, 9, vec![0, 2]));
    assert_eq!(after_finish(&[CLOSE, 0]), (11, 9, vec![0, 2]));
}

#[test]
fn a_full_buffer_is_asked_last() {
    assert_eq!(read_into(&boots(), &[OPEN, 0], 0), (20, 0, vec![]));
    assert_eq!(read_into(&boots(), &[OPEN, 1], 0), (13, 0, vec![]));
    assert_eq!(
        read_into(&boots(), &[OPEN, 0, OPEN, 1], 1),
        (20, 2, vec![0])
    );
    assert_eq!(read_into(&boots(), &row(0, &[2]), 2), (0, 9, vec![0, 2]));
    assert_eq!(
        read_into(&nesting(), &[OPEN, 0].repeat(65), 64),
        (14, 128, vec![0; 64])
    );
}

#[test]
fn openings_of_any_bytes() {
    let of = |events: &[u8]| {
        openings(events)
            .map(|Opening { level, tag }| (level, tag))
            .collect::<Vec<_>>()
    };
    assert_eq!(of(&[]), []);
    assert_eq!(
        of(&[CLOSE, 9, OPEN, 200, FINISH, OPEN, 1, CLOSE, 7, OPEN, 2]),
        [(1, 200), (2, 1), (2, 2)]
    );
    assert_eq!(of(&[OPEN, 1, 0, OPEN, 1]), [(1, 1)]);
    assert_eq!(of(&[OPEN, 1, OPEN]), [(1, 1)]);
}

#[test]
fn limits_of_the_program() {
    assert_eq!(print(&[], &[]), b"schema refused 2 at 0\n");
    assert_eq!(print(&[], &[0; 32_769]), b"too long\n");
    assert_eq!(print(&[], &[0; 32_768]), b"schema refused 2 at 0\n");
    let padded = |length: usize| [boots(), vec![0; length - boots().len()]].concat();
    let after_done = format!("schema refused 3 at {}\n", boots().len());
    assert_eq!(print(&padded(20_000), &[]), after_done.as_bytes());
    // A file of 32,768 bytes without its FINISH, and one byte more.
    let wide = [
        &[OPEN, 0][..],
        &[OPEN, 0, CLOSE, 0].repeat(8191),
        &[CLOSE, 0, FINISH],
    ]
    .concat();
    let text = String::from_utf8(print(&nesting(), &wide[..32_768])).unwrap();
    assert!(
        text.ends_with("2 0 0\nrefused 19 at 32768\n"),
        "{}",
        &text[text.len() - 40..]
    );
    assert_eq!(text.lines().count(), 8192 + 2);
    assert_eq!(print(&nesting(), &wide[..32_769]), b"too long\n");
}
