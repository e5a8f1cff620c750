//! Types that no valid document uses: question 24, and the files that are written without them.

use super::{
    Block, UNTOUCHED, accepted, boots, check, file, file_of_roots, hex, leaf, longest_file,
    nesting, read, refused, searched, two_readings, unused,
};
use crate::write_reduced;

/// No finite tree has this type.
const BARREN: Block = (0, 1, &[], &[]);

/// What the file is answered with an output of this length, and the output.
fn write(file: &[u8], room: usize) -> (Result<usize, u8>, Vec<u8>) {
    let mut out = vec![UNTOUCHED; room];
    let answer = write_reduced(file, &mut out);
    (answer, out)
}

/// The file is written so into outputs that are long enough, and gets 20 with shorter ones; what is
/// written is accepted, and written again it is the same.
fn writes(file: &[u8], expected: &[u8]) {
    let length = expected.len();
    for more in [0, 1, 100] {
        let (answer, out) = write(file, length + more);
        assert_eq!(answer, Ok(length));
        assert_eq!(out[..length], *expected);
        assert_eq!(out[length..], vec![UNTOUCHED; more]);
    }
    for short in [length - 1, length / 2, 1, 0] {
        gets(file, short, 20);
    }
    accepted(expected);
    let (answer, out) = write(expected, length);
    assert_eq!((answer, &out[..]), (Ok(length), expected));
}

/// The file gets the number with an output of this length, which is unchanged.
fn gets(file: &[u8], room: usize, number: u8) {
    assert_eq!(write(file, room), (Err(number), vec![UNTOUCHED; room]));
}

/// The file gets the number, whatever the output.
fn never_written(file: &[u8], number: u8) {
    for room in [0, 1, 1000] {
        gets(file, room, number);
    }
}

fn same(file: &[u8]) {
    accepted(file);
    writes(file, file);
}

/// The blocks of one file and of another, each with its TAGS, ROOTs and DONE, as hexadecimal text.
fn becomes(file: &str, expected: &str) {
    writes(&hex(file), &hex(expected));
}

#[test]
fn files_with_nothing_to_drop() {
    same(&boots());
    same(&nesting());
    same(&longest_file(std::iter::once(0)));
    same(&longest_file((0..8).map(|of| 63 - 2 * of)));
    // Commands in any order, an expression with empty parts, several roots, NIL.
    same(&hex(
        "10 02 11 00 02 13 00 01 01 15 12 01 13 00 00 00 11 01 01 12 00 14 00 1F",
    ));
    same(&hex(
        "10 02 11 00 00 30 31 33 33 32 01 34 3F 15 11 01 00 3F 14 01 14 00 1F",
    ));
    // Tags that no type has stay.
    same(&hex("10 20 11 00 01 12 00 14 00 1F"));
}

#[test]
fn the_fifth_sample() {
    let schema = two_readings((3, 1, &[], &[]));
    refused(&schema, 24, 24);
    let a: Block = (0, 2, &[1], &[(0, 1, 1)]);
    let b1: Block = (1, 2, &[1], &[(0, 2, 1)]);
    writes(&schema, &file(4, &[a, b1, leaf(2)], 0));
}

#[test]
fn types_that_are_not_reached() {
    let owner: Block = (0, 1, &[0], &[(0, 2, 0)]);
    let schema = file(3, &[owner, leaf(1), leaf(2), leaf(1)], 0);
    unused(&schema, 11);
    let left: Block = (0, 1, &[0], &[(0, 1, 0)]);
    writes(&schema, &file(3, &[left, leaf(2)], 0));
    // One that holds itself, and two that hold one another.
    let own: Block = (1, 1, &[0], &[(0, 1, 0)]);
    writes(&file(2, &[leaf(0), own], 0), &file(2, &[leaf(0)], 0));
    let next: Block = (1, 1, &[0], &[(0, 2, 0)]);
    writes(&file(2, &[leaf(0), next, own], 0), &file(2, &[leaf(0)], 0));
}

#[test]
fn types_that_bear_no_tree() {
    // Reached by a step into a live state.
    let owner: Block = (0, 2, &[0, 1], &[(0, 1, 1), (1, 2, 0), (1, 1, 0)]);
    let schema = file(2, &[owner, BARREN, leaf(1)], 0);
    unused(&schema, 2 + 3 + 4 + 12);
    // Type 2 comes only after type 1, so it goes too.
    writes(&schema, &file(2, &[(0, 2, &[0, 1], &[])], 0));
    let endless: Block = (1, 2, &[1], &[(0, 1, 1)]);
    writes(
        &file(2, &[(0, 1, &[0], &[(0, 1, 0), (0, 0, 0)]), endless], 0),
        &file(2, &[(0, 1, &[0], &[(0, 0, 0)])], 0),
    );
}

#[test]
fn types_behind_dead_states() {
    // State 2 is dead: type 1 leads to it alone, and type 2 from it back; both bear a tree.
    let owner: Block = (0, 3, &[1], &[(0, 3, 1), (0, 1, 2), (2, 2, 2), (2, 3, 2)]);
    let schema = file(4, &[owner, leaf(1), leaf(2), leaf(3)], 0);
    unused(&schema, 2 + 3 + 2 + 16);
    // The states stay, and the step from the dead one by a type that is used.
    let left: Block = (0, 3, &[1], &[(0, 1, 1), (2, 1, 2)]);
    writes(&schema, &file(4, &[left, leaf(3)], 0));
}

#[test]
fn the_first_unused_type() {
    let blocks: Vec<Block> = (0..4).map(leaf).collect();
    for first in 1..4_u8 {
        let roots: Vec<u8> = (0..first).collect();
        let place = 2 + 5 * usize::from(first);
        unused(&file_of_roots(4, &blocks, &roots), place);
    }
    unused(&file(2, &[leaf(0), leaf(0), leaf(1)], 2), 2);
    writes(
        &file(2, &[leaf(0), leaf(0), leaf(1)], 2),
        &file(2, &[leaf(1)], 0),
    );
    // Past an expression with a 3F and an 11 among its operands.
    let types = "11 01 01 12 00 ".repeat(63);
    let before = "10 02 11 00 00 30 32 3F 33 32 11 31 34 3F ";
    let schema = hex(&format!("{before} {types} 14 00 1F"));
    assert_eq!(searched(&schema).0, 9);
    refused(&schema, 24, hex(before).len());
    never_written(&schema, 9);
}

#[test]
fn after_8_and_before_9() {
    // 7, then 8, then 24, then 9.
    let unknown = hex("10 01 11 00 01 13 00 05 00 11 00 01 14 00 1F");
    refused(&unknown, 7, 5);
    never_written(&unknown, 7);
    let treeless = hex("10 01 11 00 01 11 00 01 12 00 14 00 1F");
    refused(&treeless, 8, 0);
    never_written(&treeless, 8);
    let competing = file(
        3,
        &[
            (0, 2, &[1], &[(0, 1, 1), (0, 2, 1)]),
            leaf(1),
            leaf(1),
            leaf(2),
        ],
        0,
    );
    refused(&competing, 24, 2 + 3 + 2 + 8 + 10);
    never_written(&competing, 9);
    let roots = file_of_roots(2, &[leaf(0), leaf(0), leaf(1)], &[1, 0]);
    refused(&roots, 24, 12);
    never_written(&roots, 9);
    // Two types compete only with one that bears no tree, or in a type that is not reached.
    assert_eq!(searched(&two_readings(leaf(3))).0, 9);
    never_written(&two_readings(leaf(3)), 9);
    let bad: Block = (1, 2, &[1], &[(0, 2, 1), (0, 3, 1)]);
    let beside = file(3, &[leaf(0), bad, leaf(2), leaf(2)], 0);
    writes(&beside, &file(3, &[leaf(0)], 0));
}

#[test]
fn roots_of_dropped_types() {
    let blocks = [BARREN, leaf(1), BARREN, leaf(2), leaf(0), BARREN];
    let all = file_of_roots(3, &blocks, &[0, 4, 2, 1, 5, 3]);
    unused(&all, 2);
    let left = [leaf(1), leaf(2), leaf(0)];
    writes(&all, &file_of_roots(3, &left, &[2, 0, 1]));
    writes(
        &file_of_roots(3, &blocks, &[0, 3]),
        &file_of_roots(3, &[leaf(2)], &[0]),
    );
    writes(
        &file_of_roots(3, &blocks, &[3, 5, 2, 0]),
        &file_of_roots(3, &[leaf(2)], &[0]),
    );
}

#[test]
fn expressions_of_kept_types() {
    // Type 1 is not used.
    becomes(
        "10 03 11 00 00 30 32 02 33 31 32 03 34 3F 11 01 00 32 02 3F 11 01 00 3F 11 02 00 3F 14 00 1F",
        "10 03 11 00 00 30 32 01 33 31 32 02 34 3F 11 01 00 3F 11 02 00 3F 14 00 1F",
    );
    // The number of a type as a command's byte: 32 renumbered once, and what looks like one is an operand.
    let leaves = |count: usize| "11 01 01 12 00 ".repeat(count);
    let holder = |of: u8| format!("11 00 00 32 {of:02X} 34 3F");
    let unused = leaves(0x3E);
    becomes(
        &format!("10 02 {} {unused} 11 01 00 3F 14 00 1F", holder(0x3F)),
        &format!("10 02 {} 11 01 00 3F 14 00 1F", holder(1)),
    );
    becomes(
        &format!(
            "10 02 {} {} 11 01 00 3F 14 00 1F",
            holder(0x32),
            leaves(0x31)
        ),
        &format!("10 02 {} 11 01 00 3F 14 00 1F", holder(1)),
    );
}

#[test]
fn expressions_of_dropped_types() {
    // (1 | 2)*, where type 2 bears no tree.
    becomes(
        "10 02 11 00 00 30 32 01 33 32 02 31 34 3F 15 11 01 00 3F 11 01 01 14 00 1F",
        "10 02 11 00 03 12 00 12 01 12 02 13 00 01 01 13 01 01 01 13 02 01 01 15 11 01 00 3F 14 00 1F",
    );
    // 2* alone: no step is left.
    becomes(
        "10 02 11 00 00 32 01 34 3F 11 01 01 14 00 1F",
        "10 02 11 00 02 12 00 12 01 14 00 1F",
    );
    // 3 | 2 1*, where type 1 bears no tree: the steps rise by type before use, with new numbers.
    becomes(
        "10 03 11 00 00 32 03 33 32 02 32 01 34 3F 11 01 01 11 01 00 3F 11 02 00 3F 14 00 1F",
        "10 03 11 00 04 12 01 12 02 12 03 13 00 01 02 13 00 02 01 11 01 00 3F 11 02 00 3F 14 00 1F",
    );
    // One of two expressions; the other is copied.
    becomes(
        "10 03 11 00 00 32 02 34 32 01 34 3F 11 01 01 11 02 00 32 00 34 3F 15 14 00 1F",
        "10 03 11 00 03 12 00 12 01 12 02 13 00 01 01 13 01 01 01 11 02 00 32 00 34 3F 15 14 00 1F",
    );
    // An expression of a type that is dropped goes, its NIL too.
    becomes(
        "10 02 11 00 00 3F 11 01 00 30 32 00 33 32 01 31 3F 15 14 00 1F",
        "10 02 11 00 00 3F 14 00 1F",
    );
}

#[test]
fn a_written_file_longer_than_the_file() {
    // 31 uses in any order, the last of a type that bears no tree: 1 + 31 rows of 30 steps.
    let mut text = vec![0x30];
    text.extend((1..32).flat_map(|of| [0x32, of, 0x33]));
    text.extend([0x31, 0x34, 0x3F]);
    let leaves = |tags: u8| (1..tags).flat_map(|tag| [0x11, tag, 1, 0x12, 0]);
    let mut schema = vec![0x10, 32, 0x11, 0, 0];
    schema.extend(&text);
    schema.extend(leaves(31));
    schema.extend([0x11, 31, 1, 0x14, 0, 0x1F]);
    let mut expected = vec![0x10, 32, 0x11, 0, 32];
    expected.extend((0..32).flat_map(|state| [0x12, state]));
    let steps = (0..32).flat_map(|from| (1..31).map(move |of| [0x13, from, of, of]));
    expected.extend(steps.flatten());
    expected.extend(leaves(31));
    expected.extend([0x14, 0, 0x1F]);
    assert!(expected.len() > 10 * schema.len());
    writes(&schema, &expected);
}

#[test]
fn nillable_types() {
    // Used only as nil, though it has no plain tree; what it would hold is not used.
    becomes(
        "10 03 11 00 01 12 00 13 00 01 00 11 01 02 13 00 02 01 15 11 02 01 12 00 14 00 1F",
        "10 03 11 00 01 12 00 13 00 01 00 11 01 02 15 14 00 1F",
    );
    // A nillable type that is not reached, and one that is the root.
    becomes(
        "10 01 11 00 01 15 11 00 01 15 14 01 1F",
        "10 01 11 00 01 15 14 00 1F",
    );
    unused(&hex("10 01 11 00 01 15 11 00 01 15 14 01 1F"), 2);
    same(&hex("10 01 11 00 01 15 14 00 1F"));
    // NIL stays where it stands among the commands that stay.
    becomes(
        "10 02 11 00 02 13 00 01 01 15 12 00 13 00 00 01 12 01 11 01 01 14 00 1F",
        "10 02 11 00 02 15 12 00 13 00 00 01 12 01 14 00 1F",
    );
}

#[test]
fn refused_files() {
    for (schema, number) in [
        ("", 2),
        ("10 01 11 00 01 12 00 14 00", 2),
        ("1F", 3),
        ("10 01 11 00 01 12 00 14 00 1F 00", 3),
        ("10 21", 4),
        ("10 01 11 00 01 12 00 14 01 1F", 4),
        ("10 01 11 00 01 12 00 12 00 14 00 1F", 6),
        ("10 01 11 00 01 12 00 14 00 14 00 1F", 6),
        ("10 01 11 00 01 13 00 01 00 14 00 1F", 7),
        ("10 01 11 00 01 14 00 1F", 8),
        ("10 01 11 00 01 12 00 11 00 01 12 00 14 00 14 01 1F", 9),
        ("10 01 11 00 00 34 3F 14 00 1F", 21),
    ] {
        never_written(&hex(schema), number);
        assert_eq!(check(&hex(schema)).0, number);
    }
    let content = |text: String| hex(&format!("10 01 11 00 00 {text} 3F 14 00 1F"));
    never_written(&content("32 00 ".repeat(32)), 22);
    never_written(&content("30 ".repeat(17) + &"31 ".repeat(17)), 23);
    never_written(&hex(&("10 01 ".to_string() + &"11 00 01 ".repeat(65))), 5);
    for end in 0..boots().len() {
        never_written(&boots()[..end], 2);
    }
}

#[test]
fn documents_before_and_after() {
    // Hire boots, type 3, the mark, type 1, boots for sale, type 5; types 0, 2 and 4 are not used.
    let rack: Block = (0, 2, &[1], &[(0, 3, 0), (0, 2, 1), (0, 1, 1), (1, 5, 1)]);
    let barren: Block = (2, 1, &[], &[]);
    let blocks = [leaf(0), leaf(2), barren, leaf(1), leaf(1), leaf(1), rack];
    let schema = file(3, &blocks, 6);
    unused(&schema, 2);
    let left: Block = (0, 2, &[1], &[(0, 1, 0), (0, 0, 1), (1, 2, 1)]);
    let expected = file(3, &[leaf(2), leaf(1), leaf(1), left], 3);
    writes(&schema, &expected);
    let events = hex("21 00 21 01 22 01 21 02 22 02 21 01 22 01 22 00 2F");
    assert_eq!(read(&expected, &events), (0, 17, vec![3, 1, 0, 2]));
}
