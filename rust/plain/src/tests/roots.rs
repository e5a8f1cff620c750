//! Schemas with more than one root.

use super::{
    Block, CLOSE, FINISH, OPEN, accepted, boots, check, confirmed, file_of_roots, hex, leaf,
    longest_file, print, read, reduced, refused, row, searched, stated, unused,
};
use crate::Trimming;

/// No finite tree has this type.
const BARREN: Block = (0, 1, &[], &[]);

/// Nine leaves, each of a tag of its own.
fn nine_leaves(roots: &[u8]) -> Vec<u8> {
    let leaves: Vec<Block> = (0..9).map(leaf).collect();
    file_of_roots(9, &leaves, roots)
}

/// The place of the ROOT after so many, if the roots were in the file of nine leaves.
fn place(roots: usize) -> usize {
    2 + 9 * 5 + 2 * roots
}

/// Price lists, type 0, and stock lists, type 1, both of articles; an article, tag 2, is of type 2 in
/// a price list and of type 3 in a stock list.
fn lists(roots: &[u8]) -> Vec<u8> {
    let prices: Block = (0, 1, &[0], &[(0, 2, 0)]);
    let stock: Block = (1, 1, &[0], &[(0, 3, 0)]);
    file_of_roots(3, &[prices, stock, leaf(2), leaf(2)], roots)
}

#[test]
fn a_document_may_have_any_root() {
    for roots in [[0, 1], [1, 0]] {
        let schema = lists(&roots);
        accepted(&schema);
        assert_eq!(read(&schema, &row(0, &[2, 2])), (0, 13, vec![0, 2, 2]));
        assert_eq!(read(&schema, &row(1, &[2, 2])), (0, 13, vec![1, 3, 3]));
        assert_eq!(read(&schema, &[OPEN, 2]), (13, 0, vec![]));
        assert_eq!(read(&schema, &[OPEN, 3]), (12, 0, vec![]));
    }
    assert_eq!(read(&reduced(&lists(&[1])), &row(0, &[])), (13, 0, vec![]));
    assert_eq!(
        print(&lists(&[0, 1]), &row(1, &[2])),
        b"depth tag type\n1 1 1\n2 2 3\naccepted 2\n"
    );
}

#[test]
fn one_root_a_document() {
    let after = |then: &[u8]| read(&lists(&[0, 1]), &[&[OPEN, 0, CLOSE, 0], then].concat());
    assert_eq!(after(&[OPEN, 0]), (13, 4, vec![0]));
    assert_eq!(after(&[OPEN, 1]), (13, 4, vec![0]));
    assert_eq!(after(&[FINISH]), (0, 5, vec![0]));
    assert_eq!(read(&lists(&[0, 1]), &[OPEN, 0, OPEN, 1]).0, 13);
}

#[test]
fn roots_in_the_order_of_the_file() {
    let schema = stated(&nine_leaves(&[7, 0, 8, 3]));
    assert_eq!(schema.root_types(), [7, 0, 8, 3]);
    assert_eq!(schema.root, [7, 0, 8, 3, 0, 0, 0, 0]);
    assert_eq!(stated(&boots()).root_types(), [0]);
}

#[test]
fn eight_roots() {
    for count in 1..=8 {
        let roots: Vec<u8> = (0..count).rev().collect();
        let schema = nine_leaves(&roots);
        unused(&schema, 2 + 5 * usize::from(count));
        let schema = reduced(&schema);
        for tag in 0..9 {
            let (number, at, types) = read(&schema, &row(tag, &[]));
            let expected = if tag < count { (0, 5) } else { (13, 0) };
            assert_eq!((number, at), expected);
            assert_eq!(types.first().copied(), (tag < count).then_some(tag));
        }
    }
    refused(&nine_leaves(&[]), 3, place(0));
    refused(&nine_leaves(&[0, 1, 2, 3, 4, 5, 6, 7, 8]), 5, place(8));
}

#[test]
fn questions_of_a_root_in_order() {
    let eight = [0, 1, 2, 3, 4, 5, 6, 7];
    let with = |roots: &[u8], more: u8| nine_leaves(&[roots, &[more]].concat());
    // A ninth that repeats gets 5, one whose type was not given 4.
    refused(&with(&eight, 0), 5, place(8));
    refused(&with(&eight, 9), 4, place(8));
    refused(&with(&eight[..7], 9), 4, place(7));
    refused(&with(&eight[..7], 255), 4, place(7));
    // A repeat, right after the first and later.
    refused(&with(&[4], 4), 6, place(1));
    refused(&with(&eight[..7], 0), 6, place(7));
    refused(&with(&eight[..7], 6), 6, place(7));
    // An operand past the end.
    let cut = |roots: &[u8]| {
        let mut file = nine_leaves(roots);
        file.truncate(file.len() - 2);
        file
    };
    refused(&cut(&[0]), 2, place(0));
    refused(&cut(&[0, 0]), 2, place(1));
    refused(&cut(&[0, 1, 2, 3, 4, 5, 6, 7, 8]), 2, place(8));
    // Before 7 and 8.
    refused(&hex("10 01 11 00 01 13 00 05 00 14 00 14 00 1F"), 6, 11);
    refused(&hex("10 01 11 00 01 14 00 14 01 1F"), 4, 7);
}

#[test]
fn roots_stand_together() {
    for between in [
        "10 01",
        "11 00 01",
        "11 00 00 3F",
        "12 00",
        "13 00 00 00",
        "15",
        "30",
        "32 00",
        "3F",
    ] {
        let file = format!("10 01 11 00 01 12 00 11 00 01 14 00 {between} 14 01 1F");
        refused(&hex(&file), 3, 12);
    }
    refused(&hex("10 01 11 00 01 12 00 14 00 15 14 00 1F"), 3, 9);
    refused(&hex("10 01 11 00 01 12 00 14 00 20 14 00 1F"), 2, 9);
    refused(&hex("10 01 11 00 01 12 00 14 00 1F 14 00"), 3, 10);
    // Before the first TYPE, also with a type that is never given.
    refused(&hex("10 01 14 00 14 01"), 3, 2);
    // After an expression.
    accepted(&hex("10 02 11 00 00 3F 11 01 00 3F 14 01 14 00 1F"));
    refused(&hex("10 01 11 00 00 14 00"), 3, 5);
}

#[test]
fn a_root_that_bears_a_tree() {
    let file = |roots: &[u8]| file_of_roots(2, &[BARREN, BARREN, leaf(1)], roots);
    refused(&file(&[0]), 8, 0);
    refused(&file(&[0, 1]), 8, 0);
    // Two roots of one tag that bear no tree do not compete, and one of them with one that does.
    unused(&file(&[0, 2]), 2);
    unused(&file(&[2, 1, 0]), 2);
    let left = reduced(&file(&[1, 2]));
    assert_eq!(read(&left, &row(1, &[])), (0, 5, vec![0]));
    assert_eq!(read(&left, &row(0, &[])), (13, 0, vec![]));
    let one_bears = reduced(&file_of_roots(1, &[BARREN, leaf(0)], &[0, 1]));
    assert_eq!(read(&one_bears, &row(0, &[])), (0, 5, vec![0]));
}

#[test]
fn roots_of_one_tag_compete() {
    let schema = file_of_roots(1, &[leaf(0), leaf(0)], &[0, 1]);
    assert_eq!(check(&schema), (9, 0, hex("FF 00 01 00 00")));
    assert_eq!(
        print(&schema, &row(0, &[])),
        b"schema refused 9 at 0\ntype 255 gives 0 or 1 after 0\n"
    );
    // J is less than K in whichever order they are given.
    let blocks = [leaf(0), leaf(1), leaf(2), leaf(1)];
    let turned = file_of_roots(3, &blocks, &[3, 0, 1]);
    assert_eq!(searched(&turned), (9, 0, hex("FF 01 03 00 00")));
    // Only one of them is a root.
    unused(&file_of_roots(3, &blocks, &[3, 0]), 7);
    // They compete whatever stands in them.
    let empty: Block = (0, 1, &[0], &[]);
    let full: Block = (0, 2, &[1], &[(0, 1, 1)]);
    let schema = file_of_roots(2, &[empty, leaf(1), full], &[2, 0]);
    assert_eq!(check(&schema), (9, 0, hex("FF 00 02 00 00")));
}

#[test]
fn any_two_that_compete() {
    let blocks: Vec<Block> = (0..8).map(|of| leaf(of % 3)).collect();
    let schema = file_of_roots(3, &blocks, &[7, 6, 5, 4, 3, 2, 1, 0]);
    let (number, at, bytes) = check(&schema);
    assert_eq!((number, at, bytes.len()), (9, 0, 5));
    for (one, other) in (0..10).flat_map(|one| (0..10).map(move |other| (one, other))) {
        let competes = one < other && other < 8 && one % 3 == other % 3;
        assert_eq!(confirmed(&schema, 255, one, other, &[]), competes);
    }
    assert!(confirmed(&schema, 255, bytes[1], bytes[2], &[]));
    for within in [0, 63, 64, 254] {
        assert!(!confirmed(&schema, within, 0, 3, &[]));
    }
    assert!(!confirmed(&schema, 255, 0, 3, &[1]));
}

#[test]
fn roots_are_looked_at_first() {
    // In type 0, the root or the first of the roots, types 3 and 4 compete at once.
    let within: Block = (0, 2, &[1], &[(0, 3, 1), (0, 4, 1)]);
    let blocks = [within, leaf(1), leaf(1), leaf(2), leaf(2)];
    let file = |roots: &[u8]| file_of_roots(3, &blocks, roots);
    assert_eq!(searched(&file(&[0])), (9, 0, hex("00 03 04 00 00")));
    assert_eq!(searched(&file(&[0, 1])), (9, 0, hex("00 03 04 00 00")));
    assert_eq!(check(&file(&[0, 2, 1])), (9, 0, hex("FF 01 02 00 00")));
    assert!(confirmed(&file(&[0, 1]), 0, 3, 4, &[]));
    assert!(!confirmed(&file(&[0, 2, 1]), 0, 3, 4, &[]));
    assert!(!confirmed(&file(&[0, 1]), 255, 1, 2, &[]));
    assert!(!confirmed(&file(&[0, 1]), 255, 3, 4, &[]));
    // Roots that bear no tree are no witness.
    let barren = file_of_roots(2, &[BARREN, BARREN, leaf(1)], &[0, 1, 2]);
    assert!(!confirmed(&barren, 255, 0, 1, &[]));
}

#[test]
fn each_root_is_reached() {
    // Competition under the second root alone, whose number is the smaller or the larger.
    let bad: Block = (1, 2, &[1], &[(0, 2, 1), (0, 3, 1)]);
    let leaves = [leaf(2), leaf(2)];
    let blocks = [&[leaf(0), bad][..], &leaves].concat();
    unused(&file_of_roots(3, &blocks, &[0]), 7);
    assert_eq!(
        check(&file_of_roots(3, &blocks, &[0, 1])),
        (9, 0, hex("01 02 03 00 00"))
    );
    // In two types, of which one is below a root.
    let above: Block = (0, 2, &[1], &[(0, 1, 1)]);
    let beside: Block = (2, 2, &[1], &[(0, 2, 1), (0, 3, 1)]);
    let blocks = [&[above, bad][..], &leaves, &[beside]].concat();
    let within = |roots: &[u8]| searched(&file_of_roots(3, &blocks, roots)).2[0];
    assert_eq!((within(&[4]), within(&[4, 0]), within(&[0, 4])), (4, 1, 1));
}

#[test]
fn reached_from_all_roots() {
    let holds = |tag: u8, steps: &'static [(u8, u8, u8)]| -> Block { (tag, 1, &[0], steps) };
    let blocks = [
        holds(0, &[(0, 3, 0)]),
        holds(1, &[(0, 4, 0)]),
        holds(2, &[(0, 5, 0)]),
        leaf(3),
        holds(4, &[(0, 3, 0), (0, 1, 0)]),
        leaf(5),
        BARREN,
    ];
    let reached = |roots: &[u8]| -> Vec<usize> {
        let trimming = Trimming::of(&stated(&file_of_roots(6, &blocks, roots)));
        (0..64).filter(|&of| trimming.reached[of]).collect()
    };
    assert_eq!(reached(&[0]), [0, 3]);
    assert_eq!(reached(&[1]), [1, 3, 4]);
    assert_eq!(reached(&[2, 0]), [0, 2, 3, 5]);
    // A root that bears no tree is reached, and leads to nothing.
    assert_eq!(reached(&[6, 2]), [2, 5, 6]);
    assert_eq!(reached(&[3, 0, 1, 2, 4, 5, 6]), [0, 1, 2, 3, 4, 5, 6]);
}

/// With eight roots a file of old commands alone has up to 14 bytes more than with one.
#[test]
fn the_longest_file_with_eight_roots() {
    let bytes = longest_file((0..8).map(|of| 63 - 2 * of));
    assert_eq!(bytes.len(), 8389 + 14);
    accepted(&bytes);
}
