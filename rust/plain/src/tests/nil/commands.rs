//! The command NIL.

use super::super::{accepted, file_of_bytes, hex, leaf, longest_file, refused, stated, unused};
use super::{nil, plain};
use crate::Schema;

#[test]
fn in_a_block_by_states() {
    let commands = ["12 01", "13 00 00 00", "13 00 00 01"];
    let file = |block: &[&str]| hex(&format!("10 01 11 00 02 {} 14 00 1F", block.join(" ")));
    for place in 0..=commands.len() {
        let mut block = commands.to_vec();
        block.insert(place, "15");
        assert!(stated(&file(&block)).nillable[0]);
        accepted(&file(&block));
        for again in place + 1..=block.len() {
            let mut block = block.clone();
            block.insert(again, "15");
            let before = hex(&block[..again].join(" ")).len();
            refused(&file(&block), 6, 5 + before);
        }
    }
    // The other commands of the block are asked what they were.
    refused(&hex("10 01 11 00 02 12 01 15 12 01"), 6, 8);
    refused(&hex("10 01 11 00 02 13 00 00 01 15 13 00 00 01"), 6, 10);
    refused(&hex("10 01 11 00 02 15 12 02"), 4, 6);
    refused(&hex("10 01 11 00 02 13 00 07 01 15 14 00 1F"), 7, 5);
}

#[test]
fn after_an_expression() {
    for content in ["", "32 00", "30 32 00 33 31 34"] {
        let before = format!("10 01 11 00 00 {content} 3F");
        let place = hex(&before).len();
        let then = |more: &str| hex(&format!("{before} {more}"));
        assert!(stated(&then("15 14 00 1F")).nillable[0]);
        accepted(&then("15 14 00 1F"));
        unused(&then("15 11 00 01 15 14 00 1F"), place + 1);
        refused(&then("15 15"), 6, place + 1);
        for other in ["12 00", "13 00 00 00", "32 00", "3F", "1F", "10 01"] {
            refused(&then(other), 3, place);
            refused(&then(&format!("15 {other}")), 3, place + 1);
        }
        // The end of the file, and a byte that is no command.
        refused(&then("15"), 2, place + 1);
        refused(&then("15 20"), 2, place + 1);
    }
}

#[test]
fn inside_an_expression() {
    for content in ["", "32 00", "30", "30 32 00 34 33"] {
        let before = format!("10 01 11 00 00 {content}");
        let place = hex(&before).len();
        refused(&hex(&format!("{before} 15 3F 14 00 1F")), 3, place);
    }
}

#[test]
fn outside_a_block() {
    refused(&hex("15"), 3, 0);
    refused(&hex("10 01 15"), 3, 2);
    refused(&hex("10 01 11 00 01 12 00 14 00 15 1F"), 3, 9);
    refused(&hex("10 01 11 00 01 15 14 00 15"), 3, 8);
    refused(&hex("10 02 11 00 01 15 11 01 01 15 14 00 15 14 01"), 3, 12);
    refused(&hex("10 01 11 00 01 12 00 14 00 1F 15"), 3, 10);
}

#[test]
fn once_in_each_block() {
    let nillable = [0, 2, 3, 63];
    let block = |of: u8| match nillable.contains(&of) {
        true => nil(leaf(0)),
        false => plain(leaf(0)),
    };
    let blocks: Vec<Vec<u8>> = (0..64).map(block).collect();
    let schema = stated(&file_of_bytes(1, &blocks, &[0]));
    for (of, flag) in (0..).zip(schema.nillable) {
        assert_eq!(flag, nillable.contains(&of));
    }
    assert_eq!(Schema::BLANK.nillable, [false; 64]);
}

/// NIL is no command of the 8,389 bytes.
#[test]
fn the_longest_file() {
    let mut bytes = longest_file(std::iter::once(0));
    let block = (bytes.len() - 5) / 64;
    for of in (1..=64).rev() {
        bytes.insert(2 + of * block, 0x15);
    }
    assert_eq!(bytes.len(), 8389 + 64);
    accepted(&bytes);
}
