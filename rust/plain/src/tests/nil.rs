//! Elements that are empty on purpose.

mod commands;
mod competing;
mod documents;
mod values;

use super::{Block, block_bytes, file_of_bytes, leaf};
use crate::Kind;

/// No kind, each alone, and both, in the order of the sets' numbers.
const SOME_KINDS: [&[Kind]; 4] = [&[], &[Kind::Plain], &Kind::ALL, &[Kind::Nil]];

/// A block that is not nillable.
fn plain(block: Block) -> Vec<u8> {
    block_bytes(&block)
}

/// A nillable one.
pub(super) fn nil(block: Block) -> Vec<u8> {
    [block_bytes(&block), vec![0x15]].concat()
}

/// A type of this tag without children, with trees opened by these kinds.
pub(super) fn childless(tag: u8, kinds: &[Kind]) -> Vec<u8> {
    let accepting: &[u8] = match kinds.contains(&Kind::Plain) {
        true => &[0],
        false => &[],
    };
    let block: Block = (tag, 1, accepting, &[]);
    match kinds.contains(&Kind::Nil) {
        true => nil(block),
        false => plain(block),
    }
}

/// A wall of racks; on a rack hire boots, the sale mark, boots for sale. A rack may be empty on purpose.
pub(super) fn wall() -> Vec<u8> {
    let wall: Block = (0, 1, &[0], &[(0, 1, 0)]);
    let rack: Block = (1, 2, &[1], &[(0, 2, 0), (0, 3, 1), (1, 4, 1)]);
    let boots = [leaf(2), leaf(3), leaf(2)].map(plain);
    file_of_bytes(4, &[&[plain(wall), nil(rack)], &boots[..]].concat(), &[0])
}

/// Type 0, tag 0, holds one child of type 1, tag 1.
pub(super) fn over_one(child: Vec<u8>) -> Vec<u8> {
    let owner: Block = (0, 2, &[1], &[(0, 1, 1)]);
    file_of_bytes(2, &[plain(owner), child], &[0])
}
