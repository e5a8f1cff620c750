//! Files written without the types that no document uses: outputs of each length, each set of such types, small expressions, damaged files.

mod common;

use common::both_written;
use plain::codes::{CLOSE, FINISH, OPEN, OPEN_NIL};
use plain::limits::MOST_ROOTS;

/// Type 0, by states, holds 2, 3 and 4 of tags of their own; nothing leads to type 1, and type 3 bears no tree.
fn by_states() -> Vec<u8> {
    let mut schema = vec![0x10, 5, 0x11, 0, 2, 0x12, 1];
    schema.extend((2..5).flat_map(|by| [0x13, 0, by, 1]));
    schema.extend([
        0x11, 1, 1, 0x12, 0, 0x13, 0, 2, 0, 0x15, 0x11, 2, 1, 0x12, 0,
    ]);
    schema.extend([
        0x11, 3, 1, 0x11, 4, 1, 0x12, 0, 0x15, 0x14, 3, 0x14, 0, 0x1F,
    ]);
    schema
}

/// Type 0 by an expression, type 1 a leaf, type 2 treeless.
fn by_expression(text: &[u8]) -> Vec<u8> {
    let mut schema = vec![0x10, 3, 0x11, 0, 0];
    schema.extend(text);
    schema.extend([0x3F, 0x15, 0x11, 1, 0, 0x3F, 0x11, 2, 1, 0x14, 0, 0x1F]);
    schema
}

/// (1 | 2)*
const EITHER: [u8; 8] = [0x30, 0x32, 1, 0x33, 0x32, 2, 0x31, 0x34];

#[test]
fn outputs_of_every_length() {
    for (schema, length) in [(by_states(), 29), (by_expression(&EITHER), 31)] {
        for out in 0..=length + 40 {
            let answers = both_written(&schema, &[], out);
            let fits = out >= length;
            assert_eq!(answers.written, if fits { Ok(length) } else { Err(20) });
            assert_eq!(answers.schema.0, 24);
        }
        let same = typestock::reduced(&schema).unwrap();
        for out in 0..=length {
            let written = both_written(&same, &[], out).written;
            assert_eq!(written, if out == length { Ok(length) } else { Err(20) });
        }
    }
}

#[test]
fn every_expression_of_few_commands() {
    let signs: [&[u8]; 6] = [&[0x30], &[0x31], &[0x32, 1], &[0x32, 2], &[0x33], &[0x34]];
    let events = [
        OPEN, 0, OPEN, 1, CLOSE, 1, OPEN, 1, CLOSE, 1, CLOSE, 0, FINISH,
    ];
    let mut texts = vec![vec![]];
    for _ in 0..5 {
        texts = texts
            .iter()
            .flat_map(|text| signs.map(|sign| [text, sign].concat()))
            .collect();
        let written = |text: &&Vec<u8>| {
            let schema = by_expression(text);
            both_written(&schema, &events, 200).written.is_ok()
        };
        let taken = texts.iter().filter(written).count();
        assert!(0 < taken && taken < texts.len());
    }
}

/// Types of tags of their own that hold those after them; of each set of them those are treeless, and of each set
/// those are nillable.
#[test]
fn every_set_of_treeless_and_nillable_types() {
    const TYPES: u8 = 5;
    let has = |set: u32, of: u8| set >> of & 1 == 1;
    for (treeless, nillable) in (0..32).flat_map(|set| (0..32).map(move |other| (set, other))) {
        let mut schema = vec![0x10, TYPES];
        for of in 0..TYPES {
            schema.extend([0x11, of, 2]);
            schema.extend((of + 1..TYPES).flat_map(|by| [0x13, 0, by, by % 2]));
            schema.extend([0x12, 1, 0x12, 0].iter().filter(|_| !has(treeless, of)));
            schema.extend(has(nillable, of).then_some(0x15));
        }
        for roots in [&[0][..], &[2], &[3, 1], &[4, 0, 2]] {
            let mut schema = schema.clone();
            schema.extend(roots.iter().flat_map(|&root| [0x14, root]));
            schema.push(0x1F);
            for code in [OPEN, OPEN_NIL] {
                let events = [OPEN, roots[0], code, 4, CLOSE, 4, CLOSE, roots[0], FINISH];
                let answers = both_written(&schema, &events, 200);
                let bears = |&of: &u8| !has(treeless, of) || has(nillable, of);
                let some_root = roots.iter().any(bears);
                assert_eq!(answers.written.err(), (!some_root).then_some(8));
            }
        }
    }
}

#[test]
fn roots_of_every_set_of_treeless_types() {
    let all: Vec<u8> = (0..MOST_ROOTS as u8).collect();
    let turned: Vec<u8> = all.iter().rev().copied().collect();
    for (set, roots) in (0..256_u32).flat_map(|set| [(set, &all), (set, &turned)]) {
        let mut schema = vec![0x10, 8];
        for of in 0..8 {
            schema.extend([0x11, of, 1]);
            schema.extend([0x12, 0].iter().filter(|_| set >> of & 1 == 0));
        }
        schema.extend(roots.iter().flat_map(|&root| [0x14, root]));
        schema.push(0x1F);
        let left = set.count_zeros() as usize - 24;
        let expected = if left == 0 { Err(8) } else { Ok(3 + 7 * left) };
        let events = [OPEN, 5, CLOSE, 5, FINISH];
        assert_eq!(both_written(&schema, &events, 100).written, expected);
    }
}

#[test]
fn cut_at_every_byte_and_each_byte_changed() {
    for schema in [by_states(), by_expression(&EITHER)] {
        for end in 0..schema.len() {
            assert_eq!(both_written(&schema[..end], &[], 100).written, Err(2));
        }
        for (place, value) in (0..schema.len()).flat_map(|p| (0..=255).map(move |v| (p, v))) {
            let mut damaged = schema.clone();
            damaged[place] = value;
            both_written(&damaged, &[], 100);
        }
    }
}

/// Sixty-four types, of which every second is used, each by an expression over all that come after it up to the next
/// three that are used.
#[test]
fn sixty_four_types() {
    let mut schema = vec![0x10, 32];
    for of in 0..64_u8 {
        let used = of % 2 == 0;
        schema.extend([0x11, of / 2, 0]);
        let text = (of + 1..64.min(of + 7)).flat_map(|by| [0x32, by, 0x34]);
        schema.extend(text.take(if used { usize::MAX } else { 0 }));
        schema.extend([0x32, of].iter().filter(|_| !used));
        schema.push(0x3F);
    }
    schema.extend([0x14, 0, 0x1F]);
    let events = [
        OPEN, 0, OPEN, 1, OPEN, 4, CLOSE, 4, CLOSE, 1, CLOSE, 0, FINISH,
    ];
    let answers = both_written(&schema, &events, 10_000);
    assert_eq!(answers.schema, (24, 2 + 4 + 18));
    let length = answers.written.unwrap();
    for out in [0, schema.len(), length - 1] {
        assert_eq!(both_written(&schema, &events, out).written, Err(20));
    }
    assert!(length > schema.len());
    assert_eq!(both_written(&schema, &events, length).written, Ok(length));
}
