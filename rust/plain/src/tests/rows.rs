//! The rows of the steps that count, and event files over both layouts.

use super::{
    Block, OPEN, boots, file, file_of_roots, hex, leaf, nesting, row, stated, two_readings,
};
use crate::kinds::Kinds;
use crate::rows::Entry;
use crate::{Kind, Rows, States, Trimming, event_file, event_file_by_steps};

fn rows(file: &[u8]) -> Rows {
    Trimming::of(&stated(file)).rows
}

/// From, type, to and tag of each entry of a row.
fn entries(rows: &Rows, within: u8, state: u8) -> Vec<[u8; 4]> {
    let parts = |&entry: &Entry| [entry.from(), entry.by(), entry.to(), entry.tag()];
    rows.row(within, state).iter().map(parts).collect()
}

#[test]
fn rows_of_the_boots() {
    let rows = rows(&boots());
    assert_eq!(entries(&rows, 0, 0), [[0, 1, 0, 1], [0, 2, 1, 2]]);
    assert_eq!(entries(&rows, 0, 1), [[1, 3, 1, 1]]);
    // No type is nillable.
    let plain = 1 << 24;
    let words = [
        1 << 10 | 1 << 19 | plain,
        1 << 5 | 2 << 10 | 2 << 19 | plain,
        1 | 1 << 5 | 3 << 10 | 1 << 19 | plain,
    ];
    assert_eq!(rows.entries[..3], words.map(Entry));
    assert!(rows.entries[3..].iter().all(|&entry| entry == Entry(0)));
    assert_eq!(rows.begins[..2], [0, 2]);
    assert!(rows.begins[2..=4 * 32].iter().all(|&begin| begin == 3));
    assert!(rows.begins[4 * 32 + 1..].iter().all(|&begin| begin == 0));
}

#[test]
fn kinds_of_the_entries() {
    // Types 1 to 4 have trees that are plain, nil, of both kinds and of none.
    let file = hex(
        "10 05 11 00 02 12 01 13 00 01 01 13 00 02 01 13 00 03 01 13 00 04 01 \
         11 01 01 12 00 11 02 01 15 11 03 01 12 00 15 11 04 01 14 00 1F",
    );
    let rows = rows(&file);
    let opened: Vec<_> = rows.row(0, 0).iter().map(|entry| entry.opened()).collect();
    assert_eq!(opened, [Kinds::PLAIN, Kinds::NIL, Kinds::BOTH]);
    for (n, (entry, kinds)) in (1..).zip(rows.entries.iter().zip([1, 3, 2])) {
        assert_eq!(entry.0, 1 << 5 | n << 10 | n << 19 | kinds << 24);
    }
    for (tag, kind) in (0..5).flat_map(|tag| Kind::ALL.map(|kind| (tag, kind))) {
        let found = rows.smallest(0, States::START, kind, tag);
        let has = rows
            .row(0, 0)
            .iter()
            .any(|entry| entry.tag() == tag && entry.opened().has(kind));
        assert_eq!(found, has.then_some((tag, States::only(1))));
    }
}

#[test]
fn steps_that_do_not_count() {
    // Type 1 bears no tree, and state 2 is not live.
    let steps = &[(0, 1, 1), (1, 2, 0), (0, 2, 2), (0, 2, 1), (1, 2, 1)];
    let barren: Block = (1, 1, &[], &[]);
    let rows = rows(&file(3, &[(0, 3, &[1], steps), barren, leaf(2)], 0));
    assert_eq!(entries(&rows, 0, 0), [[0, 2, 1, 2]]);
    assert_eq!(entries(&rows, 0, 1), [[1, 2, 0, 2], [1, 2, 1, 2]]);
    assert!(entries(&rows, 0, 2).is_empty());
    assert_eq!(rows.begins[3 * 32], 3);
}

#[test]
fn as_many_rows_as_there_are() {
    let steps: Vec<_> = (0..32)
        .flat_map(|from| (0..32).map(move |to| (from, 63, to)))
        .collect();
    let mut blocks = vec![leaf(1); 64];
    blocks[0] = (0, 32, &[31], &steps);
    let rows = rows(&file(2, &blocks, 0));
    assert_eq!(rows.begins[64 * 32], 1024);
    assert_eq!(entries(&rows, 0, 31)[31], [31, 63, 31, 1]);
    assert!(entries(&rows, 63, 31).is_empty());
}

#[test]
fn both_layouts_answer_alike() {
    let lists: Block = (2, 1, &[0], &[(0, 0, 0), (0, 1, 0)]);
    let barren: Block = (0, 1, &[], &[]);
    let roots = file_of_roots(3, &[leaf(0), leaf(1), lists, barren], &[3, 2, 1]);
    let schemas = [boots(), nesting(), two_readings(leaf(3)), roots];
    let files = [
        row(2, &[0, 1, 1]),
        row(1, &[]),
        row(0, &[1, 1, 2, 1]),
        row(0, &[2, 2]),
        row(0, &[]),
        [OPEN, 0].repeat(65),
    ];
    for schema in schemas.iter().map(|file| stated(file)) {
        for (file, room) in files
            .iter()
            .flat_map(|file| [(file, 0), (file, 2), (file, 80)])
        {
            let mut types = [vec![9; room], vec![9; room]];
            let [ours, theirs] = &mut types;
            let answer = event_file::read(&schema, file, ours);
            assert_eq!(answer, event_file_by_steps::read(&schema, file, theirs));
            assert_eq!(ours, theirs);
        }
    }
}
