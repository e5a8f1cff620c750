//! Damage to files: by commands, and by bytes.

use crate::chance::Chance;
use plain::codes::{
    CLOSE, CLOSE_BRACKET, DONE, END, FINAL, FINISH, NEXT, NIL, OPEN, OPEN_BRACKET, OPEN_NIL,
    REPEAT, ROOT, STEP, TAGS, TYPE, USE,
};
use plain::limits::{MOST_ROOTS, MOST_STATES, MOST_STEPS, MOST_TYPES};

/// Bytes at the edges of the file forms.
const EDGES: [u8; 24] = [
    0x00,
    0x01,
    TAGS,
    TYPE,
    FINAL,
    STEP,
    ROOT,
    NIL,
    DONE,
    0x20,
    OPEN,
    CLOSE,
    OPEN_NIL,
    FINISH,
    OPEN_BRACKET,
    CLOSE_BRACKET,
    USE,
    NEXT,
    REPEAT,
    0x35,
    END,
    0x40,
    0x80,
    0xFF,
];

/// Damages a schema file, its commands first.
pub fn schema(chance: &mut Chance, file: &mut Vec<u8>) {
    match chance.below(10) {
        0..5 => commands(chance, file),
        5..9 => bytes(chance, file),
        _ => {
            commands(chance, file);
            bytes(chance, file);
        }
    }
}

/// The offsets of the commands of a file that was not damaged, and its length.
pub fn offsets(file: &[u8]) -> Vec<usize> {
    let mut offsets = vec![0];
    let mut place = 0;
    while place < file.len() {
        place += match file[place] {
            TAGS | FINAL | ROOT | USE => 2,
            TYPE => 3,
            STEP => 4,
            _ => 1,
        };
        offsets.push(place);
    }
    offsets
}

fn commands(chance: &mut Chance, file: &mut Vec<u8>) {
    let offsets = offsets(file);
    let count = offsets.len() - 1;
    let pick = chance.below(count);
    let (start, end) = (offsets[pick], offsets[pick + 1]);
    let command = file[start..end].to_vec();
    match chance.below(15) {
        // Again, at once or anywhere.
        0 => insert(file, end, &command),
        1 => insert(file, offsets[chance.below(count + 1)], &command),
        // Never.
        2 => drop(file.drain(start..end)),
        // In another place.
        3 => {
            file.drain(start..end);
            let place = if pick == 0 {
                0
            } else {
                offsets[chance.below(pick)]
            };
            insert(file, place, &command);
        }
        4..6 => unknown_type(chance, file, &offsets),
        6..8 => operand(chance, file, start, end),
        8 => too_many(chance, file, &offsets),
        9..11 => roots(chance, file, &offsets),
        11..13 => {
            let sign = chance.of(&[OPEN_BRACKET, CLOSE_BRACKET, USE, NEXT, REPEAT, END]);
            let of = (sign == USE).then(|| chance.small(0..=5));
            let inserted: Vec<u8> = [sign].into_iter().chain(of).collect();
            insert(file, start, &inserted);
        }
        13 => nil(chance, file, &offsets),
        _ => {
            let any = [
                chance.small(TAGS..=NIL),
                chance.small(0..=3),
                chance.small(0..=3),
                chance.small(0..=3),
            ];
            let length = chance.within(1..=4);
            insert(file, start, &any[..length]);
        }
    }
}

fn insert(file: &mut Vec<u8>, place: usize, bytes: &[u8]) {
    file.splice(place..place, bytes.iter().copied());
}

/// A STEP or a use, or several, of a type that may not have been given.
fn unknown_type(chance: &mut Chance, file: &mut [u8], offsets: &[usize]) {
    let named = |&place: &usize| match file.get(place) {
        Some(&STEP) => Some(place + 2),
        Some(&USE) => Some(place + 1),
        _ => None,
    };
    let named: Vec<usize> = offsets.iter().filter_map(named).collect();
    if named.is_empty() {
        return;
    }
    for _ in 0..chance.within(1..=2) {
        let by = if chance.percent(70) {
            chance.small(1..=12)
        } else {
            chance.small(50..=64)
        };
        file[chance.of(&named)] = by;
    }
}

/// Another value for an operand, near the one that it had or at a limit.
fn operand(chance: &mut Chance, file: &mut [u8], start: usize, end: usize) {
    if end - start < 2 {
        return;
    }
    let operand = &mut file[start + 1 + chance.below(end - start - 1)];
    *operand = match chance.below(4) {
        0 => operand.wrapping_add(1),
        1 => operand.wrapping_sub(1),
        2 => chance.of(&[0, 1, 31, 32, 33, 63, 64, 65, 255]),
        _ => chance.small(0..=8),
    };
}

/// The place of the first ROOT of a file that was not damaged.
fn first_root(file: &[u8], offsets: &[usize]) -> usize {
    let mut offsets = offsets.iter().copied();
    let root = offsets.find(|&place| file[place] == ROOT);
    root.expect("a file has a ROOT")
}

/// Damages the ROOTs: another type, one of them again, one more, another command among them, or about
/// as many as there may be.
fn roots(chance: &mut Chance, file: &mut Vec<u8>, offsets: &[usize]) {
    let first = first_root(file, offsets);
    let count = given(file, offsets, ROOT);
    let place = first + 2 * chance.below(count + 1);
    match chance.below(6) {
        0 => file[first + 2 * chance.below(count) + 1] = chance.small(0..=12),
        1 => insert(file, place, &[ROOT, chance.small(0..=12)]),
        2 => {
            let again = file[first + 2 * chance.below(count) + 1];
            insert(file, place, &[ROOT, again]);
        }
        3 => {
            let other: &[&[u8]] = &[
                &[TYPE, 0, 1],
                &[TYPE, 0, 0, END],
                &[FINAL, 0],
                &[STEP, 0, 0, 0],
                &[NIL],
                &[TAGS, 1],
                &[DONE],
                &[END],
            ];
            insert(file, place, chance.of(other));
        }
        _ => many_roots(chance, file, offsets),
    }
}

/// Types that bear no tree, and ROOTs of them up to about the most; then perhaps one of a type that has
/// one, or that was not given.
fn many_roots(chance: &mut Chance, file: &mut Vec<u8>, offsets: &[usize]) {
    let [types, roots] = [TYPE, ROOT].map(|command| given(file, offsets, command));
    let wanted = chance.within(MOST_ROOTS - 1..=MOST_ROOTS + 1);
    let more = wanted.saturating_sub(roots);
    let any = chance.below(types + more + 1);
    let last = chance.percent(40).then_some(any);
    let of_roots = (types..types + more).chain(last);
    let roots: Vec<u8> = of_roots.flat_map(|of| [ROOT, of as u8]).collect();
    let first = first_root(file, offsets);
    let place = chance.of(&[first, file.len() - 1]);
    insert(file, place, &roots);
    insert(file, first, &[TYPE, 0, 1].repeat(more));
}

/// A NIL anywhere, or one or two at the end of a block or of its expression; then perhaps a command of the block.
fn nil(chance: &mut Chance, file: &mut Vec<u8>, offsets: &[usize]) {
    let ends: Vec<usize> = offsets[1..]
        .iter()
        .copied()
        .filter(|&place| matches!(file.get(place), Some(&(TYPE | ROOT | END))))
        .collect();
    let place = match chance.below(3) {
        0 => chance.of(offsets),
        _ => chance.of(&ends),
    };
    let mut inserted = vec![NIL; chance.within(1..=2)];
    if chance.once_in(3) {
        let then: &[&[u8]] = &[&[FINAL, 0], &[STEP, 0, 0, 0], &[END]];
        inserted.extend(chance.of(then));
    }
    insert(file, place, &inserted);
}

/// How often a command stands in a file that was not damaged.
fn given(file: &[u8], offsets: &[usize], command: u8) -> usize {
    let stands = |place: &&usize| file.get(**place) == Some(&command);
    offsets.iter().filter(stands).count()
}

/// As many TYPE or STEP commands as there may be, or one less, and then one more.
fn too_many(chance: &mut Chance, file: &mut Vec<u8>, offsets: &[usize]) {
    let [types, steps] = [TYPE, STEP].map(|command| given(file, offsets, command));
    let root = first_root(file, offsets);
    let one_less = usize::from(chance.once_in(4));
    let mut more = vec![];
    if chance.percent(75) {
        more.extend([TYPE, 0, 1].repeat(MOST_TYPES.saturating_sub(types + one_less)));
        more.extend([TYPE, chance.small(0..=5), chance.small(0..=33)]);
    } else {
        let by = chance.small(0..=63);
        let count = MOST_STEPS.saturating_sub(steps + one_less);
        more.extend([TYPE, 0, MOST_STATES as u8]);
        let ends = |step: usize| ((step % MOST_STATES) as u8, (step / MOST_STATES) as u8);
        more.extend(
            (0..count)
                .map(ends)
                .flat_map(|(from, to)| [STEP, from, by, to]),
        );
        let other = if chance.percent(50) {
            by
        } else {
            chance.small(0..=64)
        };
        more.extend([STEP, chance.small(0..=32), other, chance.small(0..=32)]);
    }
    insert(file, root, &more);
}

/// Damages any file by its bytes.
pub fn bytes(chance: &mut Chance, file: &mut Vec<u8>) {
    for _ in 0..chance.of(&[1, 1, 1, 2, 3]) {
        byte(chance, file);
    }
}

fn byte(chance: &mut Chance, file: &mut Vec<u8>) {
    let place = chance.below(file.len() + 1);
    let other = chance.below(file.len() + 1);
    let any = if chance.percent(60) {
        chance.of(&EDGES)
    } else {
        chance.byte()
    };
    match chance.below(8) {
        0 => file.truncate(place),
        1 => file.push(any),
        2 => file.insert(place, any),
        3 => {
            let part = file[place.min(other)..place.max(other).min(place.min(other) + 12)].to_vec();
            insert(file, other, &part);
        }
        _ if place >= file.len() || other >= file.len() => {}
        4 => drop(file.remove(place)),
        5 => file.swap(place, other),
        6 => file[place] = any,
        _ => file[place] ^= 1 << chance.below(8),
    }
}

/// Bytes of no particular file, often such as stand in files.
pub fn random(chance: &mut Chance) -> Vec<u8> {
    let length = chance.below(60);
    let share = chance.of(&[0, 50, 90]);
    (0..length)
        .map(|_| match chance.percent(share) {
            true if chance.percent(50) => chance.small(0..=3),
            true => chance.of(&EDGES),
            false => chance.byte(),
        })
        .collect()
}
