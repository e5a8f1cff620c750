//! What is tested of each answer before it is handed on: that it is one of document 01's, or of document 02's 21 to 24, for what was asked.
use crate::event::{OPEN, OPEN_NIL};
use crate::{foreign, witness, LEVELS, OPENINGS, WITNESS};

/// Types are below this.
pub const TYPES: u8 = 64;

/// Tags are below this.
const TAGS: u8 = 32;

/// A schema file's: 0 to 9 or 21 to 24; 1 exactly with a short buffer; the place inside the file, at its end for 2 alone, 0 where no command
/// is in question; on 9 a witness, of two types in a type or of two roots.
pub fn schema(number: u8, place: usize, length: usize, buffer: &[u8]) {
    assert!(
        matches!(number, 0..=9 | 21..=24),
        "typestock: no schema's answer is {number}"
    );
    assert!(
        (number == 1) == (buffer.len() < WITNESS),
        "typestock: a schema was answered {number} with a witness buffer of {} bytes",
        buffer.len()
    );
    let fits = match number {
        2 => place <= length,
        3..=7 | 21..=24 => place < length,
        _ => place == 0,
    };
    assert!(
        fits,
        "typestock: a schema of {length} bytes was answered {number} at {place}"
    );
    assert!(
        number != 9 || witness(buffer).is_some(),
        "typestock: a schema was refused with 9 and no witness"
    );
}

/// A document's where the schema was refused: the schema's number and place once more, and no opening.
pub fn unasked(told: &foreign::Document) {
    assert!(
        told.number == told.schema_number && told.place == told.schema_place && told.count == 0,
        "typestock: events were answered {} at {} with {} types under a refused schema",
        told.number,
        told.place,
        told.count
    );
}

/// An event file's: 0 or 11 to 20; the place its length for 0, at its end for 19 alone, else inside; the openings counted lie before the place
/// and have their bytes in the buffer, all of them for 20; each type is one.
pub fn events(number: u8, place: usize, count: usize, length: usize, types: &[u8]) {
    let fits = match number {
        0 => place == length,
        19 => place <= length,
        11..=20 => place < length,
        _ => false,
    };
    assert!(
        fits,
        "typestock: {length} bytes of events were answered {number} at {place}"
    );
    let room = types.len();
    assert!(
        count <= room && count <= place / 2 && (number != 20 || count == room),
        "typestock: {count} openings were counted before {place}, answered {number}, with {room} bytes for types"
    );
    assert!(
        types[..count].iter().all(|&a| a < TYPES),
        "typestock: an opening was given a type of {TYPES} or more"
    );
}

/// What would have been taken where the schema was refused: the schema's number and place once more, and nothing.
pub fn unexpected(told: &foreign::Expected) {
    assert!(
        told.number == told.schema_number && told.place == told.schema_place && is_empty(told),
        "typestock: something would have been taken, {} at {}, under a refused schema",
        told.number,
        told.place
    );
}

/// What would have been taken where an event file is refused: the number is 0 or 11 to 19, and its place as of [`events`]; nothing at all for 0 and
/// 11; what is told fits together.
pub fn expected(told: &foreign::Expected, length: usize) {
    let &foreign::Expected { number, place, .. } = told;
    let fits = match number {
        0 => place == length,
        19 => place <= length,
        11..=18 => place < length,
        _ => false,
    };
    assert!(
        fits,
        "typestock: {length} bytes of events were answered {number} at {place}"
    );
    assert!(
        !matches!(number, 0 | 11) || is_empty(told),
        "typestock: something would have been taken where a document is finished"
    );
    assert!(
        elements_fit(told) && openings_fit(told) && ends_fit(told),
        "typestock: what would have been taken at {place} does not fit together"
    );
}

/// Nothing is open, and nothing would have been taken.
fn is_empty(told: &foreign::Expected) -> bool {
    elements_fit(told)
        && openings_fit(told)
        && told.depth == 0
        && told.count == 0
        && told.closes == 0
        && told.finishes == 0
}

/// At most 64 elements are open, each opened before the place, each with a type; entries past them are 0.
fn elements_fit(told: &foreign::Expected) -> bool {
    told.depth <= LEVELS && told.depth <= told.place / 2 && {
        let (open, rest) = told.types.split_at(told.depth);
        open.iter().all(|&a| a < TYPES) && rest.iter().all(|&b| b == 0)
    }
}

/// Openings of tags are listed, rising by tag, plain before nil, and none with 64 elements open; entries past them are 0.
fn openings_fit(told: &foreign::Expected) -> bool {
    let room = if told.depth < LEVELS { OPENINGS } else { 0 };
    told.count <= room && {
        let (tags, no_tags) = told.tags.split_at(told.count);
        let (nils, no_nils) = told.nils.split_at(told.count);
        let listed = || tags.iter().zip(nils);
        listed().all(|(&tag, &nil)| tag < TAGS && nil < 2)
            && listed().zip(listed().skip(1)).all(|(a, b)| a < b)
            && no_tags.iter().chain(no_nils).all(|&b| b == 0)
    }
}

/// A closing needs an element that is open; a finish that none is, and nothing else is then taken.
fn ends_fit(told: &foreign::Expected) -> bool {
    match (told.closes, told.finishes) {
        (0, 0) => true,
        (1, 0) => told.depth > 0,
        (0, 1) => told.depth == 0 && told.count == 0,
        _ => false,
    }
}

/// A written schema file's: 0 and a length of at least one byte within the buffer; or 2 to 9 or 20 to 23 and no length.
pub fn written(number: u8, length: usize, room: usize) {
    let fits = match number {
        0 => (1..=room).contains(&length),
        2..=9 | 20..=23 => length == 0,
        _ => false,
    };
    assert!(
        fits,
        "typestock: a writer was answered {number} and {length} bytes, with {room} bytes for the file"
    );
}

/// Whether an opening was found: then it is the one that ends where the cursor has moved to, at most one level deeper; else the cursor is
/// the one handed in.
pub fn opening(told: &foreign::Opening, events: &[u8], at: usize, level: usize) -> bool {
    let &foreign::Opening {
        found,
        tag,
        at: past,
        level: deep,
    } = told;
    let fits = match found {
        0 => tag == 0 && past == at && deep == level,
        1 => {
            past > at
                && past - at >= 2
                && past <= events.len()
                && matches!(events[past - 2], OPEN | OPEN_NIL)
                && events[past - 1] == tag
                && deep >= 1
                && deep - 1 <= level
        }
        _ => false,
    };
    assert!(
        fits,
        "typestock: from {at} at level {level} an opening ({found}) of tag {tag} was found before {past} at level {deep}"
    );
    found == 1
}

#[cfg(test)]
mod tests {
    use super::*;
    use std::panic::catch_unwind;

    // the call panics with a message that names typestock
    fn breach(call: impl FnOnce() + std::panic::UnwindSafe) {
        let what = catch_unwind(call).expect_err("a breach is not noticed");
        let plain = what.downcast_ref::<&str>().copied();
        let words = plain.or(what.downcast_ref::<String>().map(String::as_str));
        assert!(words.is_some_and(|w| w.starts_with("typestock: ")));
    }

    #[test]
    fn schema_answers() {
        let buffer = [0; WITNESS];
        let competing = {
            let mut b = buffer;
            b[2] = 1;
            b
        };
        let roots = {
            let mut b = competing;
            b[0] = 255;
            b
        };
        schema(0, 0, 10, &buffer);
        schema(1, 0, 10, &buffer[..531]);
        schema(2, 10, 10, &buffer);
        schema(7, 9, 10, &buffer);
        schema(9, 0, 10, &competing);
        schema(9, 0, 10, &roots);
        schema(21, 9, 10, &buffer);
        schema(23, 0, 10, &buffer);
        schema(24, 2, 10, &buffer);
        for (number, place) in [
            (0, 1),
            (2, 11),
            (3, 10),
            (7, 10),
            (8, 3),
            (9, 1),
            (10, 0),
            (20, 0),
            (21, 10),
            (23, 10),
            (24, 10),
            (25, 0),
            (255, 0),
        ] {
            breach(move || schema(number, place, 10, &competing));
        }
        breach(move || schema(9, 0, 10, &buffer));
        // no type for A; 255 with a word, or with J not below K
        for (place, value) in [(0, 64), (0, 254), (1, 1), (3, 1), (4, 1)] {
            breach(move || {
                let mut b = roots;
                b[place] = value;
                schema(9, 0, 10, &b)
            });
        }
        breach(move || schema(1, 0, 10, &buffer));
        breach(move || schema(0, 0, 10, &buffer[..531]));
    }

    #[test]
    fn unasked_events() {
        let refused = |number, place, count| foreign::Document {
            schema_number: 4,
            schema_place: 7,
            number,
            place,
            count,
        };
        unasked(&refused(4, 7, 0));
        breach(|| unasked(&refused(0, 7, 0)));
        breach(|| unasked(&refused(4, 0, 0)));
        breach(|| unasked(&refused(4, 7, 1)));
    }

    #[test]
    fn event_answers() {
        let types = [0, 63, 64];
        events(0, 10, 2, 10, &types);
        events(19, 10, 2, 10, &types);
        events(11, 9, 2, 10, &types);
        events(20, 4, 2, 10, &types[..2]);
        for (number, place) in [
            (0, 9),
            (1, 4),
            (9, 4),
            (10, 4),
            (13, 10),
            (19, 11),
            (20, 10),
            (21, 4),
        ] {
            breach(move || events(number, place, 2, 10, &types[..2]));
        }
        breach(move || events(20, 8, 2, 10, &types));
        breach(move || events(0, 10, 3, 10, &types[..2]));
        breach(move || events(13, 5, 3, 10, &[0; 3]));
        breach(move || events(0, 10, 3, 10, &types));
    }

    // R's after its mark, at 6 of 8 bytes: the root is open, boots of tag 1 and the root's closing would be taken
    fn after_the_mark() -> foreign::Expected {
        let mut told = nothing(0, 0, 13, 6);
        told.depth = 1;
        told.count = 1;
        told.tags[0] = 1;
        told.closes = 1;
        told
    }

    fn nothing(
        schema_number: u8,
        schema_place: usize,
        number: u8,
        place: usize,
    ) -> foreign::Expected {
        foreign::Expected {
            schema_number,
            schema_place,
            number,
            place,
            depth: 0,
            types: [0; LEVELS],
            count: 0,
            tags: [0; OPENINGS],
            nils: [0; OPENINGS],
            closes: 0,
            finishes: 0,
        }
    }

    #[test]
    fn nothing_under_a_refused_schema() {
        unexpected(&nothing(4, 7, 4, 7));
        breach(|| unexpected(&nothing(4, 7, 0, 7)));
        breach(|| unexpected(&nothing(4, 7, 4, 0)));
        let changes: [fn(&mut foreign::Expected); 8] = [
            |t| t.depth = 1,
            |t| t.types[0] = 1,
            |t| t.types[63] = 1,
            |t| t.count = 1,
            |t| t.tags[0] = 1,
            |t| t.nils[63] = 1,
            |t| t.closes = 1,
            |t| t.finishes = 1,
        ];
        for change in changes {
            breach(move || {
                let mut told = nothing(4, 7, 4, 7);
                change(&mut told);
                unexpected(&told)
            });
            for (number, place) in [(0, 8), (11, 7)] {
                breach(move || {
                    let mut told = nothing(0, 0, number, place);
                    change(&mut told);
                    expected(&told, 8)
                });
            }
        }
    }

    #[test]
    fn places_of_what_would_have_been_taken() {
        for (number, place) in [(0, 8), (11, 7), (18, 0), (19, 8)] {
            expected(&nothing(0, 0, number, place), 8);
        }
        for (number, place) in [(0, 7), (1, 0), (10, 0), (13, 8), (19, 9), (20, 4), (21, 0)] {
            breach(move || expected(&nothing(0, 0, number, place), 8));
        }
    }

    #[test]
    fn what_would_have_been_taken_fits() {
        expected(&after_the_mark(), 8);
        let fits: [fn(&mut foreign::Expected); 5] = [
            |t| t.types[0] = 63,
            |t| t.tags[0] = 31,
            |t| t.closes = 0,
            |t| t.nils[0] = 1,
            |t| (t.count, t.tags[1], t.nils[1]) = (2, 1, 1),
        ];
        for change in fits {
            let mut told = after_the_mark();
            change(&mut told);
            expected(&told, 8);
        }
        let breaches: [fn(&mut foreign::Expected); 14] = [
            |t| t.depth = 4,
            |t| t.depth = 0,
            |t| t.types[0] = 64,
            |t| t.types[1] = 1,
            |t| t.count = 0,
            |t| t.count = 2,
            |t| t.tags[0] = 32,
            |t| t.tags[1] = 2,
            |t| t.nils[0] = 2,
            |t| t.nils[1] = 1,
            |t| (t.count, t.tags[1]) = (2, 1),
            |t| (t.count, t.nils[0], t.tags[1]) = (2, 1, 1),
            |t| t.closes = 2,
            |t| (t.closes, t.finishes) = (0, 1),
        ];
        for change in breaches {
            breach(move || {
                let mut told = after_the_mark();
                change(&mut told);
                expected(&told, 8)
            });
        }
    }

    #[test]
    fn elements_64_deep() {
        let deep = |depth, count| {
            let mut told = nothing(0, 0, 13, 200);
            (told.depth, told.count, told.closes) = (depth, count, 1);
            told
        };
        expected(&deep(64, 0), 202);
        expected(&deep(63, 1), 202);
        breach(move || expected(&deep(64, 1), 202));
        breach(move || expected(&deep(65, 0), 202));
    }

    #[test]
    fn written_files() {
        written(0, 8, 8);
        written(0, 1, 8);
        for number in (2..=9).chain(20..=23) {
            written(number, 0, 8);
            written(number, 0, 0);
            breach(move || written(number, 1, 8));
        }
        breach(|| written(0, 9, 8));
        breach(|| written(0, 0, 8));
        for number in [1, 10, 11, 19, 24, 25, 255] {
            breach(move || written(number, 0, 8));
        }
    }

    #[test]
    fn openings_found() {
        let told = |found, tag, at, level| foreign::Opening {
            found,
            tag,
            at,
            level,
        };
        let files = [OPEN, OPEN_NIL].map(|code| [code, 0, 0x22, 0, code, 7]);
        for file in &files {
            assert!(opening(&told(1, 0, 2, 1), file, 0, 0));
            assert!(opening(&told(1, 7, 6, 1), file, 2, 1));
            assert!(!opening(&told(0, 0, 6, 1), file, 6, 1));
        }
        for (found, tag, at, level) in [
            (0, 1, 2, 1),
            (0, 0, 3, 1),
            (0, 0, 2, 0),
            (1, 7, 2, 1),
            (1, 7, 3, 1),
            (1, 0, 4, 1),
            (1, 6, 6, 1),
            (1, 7, 6, 0),
            (1, 7, 6, 3),
            (1, 7, 8, 1),
            (2, 7, 6, 1),
            (255, 7, 6, 1),
        ] {
            for file in files {
                breach(move || {
                    opening(&told(found, tag, at, level), &file, 2, 1);
                });
            }
        }
    }
}
