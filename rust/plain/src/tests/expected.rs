//! What would have been taken where an event file was refused.

use super::made_up::OUTSIDE;
use super::nil::{childless, nil, over_one, wall};
use super::{
    BY_POSITION, Block, CLOSE, FINISH, OPEN, OPEN_NIL, UNTOUCHED, boots, file, file_of_bytes,
    file_of_roots, hex, leaf, nesting, print, read_into, row, stated, two_readings,
};
use crate::limits::{MOST_OPENINGS, WITNESS};
use crate::questions::{NO_EVENT, OUTSIDE_LIMITS};
use crate::schema_file::Refusal;
use crate::{
    Answer, Expected, Kind, Reading, Schema, States, expect_document, expected, print_expected,
};

/// The number and place of an event file under an accepted schema, and what is listed, as `whatnext` prints
/// it.
fn listed(schema: &[u8], events: &[u8]) -> (u8, usize, String) {
    let mut witness = [UNTOUCHED; WITNESS];
    let answer = expect_document(schema, events, &mut witness).unwrap();
    assert!(witness.iter().all(|&byte| byte == UNTOUCHED));
    assert_eq!(answer, expected(&stated(schema), events));
    let text = String::from_utf8(print_expected(schema, events)).unwrap();
    let lines: Vec<&str> = text.lines().skip(1).collect();
    (answer.number, answer.place, lines.join(", "))
}

/// The answer of which no entry is used.
fn nothing(number: u8, place: usize) -> Expected {
    Expected {
        number,
        place,
        depth: 0,
        types: [0; 64],
        count: 0,
        tags: [0; 64],
        nils: [false; 64],
        closes: false,
        finishes: false,
    }
}

#[test]
fn boots_with_two_sale_marks() {
    let events = row(0, &[2, 2]);
    let only_boots = "inside 0, open 1, close".to_string();
    assert_eq!(listed(&boots(), &events), (13, 6, only_boots));
    assert_eq!(
        print_expected(&boots(), &events),
        b"refused 13 at 6\ninside 0\nopen 1\nclose\n"
    );
    let answer = expected(&stated(&boots()), &events);
    let mut by_hand = nothing(13, 6);
    (by_hand.depth, by_hand.count, by_hand.tags[0]) = (1, 1, 1);
    by_hand.closes = true;
    assert_eq!(answer, by_hand);
    assert_eq!(answer.open_types(), [0]);
    assert!(answer.openings().eq([(Kind::Plain, 1)]));
}

#[test]
fn boots_without_the_sale_mark() {
    let either = "inside 0, open 1, open 2".to_string();
    assert_eq!(listed(&boots(), &hex("21 00 22 00")), (17, 2, either));
    // Inside a boot, where no child is.
    for (then, number) in [("21 01", 13), ("22 00", 16), ("2F", 18), ("21 03", 12)] {
        let events = hex(&format!("21 00 21 01 {then}"));
        let leaf = "inside 0 1, close".to_string();
        assert_eq!(listed(&boots(), &events), (number, 4, leaf));
    }
}

#[test]
fn before_the_first_event() {
    let refusals: [(&[u8], u8); 6] = [
        (&[], 19),
        (&[OPEN], 19),
        (&[OPEN, 1], 13),
        (&[OPEN_NIL, 0], 13),
        (&[CLOSE, 0], 15),
        (&[FINISH], 18),
    ];
    for (events, number) in refusals {
        let root = "inside, open 0".to_string();
        assert_eq!(listed(&boots(), events), (number, 0, root));
    }
    assert_eq!(
        print_expected(&boots(), &[]),
        b"refused 19 at 0\ninside\nopen 0\n"
    );
}

#[test]
fn after_the_root_and_after_the_finish() {
    let whole = row(0, &[2]);
    let closed = &whole[..whole.len() - 1];
    let closed_then = |then: &[u8]| listed(&boots(), &[closed, then].concat());
    for (then, number) in [(&[][..], 19), (&[OPEN, 0], 13), (&[CLOSE, 0], 15)] {
        assert_eq!(closed_then(then), (number, 8, "inside, finish".to_string()));
    }
    let schema = stated(&boots());
    assert_eq!(expected(&schema, &whole), nothing(0, 9));
    assert_eq!(print_expected(&boots(), &whole), b"accepted\n");
    for (then, number) in [(FINISH, 11), (OPEN, 19), (0, 19)] {
        let more = [&whole[..], &[then]].concat();
        assert_eq!(expected(&schema, &more), nothing(number, 9));
        let text = format!("refused {number} at 9\ninside\n");
        assert_eq!(print_expected(&boots(), &more), text.as_bytes());
    }
}

#[test]
fn children_by_position() {
    let leaves = [leaf(1), leaf(2), leaf(3), leaf(1)];
    let schema = file(
        4,
        &[&[(0, 5, &[4][..], BY_POSITION)], &leaves[..]].concat(),
        0,
    );
    let after = |children: &[u8]| {
        let events = row(0, children);
        let (number, place, lines) = listed(&schema, &events[..events.len() - 3]);
        assert_eq!((number, place), (19, events.len() - 3));
        lines
    };
    assert_eq!(after(&[]), "inside 0, open 1, open 2");
    assert_eq!(after(&[1]), "inside 0, open 2");
    assert_eq!(after(&[1, 2]), "inside 0, open 1, open 2, open 3");
    assert_eq!(after(&[2, 2, 3, 2, 1]), "inside 0, open 3");
    assert_eq!(after(&[2, 2, 3, 2, 1, 3]), "inside 0, close");
}

#[test]
fn sixty_four_levels() {
    let down = |levels: usize| {
        let (number, place, lines) = listed(&nesting(), &[OPEN, 0].repeat(levels));
        let inside = ["inside", &" 0".repeat(place / 2)].concat();
        let rest = lines.strip_prefix(&inside).unwrap().to_string();
        (number, place, rest)
    };
    assert_eq!(down(0), (19, 0, ", open 0".to_string()));
    for levels in 1..64 {
        let open_or_close = ", open 0, close".to_string();
        assert_eq!(down(levels), (19, 2 * levels, open_or_close));
    }
    assert_eq!(down(64), (19, 128, ", close".to_string()));
    assert_eq!(down(65), (14, 128, ", close".to_string()));
    // Levels that were left are not told.
    let up = [[OPEN, 0].repeat(64), [CLOSE, 0].repeat(62)].concat();
    let two = "inside 0 0, open 0, close".to_string();
    assert_eq!(listed(&nesting(), &up), (19, 252, two));
}

#[test]
fn either_kind() {
    let rack_or_end = "inside 0, open 1, open nil 1, close".to_string();
    assert_eq!(listed(&wall(), &[OPEN, 0, OPEN, 2]), (13, 2, rack_or_end));
    let in_nil = "inside 0 1, close".to_string();
    let events = [OPEN, 0, OPEN_NIL, 1, OPEN, 2];
    assert_eq!(listed(&wall(), &events), (13, 4, in_nil));
    let in_rack = "inside 0 1, open 2, open 3".to_string();
    let events = [OPEN, 0, OPEN, 1, OPEN_NIL, 2];
    assert_eq!(listed(&wall(), &events), (13, 4, in_rack));
    // A child by these kinds.
    let kinds: [(&[Kind], &str); 3] = [
        (&[Kind::Plain], "inside 0, open 1"),
        (&[Kind::Nil], "inside 0, open nil 1"),
        (&Kind::ALL, "inside 0, open 1, open nil 1"),
    ];
    for (kinds, lines) in kinds {
        let schema = over_one(childless(1, kinds));
        assert_eq!(listed(&schema, &[OPEN, 0]), (19, 2, lines.to_string()));
    }
}

#[test]
fn at_the_sixty_fifth_level_as_nil() {
    let nested: Block = (0, 1, &[0], &[(0, 0, 0)]);
    let schema = file_of_bytes(1, &[nil(nested)], &[0]);
    let then = |levels: usize, last: u8| {
        let (number, place, lines) =
            listed(&schema, &[[OPEN, 0].repeat(levels), vec![last, 0]].concat());
        let inside = ["inside", &" 0".repeat(place / 2), ", "].concat();
        let rest = lines.strip_prefix(&inside).unwrap().to_string();
        (number, place, rest)
    };
    assert_eq!(then(64, OPEN_NIL), (14, 128, "close".to_string()));
    assert_eq!(then(63, OPEN_NIL), (19, 128, "close".to_string()));
    let all = "open 0, open nil 0, close".to_string();
    assert_eq!(then(62, OPEN), (19, 126, all));
    assert_eq!(then(62, OPEN_NIL), (19, 126, "close".to_string()));
}

#[test]
fn roots_by_tag() {
    let blocks = [leaf(2), leaf(0), leaf(3), leaf(1)];
    let mut schema = file_of_roots(4, &blocks, &[2, 0, 1, 3]);
    let lines = "inside, open 0, open 1, open 2, open 3".to_string();
    assert_eq!(listed(&schema, &[]), (19, 0, lines));
    let blocks = [
        childless(1, &[Kind::Nil]),
        childless(0, &Kind::ALL),
        childless(1, &[Kind::Plain]),
    ];
    schema = file_of_bytes(2, &blocks, &[0, 1, 2]);
    let lines = "inside, open 0, open nil 0, open 1, open nil 1".to_string();
    assert_eq!(listed(&schema, &[]), (19, 0, lines));
    let inside = "inside 0, close".to_string();
    assert_eq!(listed(&schema, &[OPEN_NIL, 1, OPEN, 0]), (13, 2, inside));
    let inside = "inside 2, close".to_string();
    assert_eq!(listed(&schema, &[OPEN, 1, OPEN, 0]), (13, 2, inside));
}

#[test]
fn the_widest_list() {
    let steps: Vec<(u8, u8, u8)> = (0..32).map(|tag| (0, 31 - tag, 0)).collect();
    let blocks: Vec<Vec<u8>> = (0..32).map(|tag| nil((tag, 1, &[0], &steps))).collect();
    let schema = file_of_bytes(32, &blocks, &[0]);
    let answer = expected(&stated(&schema), &[OPEN, 0]);
    assert_eq!(answer.count, MOST_OPENINGS);
    let all = (0..32).flat_map(|tag| Kind::ALL.map(|kind| (kind, tag)));
    assert!(answer.openings().eq(all));
    assert!(answer.closes && !answer.finishes);
}

#[test]
fn a_wall_of_racks_refused_at_4210() {
    // A boot that hangs on the wall and on no rack.
    let rack = hex("21 01 21 02 22 02 21 03 22 03 22 01");
    let events = [
        vec![OPEN, 0],
        rack.repeat(350),
        [OPEN_NIL, 1, CLOSE, 1].repeat(2),
        vec![OPEN, 2, CLOSE, 2, CLOSE, 0, FINISH],
    ]
    .concat();
    assert_eq!(
        print_expected(&wall(), &events),
        b"refused 13 at 4210\ninside 0\nopen 1\nopen nil 1\nclose\n"
    );
}

#[test]
fn with_no_buffer_for_types() {
    let events = row(0, &[1, 2, 2]);
    assert_eq!(read_into(&boots(), &events, 2).0, 20);
    let only_boots = "inside 0, open 1, close".to_string();
    assert_eq!(listed(&boots(), &events), (13, 10, only_boots));
}

#[test]
fn a_refused_schema() {
    let expect = |schema: &[u8], room: usize| {
        let mut witness = vec![UNTOUCHED; room];
        let answer = expect_document(schema, &[OPEN, 0], &mut witness);
        let length = witness.iter().filter(|&&byte| byte != UNTOUCHED).count();
        let Refusal { number, place } = answer.unwrap_err();
        (number, place, witness[..length].to_vec())
    };
    assert_eq!(expect(&boots(), WITNESS - 1), (1, 0, vec![]));
    assert_eq!(expect(&boots()[..9], WITNESS), (2, 7, vec![]));
    let competing = two_readings(leaf(3));
    let witness = hex("00 01 02 00 00");
    assert_eq!(expect(&competing, WITNESS), (9, 0, witness));
    for schema in [&boots()[..9], &competing, &[]] {
        assert_eq!(print_expected(schema, &[]), print(schema, &[]));
    }
    assert_eq!(print_expected(&[], &[0; 32_769]), b"too long\n");
}

#[test]
fn values_outside_the_limits() {
    for change in OUTSIDE {
        let mut schema = stated(&boots());
        change(&mut schema);
        for event in [&[OPEN, 0][..], &[OPEN_NIL, 0], &[CLOSE, 0], &[FINISH]] {
            assert_eq!(expected(&schema, event), nothing(OUTSIDE_LIMITS, 0));
        }
        assert_eq!(expected(&schema, &[]), nothing(NO_EVENT, 0));
        assert_eq!(expected(&schema, &[OPEN]), nothing(NO_EVENT, 0));
    }
}

/// What is answered by the calls on a reading, each call of each tag asked.
fn by_calls(schema: &Schema, number: u8, place: usize, reading: Reading) -> Expected {
    let taken = |answer| !matches!(answer, Answer::Refused(_));
    let mut answer = nothing(number, place);
    answer.depth = usize::from(reading.depth);
    for level in 0..answer.depth {
        answer.types[level] = reading.types[level];
    }
    for tag in 0..=u8::MAX {
        let plain = reading.open(schema, tag).answer;
        let nil = reading.open_nil(schema, tag).answer;
        for (nil, answered) in [(false, plain), (true, nil)] {
            if taken(answered) {
                let count = answer.count;
                (answer.tags[count], answer.nils[count]) = (tag, nil);
                answer.count += 1;
            }
        }
        answer.closes |= taken(reading.close(schema, tag).answer);
    }
    answer.finishes = taken(reading.finish(schema).answer);
    answer
}

/// Goes on with each event from a reading that these events led to, and holds each answer to the calls'.
fn hold_to_calls(schema: &Schema, events: &mut Vec<u8>, reading: Reading, more: usize) {
    let place = events.len();
    let at = |number| by_calls(schema, number, place, reading);
    let end = if reading.finished { 0 } else { NO_EVENT };
    assert_eq!(expected(schema, events), at(end));
    if more == 0 {
        return;
    }
    let codes = [OPEN, OPEN_NIL, CLOSE];
    let tagged = (0..4).flat_map(|tag| codes.map(|code| vec![code, tag]));
    for event in tagged.chain([vec![FINISH]]) {
        let answered = match event[..] {
            [OPEN, tag] => reading.open(schema, tag),
            [OPEN_NIL, tag] => reading.open_nil(schema, tag),
            [CLOSE, tag] => reading.close(schema, tag),
            _ => reading.finish(schema),
        };
        events.extend(event);
        match answered.answer {
            Answer::Refused(number) => assert_eq!(expected(schema, events), at(number)),
            _ => hold_to_calls(schema, events, answered.reading, more - 1),
        }
        events.truncate(place);
    }
}

#[test]
fn as_the_calls_decide() {
    let endless: Block = (0, 2, &[1], &[(0, 0, 1)]);
    let files = [
        boots(),
        wall(),
        nesting(),
        over_one(childless(1, &Kind::ALL)),
        over_one(childless(1, &[Kind::Nil])),
        file_of_bytes(1, &[nil(endless)], &[0]),
    ];
    for file in files {
        let schema = stated(&file);
        hold_to_calls(&schema, &mut vec![], Reading::FRESH, 6);
        // Values that no file states: types without trees, and types of one tag that compete.
        for of in 0..usize::from(schema.types) {
            let mut barren = schema;
            barren.accepting[of] = States::NONE;
            hold_to_calls(&barren, &mut vec![], Reading::FRESH, 4);
            let mut of_one_tag = schema;
            of_one_tag.tag[of] = 0;
            hold_to_calls(&of_one_tag, &mut vec![], Reading::FRESH, 4);
        }
    }
}
