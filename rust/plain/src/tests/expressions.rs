//! Content written as expressions.

use super::{accepted, boots, check, hex, read, refused, row, stated, unused};
use crate::schema::Step;

/// The bytes of an expression: types in decimal, brackets, | between sequences, * after what is
/// repeated.
fn text(written: &str) -> Vec<u8> {
    let mut spaced = written.to_string();
    for sign in ["(", ")", "|", "*"] {
        spaced = spaced.replace(sign, &format!(" {sign} "));
    }
    let words = spaced.split_whitespace();
    let command = |word| match word {
        "(" => vec![0x30],
        ")" => vec![0x31],
        "|" => vec![0x33],
        "*" => vec![0x34],
        of => vec![0x32, of.parse().unwrap()],
    };
    words.flat_map(command).collect()
}

/// A type of this tag whose content is the expression.
fn block(tag: u8, written: &str) -> Vec<u8> {
    [&[0x11, tag, 0][..], &text(written), &[0x3F]].concat()
}

/// A file of these blocks, type 0 the root.
fn file(tags: u8, blocks: &[Vec<u8>]) -> Vec<u8> {
    [&[0x10, tags][..], &blocks.concat(), &hex("14 00 1F")].concat()
}

/// Type 0 with this content; from type 1 on leaves of these tags.
fn over(written: &str, tags: &[u8]) -> Vec<u8> {
    let mut blocks = vec![block(0, written)];
    blocks.extend(tags.iter().map(|&tag| block(tag, "")));
    file(1 + tags.iter().max().unwrap_or(&0), &blocks)
}

/// A file of one type that begins with these commands of an expression.
fn begun(written: &str, more: &str) -> Vec<u8> {
    [hex("10 01 11 00 00"), text(written), hex(more)].concat()
}

/// The states, the accepting ones as bits and the steps of type 0.
fn automaton(file: &[u8]) -> (u8, u32, Vec<(u8, u8, u8)>) {
    let schema = stated(file);
    let steps = schema.steps_at(schema.block(0));
    let steps = steps.map(|Step { from, by, to }| (from, by, to)).collect();
    (schema.states[0], schema.accepting[0].0, steps)
}

#[test]
fn automata() {
    let of = |written| automaton(&over(written, &[1, 2, 3, 4]));
    assert_eq!(of(""), (1, 0b1, vec![]));
    assert_eq!(of("()* | |"), (1, 0b1, vec![]));
    assert_eq!(of("1"), (2, 0b10, vec![(0, 1, 1)]));
    assert_eq!(of("1*"), (2, 0b11, vec![(0, 1, 1), (1, 1, 1)]));
    assert_eq!(of("1 2"), (3, 0b100, vec![(0, 1, 1), (1, 2, 2)]));
    // Rising by type before to.
    assert_eq!(of("2 | 1"), (3, 0b110, vec![(0, 1, 2), (0, 2, 1)]));
    assert_eq!(
        of("3 (2 | 2 | 1)"),
        (5, 0b11100, vec![(0, 3, 1), (1, 1, 4), (1, 2, 2), (1, 2, 3)])
    );
    // Past parts with the empty word, on both sides.
    assert_eq!(
        of("(1 |) 2* 3"),
        (
            4,
            0b1000,
            vec![
                (0, 1, 1),
                (0, 2, 2),
                (0, 3, 3),
                (1, 2, 2),
                (1, 3, 3),
                (2, 2, 2),
                (2, 3, 3)
            ]
        )
    );
    assert_eq!(of("1 2* (3 |)").1, 0b1110);
    // A repeat inside a repeat; each round may end and begin with any of its uses.
    let all: Vec<_> = (0..3).flat_map(|p| [(p, 1, 1), (p, 2, 2)]).collect();
    assert_eq!(of("(1 | 2)*"), (3, 0b111, all.clone()));
    assert_eq!(of("(1* 2*)*"), (3, 0b111, all.clone()));
    assert_eq!(of("((1* |)* 2*)*"), (3, 0b111, all));
}

#[test]
fn samples_by_expressions() {
    let boots_again = file(
        3,
        &[
            block(0, "1* 2 3*"),
            block(1, ""),
            block(2, ""),
            block(1, ""),
        ],
    );
    let events = row(0, &[1, 1, 2, 1]);
    assert_eq!(read(&boots_again, &events), read(&boots(), &events));
    assert_eq!(
        check(&over("1 2 | 1 3", &[1, 2, 2])),
        (9, 0, hex("00 02 03 01 00 01"))
    );
    let ends = over("(1 | 2)* 1 (1 | 2)", &[1, 2]);
    assert_eq!(read(&ends, &row(0, &[1])), (17, 6, vec![0, 1]));
    let events = row(0, &[2, 2, 3, 2, 1, 3]);
    assert_eq!(
        read(&over("(1 |) 2 (2 | 3)* 4 3", &[1, 2, 3, 1]), &events),
        (0, events.len(), vec![0, 2, 2, 3, 2, 4, 3])
    );
    refused(&over("0", &[]), 8, 0);
}

#[test]
fn commands_that_cannot_follow() {
    for before in ["", "(", "1 |", "1*", "(1)*"] {
        refused(&begun(before, "34 3F"), 21, 5 + text(before).len());
    }
    for before in ["", "1", "1*", "()", "|"] {
        refused(&begun(before, "31"), 21, 5 + text(before).len());
    }
    for before in ["(", "(1", "(()", "((1)*|"] {
        refused(&begun(before, "3F"), 21, 5 + text(before).len());
    }
}

#[test]
fn other_commands_inside_and_outside() {
    for other in [
        "10 01",
        "11 00 01",
        "12 00",
        "13 00 00 00",
        "14 00",
        "15",
        "1F",
        "11 00 00",
    ] {
        refused(&begun("(1", other), 3, 8);
    }
    for none in ["", "32", "12", "13 00 00", "00", "35", "FF"] {
        refused(&begun("(1", none), 2, 8);
    }
    for command in ["30", "31", "32 00", "33", "34", "3F"] {
        refused(&hex(command), 3, 0);
        refused(&[hex("10 01 11 00 01"), hex(command)].concat(), 3, 5);
        refused(&begun("", &format!("3F {command}")), 3, 6);
        refused(&[boots(), hex(command)].concat(), 3, boots().len());
    }
    refused(&hex("32"), 2, 0);
    refused(&begun("", "3F 12 00"), 3, 6);
    refused(&begun("", "3F 13 00 00 00"), 3, 6);
    refused(&begun("", "3F 1F"), 3, 6);
    accepted(&begun("", "3F 14 00 1F"));
    unused(&begun("", "3F 11 00 01 14 00 1F"), 6);
}

#[test]
fn types_of_uses() {
    refused(&over("63", &[1]), 7, 5);
    refused(&over("64", &[1]), 4, 5);
    // The first in the file, though its step is not the first.
    refused(&over("0 | 9 | 8", &[1]), 7, 8);
    let step = hex("11 00 02 13 00 09 01");
    let with = |blocks: &[Vec<u8>]| file(1, blocks);
    refused(&with(&[step.clone(), block(0, "9")]), 7, 5);
    refused(&with(&[block(0, "9"), step]), 7, 5);
}

#[test]
fn thirty_one_uses() {
    accepted(&over(&"1 ".repeat(31), &[1]));
    refused(&over(&"1 ".repeat(32), &[1]), 22, 5 + 62);
    refused(&over(&("1 ".repeat(31) + "64"), &[1]), 4, 5 + 62);
    refused(&over(&("(1)* ".repeat(31) + "(1)"), &[1]), 22, 5 + 156);
}

#[test]
fn sixteen_brackets() {
    let nested = |deep: usize| format!("{}1{}", "(".repeat(deep), ")*".repeat(deep));
    accepted(&over(&nested(16), &[1]));
    accepted(&over(&format!("{} | {}", nested(16), nested(16)), &[1]));
    refused(&over(&nested(17), &[1]), 23, 5 + 16);
}

#[test]
fn steps_of_expressions() {
    let any: Vec<String> = (1..32).map(|of| of.to_string()).collect();
    let any = format!("({})*", any.join(" | "));
    let tags: Vec<u8> = (1..32).collect();
    assert_eq!(automaton(&over(&any, &tags)).2.len(), 992);
    let with = |more: Vec<u8>| {
        let mut file = over(&any, &tags);
        file.truncate(file.len() - 3);
        let place = file.len();
        ([file, more, hex("14 00 1F")].concat(), place)
    };
    let one = block(0, "1");
    let (file, place) = with([block(0, &"1 ".repeat(31)), one.clone()].concat());
    unused(&file, place);
    let (file, place) = with([block(0, &"1 ".repeat(31)), one.clone(), one.clone()].concat());
    refused(&file, 5, place + 66 + 6 + 5);
    let mut steps = hex("11 00 20");
    steps.extend((0..32).flat_map(|to| [0x13, 0, 0, to]));
    let (file, place) = with([steps.clone(), one].concat());
    refused(&file, 5, place + steps.len() + 5);
    // A bracket that is open comes before.
    let (file, place) = with([steps.clone(), hex("11 00 00 30 32 01 3F")].concat());
    refused(&file, 21, place + steps.len() + 6);
    let (file, place) = with([steps, block(0, "()")].concat());
    unused(&file, place);
}

#[test]
fn long_expressions() {
    for part in ["|", "()", "(|)*"] {
        accepted(&over(&part.repeat(100_000), &[]));
        let file = over(&(part.repeat(50_000) + "1*" + &part.repeat(50_000)), &[1]);
        assert_eq!(automaton(&file), (2, 0b11, vec![(0, 1, 1), (1, 1, 1)]));
    }
    refused(&over(&("|".repeat(100_000) + "7"), &[]), 7, 100_005);
}

#[test]
fn cut_at_every_byte() {
    let whole = over("((1 | 2)* (2 |))* 1", &[1, 2]);
    let places = |end: usize| check(&whole[..end]).0;
    assert!((0..whole.len()).all(|end| places(end) == 2));
    refused(&begun("(1 | 1)* 1", ""), 2, 5 + text("(1 | 1)* 1").len());
}
