//! Random inputs, of which each number comes up.

use compare::{Chance, Input, Tally, compare};
use plain::limits::MOST_ROOTS;

const INPUTS: u64 = 20_000;

#[test]
fn nothing_differs_and_each_number_comes_up() {
    let mut tally = Tally::default();
    for index in 0..INPUTS {
        let mut chance = Chance::of_input(7, index);
        let input = Input::random(&mut chance);
        match compare(&input, &mut chance) {
            Ok(answers) => tally.count(&input, &answers),
            Err(what) => panic!("input {index}: {what}\n{input}"),
        }
    }
    for (file, number, times) in tally.numbers() {
        assert!(times > 0, "no {file} file was answered {number}\n{tally}");
    }
    assert!(
        tally.longest_word() > 255,
        "no word whose length needs two bytes\n{tally}"
    );
    assert_eq!(tally.most_roots(), MOST_ROOTS, "{tally}");
    assert!(tally.several_roots() > INPUTS / 20, "{tally}");
    assert!(tally.competing_roots() > INPUTS / 100, "{tally}");
    assert!(tally.nillable() > INPUTS / 20, "{tally}");
    assert!(tally.kinds_apart() > INPUTS / 100, "{tally}");
    assert!(tally.competing_nil() > INPUTS / 100, "{tally}");
    assert!(tally.nil_openings() > INPUTS / 10, "{tally}");
    assert!(tally.expected.past_room > INPUTS / 100, "{tally}");
    assert!(tally.expected.full > INPUTS / 400, "{tally}");
    assert!(tally.expected.depths.len() > 40, "{tally}");
    assert!(tally.expected.plain > INPUTS / 10, "{tally}");
    assert!(tally.expected.nil > INPUTS / 50, "{tally}");
    assert!(tally.expected.most > 20, "{tally}");
    assert!(tally.expected.closes > INPUTS / 20, "{tally}");
    assert!(tally.expected.finishes > INPUTS / 100, "{tally}");
    assert!(tally.expected.nothing > INPUTS / 20, "{tally}");
    assert!(tally.written.reduced > INPUTS / 20, "{tally}");
    assert!(tally.written.lost_roots > INPUTS / 100, "{tally}");
    assert!(tally.written.by_states > INPUTS / 200, "{tally}");
    assert!(tally.written.longer > INPUTS / 1000, "{tally}");
    assert!(tally.written.most_dropped > 40, "{tally}");
}
