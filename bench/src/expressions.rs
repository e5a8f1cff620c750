//! The schema files with content written as expressions that are timed.
use plain::codes::{
    CLOSE_BRACKET, DONE, END, FINAL, NEXT, OPEN_BRACKET, REPEAT, ROOT, TAGS, TYPE, USE,
};

const TYPES: u8 = 64;
const TAG_COUNT: u8 = 32;
const USES: u8 = 31;

/// The bytes of an expression: types in decimal, brackets, | between sequences, * after what is repeated.
fn text(written: &str) -> Vec<u8> {
    let mut bytes = Vec::new();
    let mut digits = String::new();
    for sign in written.chars().chain([' ']) {
        if sign.is_ascii_digit() {
            digits.push(sign);
            continue;
        }
        if !digits.is_empty() {
            bytes.extend([USE, digits.parse().expect("a type's number")]);
            digits.clear();
        }
        bytes.extend(match sign {
            '(' => Some(OPEN_BRACKET),
            ')' => Some(CLOSE_BRACKET),
            '|' => Some(NEXT),
            '*' => Some(REPEAT),
            _ => None,
        });
    }
    bytes
}

/// A type whose content is an expression.
fn expressed(tag: u8, content: &[u8]) -> Vec<u8> {
    [&[TYPE, tag, 0], content, &[END]].concat()
}

/// A file of these blocks; type 0 is the root.
fn file(blocks: impl Iterator<Item = Vec<u8>>) -> Vec<u8> {
    let mut file = vec![TAGS, TAG_COUNT];
    file.extend(blocks.flatten());
    file.extend([ROOT, 0, DONE]);
    file
}

/// So many expressions; a type's is over later types, that of the last types is empty. A treeless type needs itself.
fn over_later(types: u8, content: impl Fn(u8) -> String, treeless: impl Fn(u8) -> bool) -> Vec<u8> {
    file((0..types).map(|a| {
        let content = match a {
            _ if treeless(a) => a.to_string(),
            _ if a + 5 < types => content(a),
            _ => String::new(),
        };
        expressed(a % TAG_COUNT, &text(&content))
    }))
}

fn sixty_four(content: impl Fn(u8) -> String) -> Vec<u8> {
    over_later(TYPES, content, |_| false)
}

/// Five later types, which may be in 12 orders directly after one another.
fn five_later(a: u8) -> String {
    let [b, c, d, e, f] = [1, 2, 3, 4, 5].map(|n| a + n);
    format!("({b} |) {c} ({d} | {e})* ({f} |)")
}

/// Five uses and 12 steps each.
pub fn five_uses() -> Vec<u8> {
    sixty_four(five_later)
}

/// The same of 63 types.
pub fn five_uses_of_63() -> Vec<u8> {
    over_later(TYPES - 1, five_later, |_| false)
}

/// The same with a treeless type for the two uses that may be left out: each type that stays is written by states.
pub fn five_uses_some_treeless() -> Vec<u8> {
    let content = |a: u8| {
        let used = (a + 1..TYPES).filter(|n| !is_third(*n)).take(3);
        let [c, d, e] = used.collect::<Vec<_>>()[..] else {
            return String::new();
        };
        let gone = (a + 1..TYPES).find(|n| is_third(*n)).unwrap_or(TYPES - 1);
        format!("({gone} |) {c} ({d} | {e})* ({gone} |)")
    };
    over_later(TYPES, content, is_third)
}

fn is_third(a: u8) -> bool {
    a % 3 == 2
}

/// One kind, a mark, another kind. Up to type 30 both kinds have one tag.
fn rack(a: u8) -> String {
    let after = if a < 31 { a + 33 } else { a + 3 };
    format!("{}* {} {after}*", a + 1, a + 2)
}

/// As a rack of the boot wall; six steps each.
pub fn racks() -> Vec<u8> {
    sixty_four(rack)
}

/// Racks with a third kind, which is treeless: each is written by states.
pub fn racks_some_treeless() -> Vec<u8> {
    let last = TYPES - 1;
    over_later(TYPES, |a| format!("{} {last}*", rack(a)), |a| a == last)
}

/// A row of 16 uses, so 16 steps, each.
pub fn rows() -> Vec<u8> {
    sixty_four(|a| {
        let uses = (0..16).map(|n| (a + 1 + n % 5).to_string());
        uses.collect::<Vec<_>>().join(" ")
    })
}

/// The first type's content is an expression, the others are leaves by states.
fn over_leaves(content: Vec<u8>) -> Vec<u8> {
    over_these_leaves(content, USES)
}

/// The same with so many leaves, and after them treeless types.
fn over_these_leaves(content: Vec<u8>, leaves: u8) -> Vec<u8> {
    let leaf = |tag| match tag <= leaves {
        true => vec![TYPE, tag, 1, FINAL, 0],
        false => vec![TYPE, tag, 1],
    };
    let leaves = (1..=USES).map(leaf);
    file([expressed(0, &content)].into_iter().chain(leaves))
}

fn all_uses(between: &str) -> String {
    let uses: Vec<String> = (1..=USES).map(|of| of.to_string()).collect();
    uses.join(between)
}

/// One expression of 31 uses in a row: 31 steps.
pub fn one_row() -> Vec<u8> {
    over_leaves(text(&all_uses(" ")))
}

/// One expression of 31 uses, each of which may follow each: 992 steps.
pub fn any_order() -> Vec<u8> {
    over_leaves(in_any_order())
}

fn in_any_order() -> Vec<u8> {
    text(&format!("({})*", all_uses(" | ")))
}

/// The same with the last type treeless: it is written by states, with 960 steps.
pub fn any_order_last_treeless() -> Vec<u8> {
    over_these_leaves(in_any_order(), USES - 1)
}

/// The same with the types falling, so that the steps stand in another order than the uses.
pub fn any_order_falling() -> Vec<u8> {
    let uses: Vec<String> = (1..=USES).rev().map(|of| of.to_string()).collect();
    over_leaves(text(&format!("({})*", uses.join(" | "))))
}

/// One expression of 31 uses, each repeated, in 16 brackets: each may follow itself and those before it.
pub fn in_brackets() -> Vec<u8> {
    over_leaves(all_in_brackets())
}

fn all_in_brackets() -> Vec<u8> {
    let (open, close) = ("(".repeat(16), ")".repeat(16));
    text(&format!("{open}{}*{close}", all_uses("* ")))
}

/// The same with the last type treeless.
pub fn in_brackets_last_treeless() -> Vec<u8> {
    over_these_leaves(all_in_brackets(), USES - 1)
}

/// One type, of an expression that uses none.
fn alone(content: Vec<u8>) -> Vec<u8> {
    file([expressed(0, &content)].into_iter())
}

/// One expression of so many empty sequences, or of so many empty brackets.
pub fn empty_sequences(count: usize) -> Vec<u8> {
    alone(vec![NEXT; count])
}

pub fn empty_brackets(count: usize) -> Vec<u8> {
    alone([OPEN_BRACKET, CLOSE_BRACKET].repeat(count))
}
