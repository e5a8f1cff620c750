//! Random schemas with content written as expressions.

use crate::chance::Chance;
use crate::model::{Model, Type};
use plain::codes::{CLOSE_BRACKET, NEXT, OPEN_BRACKET, REPEAT, USE};
use plain::limits::{MOST_BRACKETS, MOST_USES};

/// A schema with expressions, within the limits but now and then.
pub fn schema(chance: &mut Chance) -> Model {
    match chance.below(100) {
        0..35 => one_type_a_tag_in_each(chance),
        35..55 => any(chance),
        55..75 => marked(chance),
        75..85 => at_limits(chance),
        85..92 => full_of_steps(chance),
        _ => long(chance),
    }
}

/// What an expression is made of.
#[derive(Debug, Clone, Copy)]
struct Plan<'t> {
    /// Uses are of these types.
    types: &'t [u8],
    uses: usize,
    depth: usize,
    /// In so many of 100 cases a factor is repeated.
    repeats: usize,
}

struct Writer<'a> {
    chance: &'a mut Chance,
    plan: Plan<'a>,
    text: Vec<u8>,
}

/// A random expression.
fn expression(chance: &mut Chance, plan: Plan) -> Vec<u8> {
    let depth = plan.depth;
    let text = vec![];
    let mut writer = Writer { chance, plan, text };
    writer.choice(depth);
    writer.text
}

impl Writer<'_> {
    fn choice(&mut self, depth: usize) {
        for sequence in 0..self.chance.of(&[1, 1, 1, 2, 2, 3]) {
            if sequence > 0 {
                self.text.push(NEXT);
            }
            for _ in 0..self.chance.of(&[0, 1, 1, 2, 3, 4]) {
                self.factor(depth);
            }
        }
    }

    fn factor(&mut self, depth: usize) {
        if depth > 0 && self.chance.percent(35) {
            self.text.push(OPEN_BRACKET);
            self.choice(depth - 1);
            self.text.push(CLOSE_BRACKET);
        } else if self.plan.uses > 0 {
            self.plan.uses -= 1;
            let of = self.chance.of(self.plan.types);
            self.text.extend([USE, of]);
        } else {
            return;
        }
        if self.chance.percent(self.plan.repeats) {
            self.text.push(REPEAT);
        }
    }
}

/// A plan over these types.
fn plan<'t>(chance: &mut Chance, types: &'t [u8]) -> Plan<'t> {
    let uses = match chance.below(20) {
        0 => MOST_USES,
        1..5 => 12,
        _ => 5,
    };
    Plan {
        types,
        uses: chance.within(1..=uses),
        depth: chance.of(&[1, 2, 3, 4]),
        repeats: chance.of(&[10, 30, 60]),
    }
}

/// Leaves of random tags, some by an expression.
fn leaves(chance: &mut Chance) -> Model {
    let tags = chance.small(1..=5);
    let count = chance.small(1..=8);
    let types = (0..count)
        .map(|_| {
            let tag = chance.small(0..=tags - 1);
            if chance.percent(50) {
                Type::leaf(tag)
            } else {
                Type::with_content(tag, vec![])
            }
        })
        .collect();
    let roots = vec![chance.small(0..=count - 1)];
    Model { tags, types, roots }
}

/// In half of the types an expression of types of which no two have one tag, so that little competes.
fn one_type_a_tag_in_each(chance: &mut Chance) -> Model {
    let mut model = leaves(chance);
    for number in 0..model.types.len() {
        if number > 0 && chance.percent(50) {
            continue;
        }
        let mut numbers: Vec<u8> = (0..model.types.len() as u8).collect();
        chance.shuffle(&mut numbers);
        let mut seen = 0_u32;
        numbers.retain(|&of| {
            let tag = 1 << model.types[usize::from(of)].tag;
            let new = seen & tag == 0;
            seen |= tag;
            new
        });
        let plan = plan(chance, &numbers);
        let text = expression(chance, plan);
        model.types[number] = Type::with_content(model.types[number].tag, text);
    }
    model
}

/// Any types in any expression; some types by states.
fn any(chance: &mut Chance) -> Model {
    let mut model = leaves(chance);
    let numbers: Vec<u8> = (0..model.types.len() as u8).collect();
    for number in 0..model.types.len() {
        let tag = model.types[number].tag;
        if chance.percent(50) {
            let plan = plan(chance, &numbers);
            model.types[number] = Type::with_content(tag, expression(chance, plan));
        } else if chance.percent(30) {
            let by = chance.of(&numbers);
            model.types[number] = Type::new(tag, 2).step(0, by, 1).accepts(1);
        }
    }
    model
}

/// Types before a mark and others of the same tags after it, in any number and order.
fn marked(chance: &mut Chance) -> Model {
    let pairs = chance.small(1..=4);
    let side = |first: u8| (first..first + pairs).collect::<Vec<u8>>();
    let sides = [side(2), side(2 + pairs)];
    let [before, after] = sides.map(|types| {
        let plan = Plan {
            uses: chance.within(1..=6),
            ..plan(chance, &types)
        };
        let text = expression(chance, plan);
        let repeat = chance.percent(50).then_some(REPEAT);
        [OPEN_BRACKET]
            .into_iter()
            .chain(text)
            .chain([CLOSE_BRACKET])
            .chain(repeat)
            .collect::<Vec<u8>>()
    });
    let root = [before, vec![USE, 1], after].concat();
    let mut types = vec![Type::with_content(0, root), Type::leaf(1)];
    for _ in 0..2 {
        types.extend((0..pairs).map(|pair| Type::leaf(2 + pair)));
    }
    Model {
        tags: 2 + pairs,
        types,
        roots: vec![0],
    }
}

/// Leaves of tags of their own below a first type with this content.
fn over_leaves(content: Vec<u8>, leaves: u8) -> Model {
    let mut types = vec![Type::with_content(0, content)];
    types.extend((1..=leaves).map(Type::leaf));
    Model {
        tags: 1 + leaves,
        types,
        roots: vec![0],
    }
}

/// About as many uses, or brackets one in the other, as there may be.
fn at_limits(chance: &mut Chance) -> Model {
    let leaves = chance.small(1..=MOST_USES as u8);
    let of = |chance: &mut Chance| chance.small(1..=leaves);
    let mut text = vec![];
    if chance.percent(60) {
        let between: &[&[u8]] = &[&[], &[NEXT], &[REPEAT], &[REPEAT, NEXT]];
        let between = chance.of(between);
        let bracket = chance.percent(50);
        let uses = chance.within(MOST_USES - 2..=MOST_USES + 1);
        for _ in 0..uses {
            text.extend([USE, of(chance)]);
            text.extend(between);
        }
        if bracket {
            text.insert(0, OPEN_BRACKET);
            text.extend([CLOSE_BRACKET, REPEAT]);
        }
    } else {
        let depth = chance.within(MOST_BRACKETS - 2..=MOST_BRACKETS + 1);
        for _ in 0..depth {
            if chance.once_in(3) {
                text.extend([OPEN_BRACKET, USE, of(chance)]);
            } else {
                text.push(OPEN_BRACKET);
            }
        }
        for _ in 0..depth {
            if chance.once_in(3) {
                text.extend([NEXT, USE, of(chance)]);
            }
            text.push(CLOSE_BRACKET);
            if chance.percent(40) {
                text.push(REPEAT);
            }
        }
    }
    over_leaves(text, leaves)
}

/// Expressions with so many uses, each of which may follow each, that 1,024 steps are met or passed.
fn full_of_steps(chance: &mut Chance) -> Model {
    let mut left = chance.within(1020..=1028);
    let mut model = over_leaves(vec![], MOST_USES as u8);
    let mut place = 0;
    while left > 0 {
        // n uses in any order have n (n + 1) steps.
        let most = (1..=MOST_USES).rfind(|n| n * (n + 1) <= left);
        let row = most.is_none() || chance.once_in(4);
        let uses = match most {
            Some(most) if !row => chance.within(most / 2 + 1..=most),
            _ => left.min(chance.within(1..=MOST_USES)),
        };
        let mut text = vec![];
        for use_ in 0..uses {
            text.extend([USE, 1 + (use_ % MOST_USES) as u8]);
            text.extend((!row).then_some(NEXT));
        }
        if row {
            left -= uses;
        } else {
            text.insert(0, OPEN_BRACKET);
            text.extend([CLOSE_BRACKET, REPEAT]);
            left -= uses * (uses + 1);
        }
        let content = Type::with_content(0, text);
        if place == 0 {
            model.types[0] = content;
        } else if model.types.len() < 64 {
            model.types.push(content);
        } else {
            break;
        }
        place += 1;
    }
    model
}

/// Many empty sequences and brackets.
fn long(chance: &mut Chance) -> Model {
    let leaves = chance.small(1..=3);
    let parts: &[&[u8]] = &[
        &[NEXT],
        &[OPEN_BRACKET, CLOSE_BRACKET],
        &[OPEN_BRACKET, CLOSE_BRACKET, REPEAT],
        &[OPEN_BRACKET, NEXT, CLOSE_BRACKET],
    ];
    let mut text = vec![];
    for _ in 0..chance.within(1..=4) {
        let times = chance.of(&[1, 10, 500, 3000]);
        text.extend(chance.of(parts).repeat(chance.within(1..=times)));
        if chance.percent(60) {
            text.extend([USE, chance.small(1..=leaves)]);
        }
    }
    over_leaves(text, leaves)
}
