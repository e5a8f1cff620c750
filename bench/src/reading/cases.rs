//! The calls on a reading that are timed: schemas, and the readings that the calls are made on.
use super::calls::Call;
use crate::schemas::{Type, chain, chain_back, leaf, line, nillable, schema, small, wide};
use plain::limits::MOST_OPEN;
use plain::{Reading, Schema, States};

/// One call, and the most microseconds that it may take.
pub struct Case {
    pub name: &'static str,
    pub most: Option<f64>,
    pub schema: Schema,
    pub reading: Reading,
    pub call: Call,
}

/// The root element of R is open, in the states of the set.
fn inside_root(set: u32) -> Reading {
    let mut reading = Reading {
        depth: 1,
        rooted: true,
        ..Reading::FRESH
    };
    reading.sets[0] = States(set);
    reading
}

/// 63 open levels of the type, each with all its states.
fn nested(schema: &Schema, a: u8) -> Reading {
    let states = schema.states[a as usize];
    Reading {
        depth: 63,
        rooted: true,
        finished: false,
        types: [a; MOST_OPEN],
        sets: [States(((1u64 << states) - 1) as u32); MOST_OPEN],
    }
}

/// A line whose steps are by types below `a`, the last by the one before `a`: no state but the last is live before that type bears a tree.
fn mixed_line(n: u8, a: u8) -> Vec<[u8; 3]> {
    let mut steps = line(n, a - 1);
    for step in &mut steps[..n as usize - 1] {
        step[1] = (u32::from(step[0]) * 29 + u32::from(a) * 17) as u8 % a;
    }
    steps
}

/// A leaf, and 63 types with 1,024 steps in all, each of which needs the one before it and some others. Going over a type's steps once adds one
/// state.
fn longest() -> Schema {
    let mut types = vec![leaf(0)];
    for a in 1..64 {
        let n = if a <= 16 { 17 } else { 16 };
        types.push(Type {
            tag: a % 32,
            states: n + 1,
            accepting: 1 << n,
            steps: mixed_line(n, a),
        });
    }
    schema(32, 63, &types)
}

/// Steps back, by the type, until there are `n` steps.
fn fill(steps: &mut Vec<[u8; 3]>, by: u8, n: usize) {
    let back = (0..32).flat_map(|p| (0..=p).map(move |q| [p, by, q]));
    steps.extend(back.take(n - steps.len()));
}

/// Type 0 has 32 states in a line and steps back, by two leaves of one tag. Going over its steps once adds one state.
fn one_type() -> Schema {
    let mut steps = line(31, 1);
    fill(&mut steps, 1, 31 + 528);
    fill(&mut steps, 33, 1024);
    let mut types = vec![Type {
        tag: 0,
        states: 32,
        accepting: 1 << 31,
        steps,
    }];
    types.extend((1..64).map(|a| leaf(a % 32)));
    schema(32, 0, &types)
}

/// 31 leaves, 28 types of 32 states in a chain, and a last type with the 156 steps that are left.
fn mixture() -> Schema {
    let mut types: Vec<Type> = (0..31).map(leaf).collect();
    for a in 31..60 {
        let mut steps = mixed_line(31, a);
        if a == 59 {
            fill(&mut steps, 30, 1024 - 28 * 31);
        }
        types.push(Type {
            tag: a % 32,
            states: 32,
            accepting: 1 << 31,
            steps,
        });
    }
    schema(32, 59, &types)
}

pub fn cases() -> Vec<Case> {
    let on_r = |name, most, reading, call| Case {
        name,
        most,
        schema: small(),
        reading,
        call,
    };
    let inside = inside_root(1);
    let over = Reading {
        depth: 0,
        ..inside_root(2)
    };
    let mut all = vec![
        on_r(
            "R, in the root: open tag 0",
            Some(1.0),
            inside,
            Call::Open(0),
        ),
        on_r(
            "R, in the root: open tag 1",
            Some(1.0),
            inside,
            Call::Open(1),
        ),
        on_r(
            "R, in the root: open tag 2",
            Some(1.0),
            inside,
            Call::Open(2),
        ),
        on_r(
            "R, in the root: close",
            None,
            inside_root(2),
            Call::Close(0),
        ),
        on_r("R, after the root: finish", None, over, Call::Finish),
        Case {
            schema: nillable(small()),
            ..on_r(
                "R, all types nillable, in the root: open tag 1 as nil",
                Some(1.0),
                inside,
                Call::OpenNil(1),
            )
        },
    ];
    let largest = [
        ("chain of 64 types, 16 steps each: open", chain(), 63, 30),
        ("the same, by mixed types: open", longest(), 63, 30),
        ("the chain backwards: open", chain_back(), 0, 1),
        ("1 type, 1,024 steps, 63 leaves: open", one_type(), 0, 1),
        ("32 types of 32 states, 32 steps: open", wide(0), 31, 30),
        ("the same, 32 leaves: open", wide(32), 31, 30),
        ("31 leaves, a chain, 156 steps: open", mixture(), 59, 30),
    ];
    for (name, schema, a, tag) in largest {
        all.push(Case {
            name,
            most: Some(500.0),
            reading: nested(&schema, a),
            schema,
            call: Call::Open(tag),
        });
    }
    all
}
