//! The schemas that are timed, and the file that states a schema.
use plain::codes::{DONE, FINAL, NIL, ROOT, STEP, TAGS, TYPE};
use plain::{Schema, States};

pub struct Type {
    pub tag: u8,
    pub states: u8,
    pub accepting: u32,
    pub steps: Vec<[u8; 3]>,
}

pub fn leaf(tag: u8) -> Type {
    Type {
        tag,
        states: 1,
        accepting: 1,
        steps: Vec::new(),
    }
}

pub fn typed<const N: usize>(tag: u8, states: u8, accepting: u32, steps: [[u8; 3]; N]) -> Type {
    Type {
        tag,
        states,
        accepting,
        steps: steps.to_vec(),
    }
}

pub fn schema(tags: u8, root: u8, types: &[Type]) -> Schema {
    let mut s = Schema {
        tags,
        types: types.len() as u8,
        ..Schema::BLANK
    };
    set_roots(&mut s, &[root]);
    for (a, t) in types.iter().enumerate() {
        s.tag[a] = t.tag;
        s.states[a] = t.states;
        s.accepting[a] = States(t.accepting);
        s.steps[a] = t.steps.len() as u16;
    }
    for (i, step) in types.iter().flat_map(|t| &t.steps).enumerate() {
        [s.from[i], s.by[i], s.to[i]] = *step;
    }
    s
}

/// Gives the schema these roots, at most eight, in place of its own.
pub fn set_roots(s: &mut Schema, roots: &[u8]) {
    s.roots = roots.len() as u8;
    s.root = Schema::BLANK.root;
    s.root[..roots.len()].copy_from_slice(roots);
}

/// The schema with each type nillable.
pub fn nillable(mut s: Schema) -> Schema {
    s.nillable[..usize::from(s.types)].fill(true);
    s
}

/// The schema file that states the schema.
pub fn schema_file(s: &Schema) -> Vec<u8> {
    let mut file = vec![TAGS, s.tags];
    for (a, own) in s.blocks() {
        file.extend([TYPE, s.tag[a], s.states[a]]);
        file.extend(s.accepting[a].iter().flat_map(|q| [FINAL, q]));
        file.extend(
            s.steps_at(own)
                .flat_map(|step| [STEP, step.from, step.by, step.to]),
        );
        file.extend(s.nillable[a].then_some(NIL));
    }
    file.extend(s.root_types().iter().flat_map(|&root| [ROOT, root]));
    file.push(DONE);
    file
}

/// Document 01's R.
pub fn small() -> Schema {
    let root = typed(0, 2, 0b10, [[0, 1, 0], [0, 2, 1], [1, 3, 1]]);
    schema(3, 0, &[root, leaf(1), leaf(2), leaf(1)])
}

/// One type with no step.
pub fn single() -> Schema {
    schema(1, 0, &[leaf(0)])
}

/// 000's a → b1 or b2, b1 → c, b2 → d, with d as given.
fn choice(d: Type) -> Schema {
    let a = typed(0, 2, 0b10, [[0, 1, 1], [0, 2, 1]]);
    let b1 = typed(1, 2, 0b10, [[0, 3, 1]]);
    let b2 = typed(1, 2, 0b10, [[0, 4, 1]]);
    schema(4, 0, &[a, b1, b2, leaf(2), d])
}

/// Document 01's samples after R, in its order.
pub fn samples() -> Vec<Schema> {
    let two_ways = typed(0, 4, 0b1000, [[0, 1, 1], [0, 1, 2], [1, 2, 3], [2, 3, 3]]);
    let two_types = typed(0, 3, 0b100, [[0, 1, 1], [1, 2, 2], [1, 3, 2]]);
    let last_but_one = [[0, 1, 0], [0, 2, 0], [0, 1, 1], [1, 1, 2], [1, 2, 2]];
    vec![
        choice(leaf(3)),
        choice(typed(3, 1, 0, [])),
        schema(3, 0, &[two_ways, leaf(1), leaf(2), leaf(2)]),
        schema(3, 0, &[two_types, leaf(1), leaf(1), leaf(2)]),
        schema(3, 0, &[typed(0, 3, 0b100, last_but_one), leaf(1), leaf(2)]),
        optional(),
        schema(1, 0, &[typed(0, 2, 0b10, [[0, 0, 1]])]),
        schema(1, 0, &[typed(0, 1, 0b1, [[0, 0, 0]])]),
    ]
}

/// 003's a1? b1 (b1 or c1)* a2 c1.
pub fn optional() -> Schema {
    let root = [
        [0, 1, 1],
        [0, 2, 2],
        [1, 2, 2],
        [2, 2, 2],
        [2, 3, 2],
        [2, 4, 3],
        [3, 3, 4],
    ];
    let root = typed(0, 5, 0b10000, root);
    schema(4, 0, &[root, leaf(1), leaf(2), leaf(3), leaf(1)])
}

/// Steps 0 to 1, 1 to 2 and so on, all by one type. In this order going over the steps makes one more state live, the last but one first.
pub fn line(n: u8, by: u8) -> Vec<[u8; 3]> {
    (0..n).map(|s| [s, by, s + 1]).collect()
}

/// A type of a chain: a line of 16 steps by the type that it needs.
fn link(a: u8, needed: u8) -> Type {
    Type {
        tag: a % 32,
        states: 17,
        accepting: 1 << 16,
        steps: line(16, needed),
    }
}

/// A leaf, and 63 types with 16 steps each, of which each needs the one before it; the root is the last. A round over the types settles all.
pub fn chain() -> Schema {
    let mut types = vec![leaf(0)];
    types.extend((1..64).map(|a| link(a, a - 1)));
    schema(32, 63, &types)
}

/// The same with each needing the one after it, the leaf last: a round over the types settles one.
pub fn chain_back() -> Schema {
    let mut types: Vec<Type> = (0..63).map(|a| link(a, a + 1)).collect();
    types.push(leaf(31));
    schema(32, 0, &types)
}

/// Steps from each of the states to each of the first `targets`, by one type.
pub fn full(states: u8, targets: u8, by: u8) -> Vec<[u8; 3]> {
    (0..states)
        .flat_map(|p| (0..targets).map(move |q| [p, by, q]))
        .collect()
}

/// Type 0 steps from each of 32 states to each, by type 1; the other 63 are leaves. All 528 pairs are reached, each by many ways.
pub fn dense() -> Schema {
    let mut types = vec![Type {
        tag: 0,
        states: 32,
        accepting: 1 << 31,
        steps: full(32, 32, 1),
    }];
    types.extend((1..64).map(|a| leaf(a % 32)));
    schema(32, 0, &types)
}

/// How many leaves `mixed` has: 31, or one for each step from a state that is reached where these are fewer.
pub fn mixed_leaves(targets: u8) -> u8 {
    31.min(u16::from(targets) * u16::from(targets)) as u8
}

/// Type 0 steps from each of its states to each of the first `targets`, by leaves of different tags in turn; all its states are accepting.
pub fn mixed(states: u8, targets: u8) -> Schema {
    let leaves = mixed_leaves(targets);
    let mut steps = full(states, targets, 1);
    for (i, step) in steps.iter_mut().enumerate() {
        step[1] = (1 + i * 7 % usize::from(leaves)) as u8;
    }
    let mut types = vec![Type {
        tag: 0,
        states,
        accepting: u32::MAX >> (32 - states),
        steps,
    }];
    types.extend((1..=leaves).map(leaf));
    schema(32, 0, &types)
}

/// How many states and targets make 16, 32 and so on to 1,024 steps of `mixed`.
pub const STEPS_GROW: [(u8, u8); 7] = [
    (4, 4),
    (8, 4),
    (8, 8),
    (16, 8),
    (16, 16),
    (32, 16),
    (32, 32),
];

/// So many types of 4 states, all accepting, with a step from each state to each, by 16 types of different tags where there are so many.
pub fn layered(types: u8) -> Schema {
    let tags = types.min(32);
    let types: Vec<Type> = (0..u32::from(types))
        .map(|a| Type {
            tag: (a % 32) as u8,
            states: 4,
            accepting: 0b1111,
            steps: (0..16)
                .map(|n| {
                    let by = (a * 11 + n) % u32::from(types);
                    [(n / 4) as u8, by as u8, ((a + n) % 4) as u8]
                })
                .collect(),
        })
        .collect();
    schema(tags, 0, &types)
}

/// 64 types of `layered`, eight of them roots, none of which compete.
pub fn eight_roots() -> Schema {
    let mut s = layered(64);
    set_roots(&mut s, &[63, 54, 45, 36, 27, 18, 9, 0]);
    s
}

/// The same with a last root of the first one's tag.
pub fn competing_roots() -> Schema {
    let mut s = eight_roots();
    s.root[7] = 31;
    s
}

/// Eight kinds of lists, each a root with types of its own: it holds articles of six kinds, and each of these notes, both in any number and order.
pub fn eight_lists() -> Schema {
    let mut types: Vec<Type> = (0..8)
        .map(|list| {
            let articles = (0..6).map(|n| 8 + 6 * list + n);
            Type {
                tag: list,
                states: 1,
                accepting: 1,
                steps: articles.map(|article| [0, article, 0]).collect(),
            }
        })
        .collect();
    types.extend((0..48).map(|article| typed(8 + article % 6, 1, 1, [[0, 56 + article / 6, 0]])));
    types.extend((0..8).map(|list| leaf(14 + list)));
    let mut s = schema(22, 0, &types);
    set_roots(&mut s, &[7, 6, 5, 4, 3, 2, 1, 0]);
    s
}

/// One type, with one step by itself.
pub fn nesting() -> Schema {
    schema(2, 0, &[typed(0, 1, 1, [[0, 0, 0]]), leaf(1)])
}

/// A line of 31 steps with a loop at its start: all 528 pairs are reached.
fn looped(by: u8) -> Vec<[u8; 3]> {
    let mut steps = line(31, by);
    steps.push([0, by, 0]);
    steps
}

/// 32 types of 32 states with 32 steps each: type 0 needs nothing, each other the one before it, and in each all pairs are reached. `leaves`
/// more types are leaves.
pub fn wide(leaves: u8) -> Schema {
    let mut types = vec![Type {
        tag: 0,
        states: 32,
        accepting: 1 << 31 | 1,
        steps: looped(0),
    }];
    for a in 1..32 {
        types.push(Type {
            tag: a,
            states: 32,
            accepting: 1 << 31,
            steps: looped(a - 1),
        });
    }
    types.extend((0..leaves).map(leaf));
    schema(32, 31, &types)
}

/// 31 such types below a root that holds the last of them and 31 leaves: all 1,024 steps, and every type is used.
pub fn wide_over_leaves() -> Schema {
    let mut types: Vec<Type> = (0..31)
        .map(|a: u8| Type {
            tag: a,
            states: 32,
            accepting: 1 << 31 | u32::from(a == 0),
            steps: looped(a.saturating_sub(1)),
        })
        .collect();
    types.push(Type {
        tag: 31,
        states: 1,
        accepting: 1,
        steps: [30]
            .into_iter()
            .chain(32..63)
            .map(|by| [0, by, 0])
            .collect(),
    });
    types.extend((0..32).filter(|&tag| tag != 30).map(leaf));
    schema(32, 31, &types)
}
