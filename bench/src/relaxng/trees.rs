//! Documents as trees: valid ones, damaged ones, as event files and as XML text.
use crate::random::Random;
use plain::States;
use plain::codes::{CLOSE, FINISH, OPEN};
use plain::limits::{MOST_STATES, Type};
use plain::schema::{Schema, Step};

#[derive(Clone)]
pub struct Tree {
    tag: u8,
    children: Vec<Tree>,
}

/// Elements are no deeper than this, well below the engine's 64 levels.
const DEEPEST: u32 = 12;

/// How many steps at least lead from each state of the type to an accepting one.
fn distances(schema: &Schema, a: Type) -> [u32; MOST_STATES] {
    let mut far = [u32::MAX; MOST_STATES];
    for p in schema.accepting[usize::from(a)].iter() {
        far[usize::from(p)] = 0;
    }
    for _ in 0..MOST_STATES {
        for step in schema.steps_at(schema.block(a)) {
            let (p, q) = (usize::from(step.from), usize::from(step.to));
            far[p] = far[p].min(far[q].saturating_add(1));
        }
    }
    far
}

/// The states of the type that words of any length go on from.
fn endless(schema: &Schema, a: Type) -> States {
    let mut set = States(u32::MAX);
    for _ in 0..MOST_STATES {
        let mut before = States::NONE;
        let steps = schema.steps_at(schema.block(a));
        steps
            .filter(|step| set.has(step.to))
            .for_each(|step| before.add(step.from));
        set = before;
    }
    set
}

/// A tree with the type at its root. While elements are left a content goes on at random where it can for ever, the root's to the last; then it
/// goes the shortest way to an accepting state. Every type of the schema must bear a tree.
pub fn valid(schema: &Schema, a: Type, left: &mut i64, depth: u32, random: &mut Random) -> Tree {
    let (far, endless) = (distances(schema, a), endless(schema, a));
    let (mut p, mut children) = (0, Vec::new());
    *left -= 1;
    loop {
        let more = 0 < *left && depth < DEEPEST && (depth == 1 || random.below(8) != 0);
        if far[p] == 0 && !more {
            break;
        }
        let goes_on = more && endless.has(p as u8);
        let leads_on = |step: &Step| {
            let q = usize::from(step.to);
            far[q] != u32::MAX
                && if goes_on {
                    endless.has(step.to)
                } else {
                    far[q] < far[p]
                }
        };
        let steps: Vec<Step> = schema
            .steps_at(schema.block(a))
            .filter(|step| usize::from(step.from) == p && leads_on(step))
            .collect();
        if steps.is_empty() {
            break;
        }
        let step = steps[random.below(steps.len() as u64) as usize];
        children.push(valid(schema, step.by, left, depth + 1, random));
        p = usize::from(step.to);
    }
    Tree {
        tag: schema.tag[usize::from(a)],
        children,
    }
}

impl Tree {
    /// Another tag somewhere, or a child less, twice, in its neighbour's place or of another tag.
    pub fn damage(&mut self, tags: u8, random: &mut Random) {
        let count = self.children.len() as u64;
        if count == 0 || random.below(12) == 0 {
            self.tag = random.byte(tags);
            return;
        }
        let n = random.below(count) as usize;
        match random.below(6) {
            0 => drop(self.children.remove(n)),
            1 => self.children.insert(n, self.children[n].clone()),
            2 => self.children.swap(n, random.below(count) as usize),
            3 => self.children[n].tag = random.byte(tags),
            _ => self.children[n].damage(tags, random),
        }
    }

    fn events(&self, out: &mut Vec<u8>) {
        out.extend([OPEN, self.tag]);
        self.children.iter().for_each(|child| child.events(out));
        out.extend([CLOSE, self.tag]);
    }

    pub fn event_file(&self) -> Vec<u8> {
        let mut out = Vec::new();
        self.events(&mut out);
        out.push(FINISH);
        out
    }

    pub fn xml(&self, out: &mut String) {
        *out += &format!("<e{}>", self.tag);
        self.children.iter().for_each(|child| child.xml(out));
        *out += &format!("</e{}>", self.tag);
    }
}
