//! Random event files that follow a schema, with now and then an event that need not fit.

use crate::chance::Chance;
use crate::guide::{DEEP, Guide, NEVER};
use plain::codes::{CLOSE, FINISH, OPEN, OPEN_NIL};
use plain::limits::MOST_OPEN;

/// How a document is made.
#[derive(Debug, Clone, Copy)]
struct Plan {
    /// From this many bytes on elements are closed as soon as they may be.
    long_enough: usize,
    /// In this many of 100 cases an element is closed if it may be.
    closing: usize,
    /// In this many of 100 cases an element that may be nil is.
    nil: usize,
    /// The level that is sought first of all.
    depth: usize,
    /// Before this many events one is put in that need not fit.
    stray_at: Option<usize>,
}

/// The longest file, whatever its elements still need.
const LONGEST: usize = 40_000;

impl Plan {
    fn random(chance: &mut Chance) -> Self {
        let long_enough = match chance.below(2000) {
            0 => chance.within(20_000..=39_990),
            1..30 => chance.within(500..=3000),
            30..800 => chance.within(40..=200),
            _ => chance.within(4..=40),
        };
        let closing = chance.of(&[5, 30, 60]);
        let nil = chance.of(&[10, 30, 60]);
        let depth = if chance.percent(8) {
            chance.within(MOST_OPEN - 2..=MOST_OPEN + 3)
        } else {
            1
        };
        let stray_at = chance
            .percent(45)
            .then(|| chance.below(long_enough / 2 + 2));
        Plan {
            long_enough,
            closing,
            nil,
            depth,
            stray_at,
        }
    }
}

/// An event file for this schema.
pub fn events(chance: &mut Chance, guide: &Guide) -> Vec<u8> {
    let plan = Plan::random(chance);
    let mut walk = Walk {
        chance,
        guide,
        plan,
        file: vec![],
        open: vec![],
        events: 0,
    };
    walk.document();
    walk.file
}

struct Walk<'a> {
    chance: &'a mut Chance,
    guide: &'a Guide<'a>,
    plan: Plan,
    file: Vec<u8>,
    /// The type of each open element, and its state if it is not nil.
    open: Vec<(u8, Option<u8>)>,
    events: usize,
}

impl Walk<'_> {
    fn document(&mut self) {
        let Some(root) = self.root() else {
            self.stray();
            return;
        };
        self.opening(root);
        while !self.open.is_empty() && self.file.len() < LONGEST {
            self.go_on();
        }
        self.put(&[FINISH]);
        while self.chance.once_in(30) {
            self.stray();
        }
    }

    /// A root that bears a tree; if a level is sought, one whose trees nest deepest.
    fn root(&mut self) -> Option<u8> {
        let Guide {
            model, tree, depth, ..
        } = self.guide;
        let bearing = model.roots.iter().copied();
        let bearing: Vec<u8> = bearing
            .filter(|&of| tree[usize::from(of)] != NEVER)
            .collect();
        if self.plan.depth > 1 {
            return bearing.into_iter().max_by_key(|&of| depth[usize::from(of)]);
        }
        (!bearing.is_empty()).then(|| self.chance.of(&bearing))
    }

    fn go_on(&mut self) {
        let &(of, state) = self.open.last().expect("an element is open");
        let Some(state) = state else {
            return self.closing(of);
        };
        let may_close = self.guide.rest[usize::from(of)][usize::from(state)] == 0;
        let steps: Vec<_> = self.guide.steps(of, state).collect();
        if may_close && (steps.is_empty() || self.wants_to_close()) {
            return self.closing(of);
        }
        let by_cost = || steps.iter().min_by_key(|step| self.guide.cost(of, **step));
        let by_depth = || {
            steps
                .iter()
                .max_by_key(|step| self.guide.depth[usize::from(step.by)])
        };
        let step = if self.descends() {
            by_depth().copied()
        } else if self.file.len() >= self.plan.long_enough {
            by_cost().copied()
        } else {
            Some(self.chance.of(&steps))
        };
        let step = step.expect("a live state that does not accept has a step");
        self.open.last_mut().expect("an element is open").1 = Some(step.to);
        self.opening(step.by);
    }

    /// Is the level that is sought not yet reached, and may it be?
    fn descends(&self) -> bool {
        let level = self.open.len();
        let sought = self.file.len() <= 2 * level && level < self.plan.depth;
        let deep = |&(root, _): &(u8, _)| self.guide.depth[usize::from(root)] == DEEP;
        sought && self.open.first().is_some_and(deep)
    }

    fn wants_to_close(&mut self) -> bool {
        if self.descends() {
            return false;
        }
        let root_of_many = self.open.len() == 1 && self.plan.long_enough > 200;
        self.file.len() >= self.plan.long_enough
            || !root_of_many && self.chance.percent(self.plan.closing)
    }

    fn opening(&mut self, of: u8) {
        let tag = self.guide.model.types[usize::from(of)].tag;
        let (code, state) = match self.is_nil(of) {
            true => (OPEN_NIL, None),
            false => (OPEN, Some(0)),
        };
        self.put(&[code, tag]);
        self.open.push((of, state));
    }

    /// Is the next element, of this type, to be nil? Yes if it may not be plain, and of those that may be both
    /// as often as is planned; none that leads to the level that is sought.
    fn is_nil(&mut self, of: u8) -> bool {
        let is_root = self.open.is_empty();
        let rather_plain = self.descends() || is_root && !self.chance.once_in(8);
        let wanted = self.file.len() >= self.plan.long_enough || self.chance.percent(self.plan.nil);
        self.guide.model.types[usize::from(of)].nillable
            && (!self.guide.has_plain(of) || wanted && !rather_plain)
    }

    /// Closes the innermost element, of this type.
    fn closing(&mut self, of: u8) {
        self.open.pop();
        self.put(&[CLOSE, self.guide.model.types[usize::from(of)].tag]);
    }

    fn put(&mut self, event: &[u8]) {
        let near_the_limit = self.open.len() >= MOST_OPEN - 1 && self.chance.once_in(4);
        if self.plan.stray_at == Some(self.events) || near_the_limit {
            self.stray();
        }
        self.events += 1;
        self.file.extend(event);
    }

    /// An event of any kind, with any tag or the innermost element's.
    fn stray(&mut self) {
        let Guide { model, .. } = self.guide;
        if let Some(&(of, _)) = self.open.last()
            && self.chance.percent(40)
        {
            self.file.extend([CLOSE, model.types[usize::from(of)].tag]);
            return;
        }
        let tags = model.tags;
        let tag = if self.chance.once_in(6) {
            self.chance.small(tags..=40)
        } else {
            self.chance.small(0..=tags - 1)
        };
        match self.chance.below(12) {
            0..4 => self.file.extend([OPEN, tag]),
            4..6 => self.file.extend([OPEN_NIL, tag]),
            6..9 => self.file.extend([CLOSE, tag]),
            9..11 => self.file.push(FINISH),
            _ => self.file.push(self.chance.byte()),
        }
    }
}
