//! Random schemas, inside the limits and outside them.
use crate::random::Random;
use crate::schemas::{Type, schema, set_roots};
use plain::limits::MOST_ROOTS;
use plain::{Schema, States};

impl Random {
    /// A set of the first `n` states.
    pub fn states(&mut self, n: u8) -> States {
        States(self.below(1 << n) as u32)
    }

    /// Up to four types and states, or up to the limits.
    pub fn schema(&mut self) -> Schema {
        let (tags, types, states) = if self.below(4) == 0 {
            (32, 64, 32)
        } else {
            (3, 4, 4)
        };
        let tags = 1 + self.byte(tags);
        let types = 1 + self.byte(types);
        let blocks: Vec<Type> = (0..types)
            .map(|_| {
                let states = 1 + self.byte(states);
                let steps = self.below(2 * u64::from(states).min(8));
                Type {
                    tag: self.byte(tags),
                    states,
                    accepting: self.states(states).0,
                    steps: (0..steps)
                        .map(|_| [self.byte(states), self.byte(types), self.byte(states)])
                        .collect(),
                }
            })
            .collect();
        // A root may be there twice.
        let most = [1, MOST_ROOTS as u8][self.below(2) as usize];
        let roots: Vec<u8> = (0..=self.byte(most)).map(|_| self.byte(types)).collect();
        let mut s = schema(tags, roots[0], &blocks);
        set_roots(&mut s, &roots);
        self.nillable(&mut s);
        if self.below(8) == 0 {
            self.spoil(&mut s);
        }
        s
    }

    /// Makes none, some or all of the types nillable, those that are not used among them.
    fn nillable(&mut self, s: &mut Schema) {
        let share = [0, 1, 2, 4][self.below(4) as usize];
        for flag in &mut s.nillable {
            *flag = self.below(4) < share;
        }
    }

    /// Some number of the schema becomes another: one of its counts, one near a limit or any.
    fn spoil(&mut self, s: &mut Schema) {
        let a = self.byte(s.types) as usize;
        let i = self.below(16) as usize;
        let near = [s.tags, s.types, s.states[a], 0, 32, 33, 64, 65];
        let any = match self.below(16) {
            n @ 0..8 => near[n as usize],
            _ => self.byte(255),
        };
        match self.below(11) {
            0 => s.tags = any,
            1 => s.types = any,
            2 => s.roots = [0, 8, 9, 255, any][self.below(5) as usize],
            3 => s.root[i % MOST_ROOTS] = any,
            4 => s.tag[a] = any,
            5 => s.states[a] = any % 40,
            6 => s.accepting[a] = self.states(32),
            7 => s.steps[a] = self.below(1100) as u16,
            8 => s.from[i] = any % 40,
            9 => s.by[i] = any,
            _ => s.to[i] = any % 40,
        }
    }
}
