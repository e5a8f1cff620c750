//! Random readings, inside the limits and outside them, and random calls on them under random schemas.
use super::calls::{Call, Calls};
use crate::random::Random;
use plain::limits::MOST_OPEN;
use plain::questions::OUTSIDE_LIMITS;
use plain::{Answer, Answered, Reading, Schema, States};

const SCHEMAS: u32 = 4_000;
const EVENTS: u32 = 60;
const MADE_UP: u32 = 20;

impl Random {
    /// Levels of types and states that are mostly the schema's.
    fn reading(&mut self, s: &Schema) -> Reading {
        let mut r = Reading {
            depth: self.byte(4),
            rooted: self.below(4) != 0,
            finished: self.below(8) == 0,
            ..Reading::FRESH
        };
        if self.below(4) == 0 {
            r.depth = 62 + self.byte(4);
        }
        for n in 0..MOST_OPEN {
            r.types[n] = self.byte(s.types.max(1));
            r.sets[n] = self.states(s.states[r.types[n] as usize % 64].min(32));
        }
        if self.below(8) == 0 {
            let n = self.below(4) as usize;
            let (of, set) = (self.byte(80), self.states(32));
            r.types[n] = [s.types, of][self.below(2) as usize];
            r.sets[n] = [States::NONE, set][self.below(2) as usize];
        }
        // As in a nil element.
        if self.below(8) == 0 {
            r.sets[usize::from(r.depth.clamp(1, 64)) - 1] = States::NONE;
        }
        r
    }

    fn call(&mut self, s: &Schema) -> Call {
        let tag = self.byte(s.tags.clamp(1, 32) + 1);
        match self.below(10) {
            0 => Call::Finish,
            1..=4 => Call::Close(tag),
            5..=6 => Call::OpenNil(tag),
            _ => Call::Open(tag),
        }
    }
}

/// How many calls were made, and of each answer how many: a type, taken, and the refusals 10 to 18.
pub struct Counts {
    pub calls: u32,
    pub answers: [u32; 11],
}

impl Counts {
    fn count(&mut self, a: &Answered) {
        let slot = match a.answer {
            Answer::Typed(_) => 0,
            Answer::Taken => 1,
            Answer::Refused(number) => usize::from(number - OUTSIDE_LIMITS) + 2,
        };
        self.calls += 1;
        self.answers[slot] += 1;
    }
}

/// The same calls to all, the whole of what they hand back compared. A walk from a fresh reading goes on with what was handed back.
pub fn compare(all: &[Calls]) -> Option<Counts> {
    let mut random = Random(0x9E37_79B9_7F4A_7C15);
    let mut counts = Counts {
        calls: 0,
        answers: [0; 11],
    };
    for _ in 0..SCHEMAS {
        let schema = random.schema();
        let mut walk = Reading::FRESH;
        for n in 0..EVENTS + MADE_UP {
            let reading = if n < EVENTS {
                walk
            } else {
                random.reading(&schema)
            };
            let call = random.call(&schema);
            let answered = all[0](&schema, &reading, call);
            let differs = |other: &Calls| other(&schema, &reading, call) != answered;
            if all.iter().any(differs) {
                return None;
            }
            counts.count(&answered);
            walk = answered.reading;
        }
    }
    Some(counts)
}
