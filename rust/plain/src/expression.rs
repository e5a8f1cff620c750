//! Content written as an expression, and the automaton that it becomes.
//!
//! State 0 is the automaton's start, and the uses of types are its other states, numbered in order
//! from 1 on.

use crate::codes::{CLOSE_BRACKET, END, NEXT, OPEN_BRACKET, REPEAT, USE};
use crate::limits::{MOST_BRACKETS, MOST_STATES, MOST_TYPES, MOST_USES, State, Type};
use crate::questions::{
    CANNOT_FOLLOW, NO_COMMAND, Number, OUT_OF_ORDER, OUT_OF_RANGE, TOO_MANY_BRACKETS,
    TOO_MANY_USES, ask,
};
use crate::schema::Step;
use crate::schema_file::{Named, Refusal, is_command};
use crate::states::States;

/// The automaton of an expression.
#[derive(Debug)]
pub struct Content {
    uses: usize,
    /// For each use its type; state 0 has none.
    types: [Type; MOST_STATES],
    /// For state 0 and each use the uses that come next.
    next: [States; MOST_STATES],
    accepting: States,
}

/// A part of an expression: the uses that begin and that end its words. The start stands for the empty
/// word: it is in both sets, or in none.
#[derive(Debug, Clone, Copy)]
struct Part {
    first: States,
    last: States,
}

impl Part {
    /// The empty sequence.
    const EMPTY: Part = Part {
        first: States::START,
        last: States::START,
    };

    /// A choice of no sequence.
    const NOTHING: Part = Part {
        first: States::NONE,
        last: States::NONE,
    };

    #[inline]
    fn of(state: State) -> Self {
        let only = States::only(state);
        Part {
            first: only,
            last: only,
        }
    }

    #[inline]
    fn or(self, other: Part) -> Self {
        Part {
            first: self.first.union(other.first),
            last: self.last.union(other.last),
        }
    }
}

/// What is read of the choice inside a bracket, or of the whole: the sequences that have ended, and
/// the one that has not.
#[derive(Debug, Clone, Copy)]
struct Level {
    ended: Part,
    sequence: Part,
}

impl Level {
    const BEGUN: Level = Level {
        ended: Part::NOTHING,
        sequence: Part::EMPTY,
    };

    /// The choice, if it ends here.
    #[inline]
    fn choice(self) -> Part {
        self.ended.or(self.sequence)
    }
}

/// Reads expressions, one after another.
pub(crate) struct Reader {
    content: Content,
    /// The levels outside the innermost bracket.
    outer: [Level; MOST_BRACKETS],
}

impl Reader {
    pub(crate) fn new() -> Self {
        let content = Content {
            uses: 0,
            types: [0; MOST_STATES],
            next: [States::NONE; MOST_STATES],
            accepting: States::NONE,
        };
        let outer = [Level::BEGUN; MOST_BRACKETS];
        Reader { content, outer }
    }

    /// Reads the expression that begins at a place. Its automaton, and the place of the command that
    /// ends it; `named` learns of the types that it uses.
    pub(crate) fn read(
        &mut self,
        file: &[u8],
        mut place: usize,
        named: &mut Named,
    ) -> Result<(&Content, usize), Refusal> {
        let Reader { content, outer } = self;
        content.uses = 0;
        let mut depth = 0;
        let mut level = Level::BEGUN;
        loop {
            let refused = |number| Refusal { number, place };
            let (factor, length) = match file[place..] {
                [USE, of, ..] => {
                    let factor = content.add(of).map_err(refused)?;
                    named.put(of, place);
                    (factor, 2)
                }
                [OPEN_BRACKET, ..] => {
                    ask(TOO_MANY_BRACKETS, depth < MOST_BRACKETS).map_err(refused)?;
                    outer[depth] = level;
                    depth += 1;
                    level = Level::BEGUN;
                    place += 1;
                    continue;
                }
                [CLOSE_BRACKET, ..] => {
                    ask(CANNOT_FOLLOW, depth > 0).map_err(refused)?;
                    let factor = level.choice();
                    depth -= 1;
                    level = outer[depth];
                    (factor, 1)
                }
                [NEXT, ..] => {
                    level.ended = level.choice();
                    level.sequence = Part::EMPTY;
                    place += 1;
                    continue;
                }
                [END, ..] if depth == 0 => {
                    content.end(level.choice());
                    return Ok((content, place));
                }
                [REPEAT | END, ..] => return Err(refused(CANNOT_FOLLOW)),
                ref other if is_command(other) => return Err(refused(OUT_OF_ORDER)),
                _ => return Err(refused(NO_COMMAND)),
            };
            place += length;
            let factor = match file.get(place) {
                Some(&REPEAT) => {
                    place += 1;
                    content.repeat(factor)
                }
                _ => factor,
            };
            level.sequence = content.join(level.sequence, factor);
        }
    }
}

impl Content {
    /// One more use.
    #[inline]
    fn add(&mut self, of: Type) -> Result<Part, Number> {
        ask(OUT_OF_RANGE, usize::from(of) < MOST_TYPES)?;
        ask(TOO_MANY_USES, self.uses < MOST_USES)?;
        self.uses += 1;
        self.types[self.uses] = of;
        self.next[self.uses] = States::NONE;
        Ok(Part::of(self.uses as State))
    }

    /// The uses that begin words of one part come next after those that end words of another.
    #[inline]
    fn follow(&mut self, last: States, first: States) {
        for state in last.without_start().iter() {
            let next = &mut self.next[usize::from(state)];
            *next = next.union(first.without_start());
        }
    }

    #[inline]
    fn repeat(&mut self, factor: Part) -> Part {
        self.follow(factor.last, factor.first);
        factor.or(Part::EMPTY)
    }

    /// A sequence and one more factor.
    #[inline]
    fn join(&mut self, sequence: Part, factor: Part) -> Part {
        self.follow(sequence.last, factor.first);
        let past = |part: States, beyond: States| match part.has_start() {
            true => part.without_start().union(beyond),
            false => part,
        };
        Part {
            first: past(sequence.first, factor.first),
            last: past(factor.last, sequence.last),
        }
    }

    #[inline]
    fn end(&mut self, whole: Part) {
        self.next[0] = whole.first.without_start();
        self.accepting = whole.last;
    }

    pub fn states(&self) -> u8 {
        self.uses as u8 + 1
    }

    pub fn accepting(&self) -> States {
        self.accepting
    }

    /// The number of steps.
    pub fn count(&self) -> usize {
        let next = self.next[..=self.uses].iter();
        next.map(|states| states.0.count_ones() as usize).sum()
    }

    /// Hands out the steps, rising by from, type and to.
    #[inline]
    pub fn for_each_step(&self, put: impl FnMut(Step)) {
        let mut order: [State; MOST_STATES] = std::array::from_fn(|state| state as State);
        if self.types[1..=self.uses].is_sorted() {
            return self.for_each_next(|next| next, &order, put);
        }
        order[1..=self.uses].sort_by_key(|&state| self.types[usize::from(state)]);
        let mut place_of = [0; MOST_STATES];
        for (place, &state) in (0..).zip(&order) {
            place_of[usize::from(state)] = place;
        }
        let places = |next: States| {
            let mut places = States::NONE;
            for state in next.iter() {
                places.add(place_of[usize::from(state)]);
            }
            places
        };
        self.for_each_next(places, &order, put);
    }

    /// The same, with the uses in an order and a set of uses as the set of their places in it.
    #[inline]
    fn for_each_next(
        &self,
        places: impl Fn(States) -> States,
        order: &[State; MOST_STATES],
        mut put: impl FnMut(Step),
    ) {
        for (from, &next) in (0..).zip(&self.next[..=self.uses]) {
            for place in places(next).iter() {
                let to = order[usize::from(place)];
                let by = self.types[usize::from(to)];
                put(Step { from, by, to });
            }
        }
    }
}
