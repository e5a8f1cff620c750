//! The schema file: its commands and the questions 2 to 7, and those of expressions.

use crate::codes::{
    CLOSE_BRACKET, DONE, END, FINAL, NEXT, NIL, OPEN_BRACKET, REPEAT, ROOT, STEP, TAGS, TYPE, USE,
};
use crate::expression::Reader;
use crate::limits::{MOST_ROOTS, MOST_STATES, MOST_STEPS, MOST_TAGS, MOST_TYPES, State, Tag, Type};
use crate::questions::{
    NO_COMMAND, Number, OUT_OF_ORDER, OUT_OF_RANGE, REPEATED, TOO_MANY, UNKNOWN_TYPE, ask,
};
use crate::schema::{Schema, Step};

/// A refused file: the number of the first question answered no, and its place.
#[derive(Debug, Clone, Copy, PartialEq, Eq)]
pub struct Refusal {
    pub number: Number,
    pub place: usize,
}

/// A command; of those that stand in expressions no more than that it is one.
#[derive(Debug, Clone, Copy)]
enum Command {
    Tags { count: u8 },
    Type { tag: Tag, states: u8 },
    Final { state: State },
    Step(Step),
    Nil,
    Root { of: Type },
    Done,
    OfExpression,
}

/// The command that these bytes begin with, and its length.
#[inline(always)]
fn command(bytes: &[u8]) -> Option<(Command, usize)> {
    match *bytes {
        [TAGS, count, ..] => Some((Command::Tags { count }, 2)),
        [TYPE, tag, states, ..] => Some((Command::Type { tag, states }, 3)),
        [FINAL, state, ..] => Some((Command::Final { state }, 2)),
        [STEP, from, by, to, ..] => Some((Command::Step(Step { from, by, to }), 4)),
        [NIL, ..] => Some((Command::Nil, 1)),
        [ROOT, of, ..] => Some((Command::Root { of }, 2)),
        [DONE, ..] => Some((Command::Done, 1)),
        [USE, _, ..] => Some((Command::OfExpression, 2)),
        [OPEN_BRACKET | CLOSE_BRACKET | NEXT | REPEAT | END, ..] => {
            Some((Command::OfExpression, 1))
        }
        _ => None,
    }
}

/// Do these bytes begin with a command?
pub(crate) fn is_command(bytes: &[u8]) -> bool {
    command(bytes).is_some()
}

/// The place of a type's TYPE, in a file that states a schema with this type.
pub fn place_of_type(file: &[u8], of: Type) -> usize {
    let mut place = 0;
    let mut left = of;
    loop {
        let (command, length) = command(&file[place..]).expect("a command that was read");
        match command {
            Command::Type { .. } if left == 0 => return place,
            Command::Type { .. } => left -= 1,
            _ => {}
        }
        place += length;
    }
}

/// Reads the schema that a file states into a blank one.
pub fn read(file: &[u8], schema: &mut Schema) -> Result<(), Refusal> {
    let mut draft = Draft {
        phase: Phase::Start,
        schema,
        steps: 0,
        named: Named([NOWHERE; MOST_TYPES]),
        reader: None,
    };
    let mut place = 0;
    while draft.phase != Phase::Done {
        let refused = |number| Refusal { number, place };
        let (command, length) = command(&file[place..]).ok_or(refused(NO_COMMAND))?;
        draft.take(command, place).map_err(refused)?;
        place += length;
        if let Command::Type { states: 0, .. } = command {
            place = draft.take_expression(file, place)?;
        }
    }
    if place < file.len() {
        let number = OUT_OF_ORDER;
        return Err(Refusal { number, place });
    }
    match draft.first_unknown() {
        NOWHERE => Ok(()),
        place => Err(Refusal {
            number: UNKNOWN_TYPE,
            place,
        }),
    }
}

/// Which commands may come: TAGS, a TYPE, what stands in a block or after it, what stands after an
/// expression (NIL alone of a block's), a ROOT or DONE, none.
#[derive(Debug, Clone, Copy, PartialEq, Eq)]
enum Phase {
    Start,
    Tags,
    Blocks,
    Expression,
    Roots,
    Done,
}

/// What the commands read so far state.
struct Draft<'s> {
    phase: Phase,
    schema: &'s mut Schema,
    /// The steps of all blocks so far.
    steps: usize,
    named: Named,
    /// From the first expression on.
    reader: Option<Reader>,
}

/// For each type the place of the first STEP or use that names it.
pub(crate) struct Named([usize; MOST_TYPES]);

/// The place of a command that no file has.
const NOWHERE: usize = usize::MAX;

impl Named {
    #[inline]
    pub(crate) fn put(&mut self, of: Type, place: usize) {
        let first = &mut self.0[usize::from(of)];
        *first = place.min(*first);
    }
}

impl Draft<'_> {
    /// Takes the command at a place, or answers the number of its refusal.
    #[inline]
    fn take(&mut self, command: Command, place: usize) -> Result<(), Number> {
        ask(OUT_OF_ORDER, self.in_order(command))?;
        ask(OUT_OF_RANGE, self.in_range(command))?;
        ask(TOO_MANY, self.within_limits(command))?;
        ask(REPEATED, self.is_new(command))?;
        self.put(command, place);
        Ok(())
    }

    #[inline]
    fn in_order(&self, command: Command) -> bool {
        match command {
            Command::Tags { .. } => self.phase == Phase::Start,
            Command::Type { .. } => {
                matches!(self.phase, Phase::Tags | Phase::Blocks | Phase::Expression)
            }
            Command::Final { .. } | Command::Step(_) => self.phase == Phase::Blocks,
            Command::Nil => matches!(self.phase, Phase::Blocks | Phase::Expression),
            Command::Root { .. } => {
                matches!(self.phase, Phase::Blocks | Phase::Expression | Phase::Roots)
            }
            Command::Done => self.phase == Phase::Roots,
            Command::OfExpression => false,
        }
    }

    #[inline]
    fn in_range(&self, command: Command) -> bool {
        match command {
            Command::Tags { count } => (1..=MOST_TAGS).contains(&usize::from(count)),
            Command::Type { tag, states } => {
                tag < self.schema.tags && usize::from(states) <= MOST_STATES
            }
            Command::Final { state } => state < self.states(),
            Command::Step(Step { from, by, to }) => {
                from < self.states() && usize::from(by) < MOST_TYPES && to < self.states()
            }
            Command::Root { of } => of < self.schema.types,
            Command::Nil | Command::Done | Command::OfExpression => true,
        }
    }

    #[inline]
    fn within_limits(&self, command: Command) -> bool {
        match command {
            Command::Type { .. } => usize::from(self.schema.types) < MOST_TYPES,
            Command::Step(_) => self.steps < MOST_STEPS,
            Command::Root { .. } => usize::from(self.schema.roots) < MOST_ROOTS,
            _ => true,
        }
    }

    /// Is it no FINAL, STEP or NIL that its block already has, and no ROOT that was given?
    #[inline]
    fn is_new(&self, command: Command) -> bool {
        match command {
            Command::Final { state } => !self.schema.accepting[self.block()].has(state),
            Command::Step(step) => {
                let first = self.steps - usize::from(self.schema.steps[self.block()]);
                let mut given = self.schema.steps_at(first..self.steps);
                !given.any(|other| other == step)
            }
            Command::Nil => !self.schema.nillable[self.block()],
            Command::Root { of } => !self.schema.root_types().contains(&of),
            _ => true,
        }
    }

    /// Adds what the command states.
    #[inline]
    fn put(&mut self, command: Command, place: usize) {
        match command {
            Command::Tags { count } => {
                self.schema.tags = count;
                self.phase = Phase::Tags;
            }
            Command::Type { tag, states } => self.put_type(tag, states),
            Command::Final { state } => self.schema.accepting[self.block()].add(state),
            Command::Step(step) => self.put_step(step, place),
            Command::Nil => self.schema.nillable[self.block()] = true,
            Command::Root { of } => self.put_root(of),
            Command::Done => self.phase = Phase::Done,
            Command::OfExpression => {}
        }
    }

    /// Takes the expression that begins at a place, as the content of the type whose block is being
    /// read; the place after it.
    #[inline(never)]
    fn take_expression(&mut self, file: &[u8], place: usize) -> Result<usize, Refusal> {
        let of = self.block();
        let reader = self.reader.get_or_insert_with(Reader::new);
        let (content, end) = reader.read(file, place, &mut self.named)?;
        let steps = content.count();
        let fits = self.steps + steps <= MOST_STEPS;
        ask(TOO_MANY, fits).map_err(|number| Refusal { number, place: end })?;
        self.schema.states[of] = content.states();
        self.schema.accepting[of] = content.accepting();
        self.schema.steps[of] = steps as u16;
        content.for_each_step(|Step { from, by, to }| {
            self.schema.from[self.steps] = from;
            self.schema.by[self.steps] = by;
            self.schema.to[self.steps] = to;
            self.steps += 1;
        });
        self.phase = Phase::Expression;
        Ok(end + 1)
    }

    #[inline]
    fn put_type(&mut self, tag: Tag, states: u8) {
        let of = usize::from(self.schema.types);
        self.schema.tag[of] = tag;
        self.schema.states[of] = states;
        self.schema.types += 1;
        self.phase = Phase::Blocks;
    }

    #[inline]
    fn put_step(&mut self, Step { from, by, to }: Step, place: usize) {
        self.schema.from[self.steps] = from;
        self.schema.by[self.steps] = by;
        self.schema.to[self.steps] = to;
        self.schema.steps[self.block()] += 1;
        self.steps += 1;
        self.named.put(by, place);
    }

    #[inline]
    fn put_root(&mut self, of: Type) {
        self.schema.root[usize::from(self.schema.roots)] = of;
        self.schema.roots += 1;
        self.phase = Phase::Roots;
    }

    /// The type whose block is being read.
    #[inline]
    fn block(&self) -> usize {
        usize::from(self.schema.types) - 1
    }

    /// The number of states of the type whose block is being read.
    #[inline]
    fn states(&self) -> u8 {
        self.schema.states[self.block()]
    }

    /// The place of the first STEP or use that names a type that was not given.
    fn first_unknown(&self) -> usize {
        let unknown = &self.named.0[usize::from(self.schema.types)..];
        unknown.iter().copied().min().unwrap_or(NOWHERE)
    }
}
