//! How often each answer of the writer came up, and what was left out.

use std::fmt;

use crate::damage::offsets;
use crate::input::Input;
use plain::codes::TYPE;
use plain::questions::{COMPETITION, NO_COMMAND, NO_ROOM, TOO_MANY_BRACKETS};
use plain::{Schema, Trimming};

/// One more than the highest number that a writer answers.
const NUMBERS: usize = TOO_MANY_BRACKETS as usize + 1;

#[derive(Debug, Clone, Default)]
pub struct Written {
    numbers: [u64; NUMBERS],
    /// Files of which types were left out, those of them that lost a root, those in which a type's
    /// expression was written by its states, and those that grew.
    pub reduced: u64,
    pub lost_roots: u64,
    pub by_states: u64,
    pub longer: u64,
    /// The most types that were left out of a file.
    pub most_dropped: usize,
    longest: usize,
}

/// For each type of a file that states a schema whether its content is an expression.
fn expressions(file: &[u8]) -> impl Iterator<Item = bool> {
    let commands = offsets(file).into_iter();
    let types = commands.filter(|&place| file.get(place) == Some(&TYPE));
    types.map(|place| file[place + 2] == 0)
}

impl Written {
    pub fn count(&mut self, input: &Input, answer: Result<usize, u8>, stated: impl Fn() -> Schema) {
        self.numbers[usize::from(answer.err().unwrap_or(0))] += 1;
        let Ok(length) = answer else {
            return;
        };
        self.longest = self.longest.max(length);
        let schema = stated();
        let trimming = Trimming::of(&schema);
        let is_dropped = |&of: &u8| !trimming.is_used(of);
        let dropped = (0..schema.types).filter(is_dropped).count();
        if dropped == 0 {
            return;
        }
        self.reduced += 1;
        self.most_dropped = self.most_dropped.max(dropped);
        self.longer += u64::from(length > input.schema.len());
        self.lost_roots += u64::from(schema.root_types().iter().any(is_dropped));
        let names_dropped = |of: u8| {
            let mut steps = schema.steps_at(schema.block(of));
            steps.any(|step| is_dropped(&step.by))
        };
        let mut types = (0..).zip(expressions(&input.schema));
        let by_states =
            types.any(|(of, expression)| expression && !is_dropped(&of) && names_dropped(of));
        self.by_states += u64::from(by_states);
    }

    pub fn add(&mut self, other: &Written) {
        for (sum, more) in self.numbers.iter_mut().zip(other.numbers) {
            *sum += more;
        }
        self.reduced += other.reduced;
        self.lost_roots += other.lost_roots;
        self.by_states += other.by_states;
        self.longer += other.longer;
        self.most_dropped = self.most_dropped.max(other.most_dropped);
        self.longest = self.longest.max(other.longest);
    }

    /// The answers, with how often each came up.
    pub fn numbers(&self) -> impl Iterator<Item = (&'static str, usize, u64)> {
        let of_files = usize::from(NO_COMMAND)..=usize::from(COMPETITION);
        let numbers = [0].into_iter().chain(of_files);
        let numbers = numbers.chain(usize::from(NO_ROOM)..NUMBERS);
        numbers.map(|number| ("writer", number, self.numbers[number]))
    }
}

impl fmt::Display for Written {
    fn fmt(&self, out: &mut fmt::Formatter) -> fmt::Result {
        writeln!(
            out,
            "files written without unused types: {}, without {} at most; that lost a root: {}",
            self.reduced, self.most_dropped, self.lost_roots
        )?;
        writeln!(
            out,
            "with an expression written by its states: {}; that grew: {}",
            self.by_states, self.longer
        )?;
        writeln!(out, "longest written file: {} bytes", self.longest)
    }
}
