//! The writer: a schema file without the types that no valid document uses.

use std::ops::Range;

use crate::codes::{END, FINAL, NIL, ROOT, STEP, TYPE, USE};
use crate::limits::{MOST_TYPES, Type};
use crate::questions::{COMPETITION, NO_ROOM, NO_TREE, Number, ask};
use crate::schema::{Schema, Step};
use crate::trimming::Trimming;
use crate::{competition, has_documents, schema_file};

/// Writes the file without the types that no valid document uses to the front of `out`, and answers its
/// length; the bytes of `out` past it are unchanged. A file that was refused before question 24 came, by
/// 2 to 9 or 21 to 23, gets that number, and last 20 stands for an `out` that is too short; all of it is
/// unchanged then.
pub fn write_reduced(file: &[u8], out: &mut [u8]) -> Result<usize, Number> {
    let mut schema = Schema::BLANK;
    schema_file::read(file, &mut schema).map_err(|refusal| refusal.number)?;
    let trimming = Trimming::of(&schema);
    ask(NO_TREE, has_documents(&schema, &trimming))?;
    let found = competition::find(&schema, &trimming);
    ask(COMPETITION, found.is_none())?;
    let mut writer = Writer {
        schema: &schema,
        numbers: new_numbers(&schema, &trimming),
        written: Vec::with_capacity(file.len()),
    };
    writer.put_file(file);
    let written = writer.written;
    let front = out.get_mut(..written.len()).ok_or(NO_ROOM)?;
    front.copy_from_slice(&written);
    Ok(written.len())
}

/// For each type its number in the written file; none for a type that is left out.
type Numbers = [Option<Type>; MOST_TYPES];

fn new_numbers(schema: &Schema, trimming: &Trimming) -> Numbers {
    let mut numbers = [None; MOST_TYPES];
    let used = (0..schema.types).filter(|&of| trimming.is_used(of));
    for (new, old) in (0..).zip(used) {
        numbers[usize::from(old)] = Some(new);
    }
    numbers
}

struct Writer<'s> {
    schema: &'s Schema,
    numbers: Numbers,
    written: Vec<u8>,
}

impl Writer<'_> {
    /// Writes what stays of the file that states the schema, in its order. Bytes that stay as they are are
    /// copied a run at a time.
    fn put_file(&mut self, file: &[u8]) {
        let mut blocks = self.schema.blocks();
        let mut block = (0, 0..0);
        let mut kept = true;
        let mut run = 0;
        let mut place = 0;
        while place < file.len() {
            let rest = &file[place..];
            let (length, stays) = match *rest {
                [TYPE, _, states, ..] => {
                    block = blocks.next().expect("a block for each TYPE");
                    kept = self.numbers[block.0].is_some();
                    match states {
                        0 => self.scan(rest),
                        _ => (3, true),
                    }
                }
                [STEP, _, by, ..] => (4, self.keeps_number(by)),
                [ROOT, of, ..] => {
                    kept = true;
                    (2, self.keeps_number(of))
                }
                [FINAL, ..] => (2, true),
                [NIL, ..] => (1, true),
                // TAGS with its count, or DONE, after which there is nothing.
                _ => (rest.len().min(2), true),
            };
            if !(kept && stays) {
                self.written.extend_from_slice(&file[run..place]);
                run = place + length;
                if kept {
                    self.put_changed(&file[place..run], &block);
                }
            }
            place += length;
        }
        self.written.extend_from_slice(&file[run..]);
    }

    #[inline]
    fn keeps_number(&self, of: Type) -> bool {
        self.numbers[usize::from(of)] == Some(of)
    }

    /// The length of a TYPE and its expression, and whether it stays as it is.
    fn scan(&self, rest: &[u8]) -> (usize, bool) {
        let mut length = 3;
        let mut stays = true;
        while rest[length] != END {
            if rest[length] == USE {
                length += 1;
                stays &= self.keeps_number(rest[length]);
            }
            length += 1;
        }
        (length + 1, stays)
    }

    /// Writes what becomes of a STEP, a ROOT or a TYPE with its expression, in a block that is kept.
    fn put_changed(&mut self, command: &[u8], block: &(usize, Range<usize>)) {
        match *command {
            [STEP, from, by, to] => self.put_step(Step { from, by, to }),
            [ROOT, of] => {
                let of = self.numbers[usize::from(of)];
                self.written
                    .extend(of.into_iter().flat_map(|of| [ROOT, of]));
            }
            _ => {
                let start = self.written.len();
                if !self.put_expression(command) {
                    self.written.truncate(start);
                    self.put_states(block);
                }
            }
        }
    }

    /// Writes a step if its type is kept.
    #[inline]
    fn put_step(&mut self, Step { from, by, to }: Step) {
        if let Some(by) = self.numbers[usize::from(by)] {
            self.written.extend([STEP, from, by, to]);
        }
    }

    /// Writes a TYPE and its expression, as far as all types that it uses are kept. Are they?
    fn put_expression(&mut self, command: &[u8]) -> bool {
        let (head, mut text) = command.split_at(3);
        self.written.extend_from_slice(head);
        while let [sign, ref rest @ ..] = *text {
            self.written.push(sign);
            text = rest;
            if sign == USE {
                let Some(of) = self.numbers[usize::from(rest[0])] else {
                    return false;
                };
                self.written.push(of);
                text = &rest[1..];
            }
        }
        true
    }

    /// Writes a type by all its states, its accepting states and then its steps rising.
    fn put_states(&mut self, (of, own): &(usize, Range<usize>)) {
        let schema = self.schema;
        let head = [TYPE, schema.tag[*of], schema.states[*of]];
        self.written.extend(head);
        for state in schema.accepting[*of].iter() {
            self.written.extend([FINAL, state]);
        }
        for step in schema.steps_at(own.clone()) {
            self.put_step(step);
        }
    }
}
