"""The schema file's answer, the value beside it, and witnesses confirmed by listing."""

from functools import cached_property, lru_cache

from . import schema_file
from .meaning import Meaning, Wrong
from .tables import (COMPETITION, KINDS, LEAST_WITNESS_ROOM, MOST_STATES, MOST_TYPES, NO_PARENT,
                     OPEN, OPEN_NIL, OUTSIDE_LIMITS, SCHEMA_QUESTIONS, SHORT_WITNESS_ROOM,
                     STORED_QUESTIONS, TAKEN)
from .value import SchemaValue, as_set


NO_SCHEMA = SchemaValue.of(schema_file.Schema(roots=()))


class Judged:
    """A schema file's answer to questions 2 to 7 and 21 to 23 and to these of its schema; its
    meaning where it has passed 7, or a known one; the value beside the answer."""

    def __init__(self, file, questions=STORED_QUESTIONS, meaning=None):
        self.meaning = meaning
        try:
            self.meaning = meaning or Meaning(schema_file.read(file))
            self.number, self.place = self.meaning.answer(questions)
        except schema_file.Refused as refused:
            self.number, self.place = refused.number, refused.place
        self.accepted = self.number == TAKEN

    @cached_property
    def value(self):
        return SchemaValue.of(self.meaning.schema, self.meaning) if self.accepted else NO_SCHEMA

    def text(self):
        return answer_text(self.number, self.place)


judge = lru_cache(4000)(Judged)     # as a stored file, without 24


@lru_cache(4000)
def read(file):
    """The reader's answer, 24 among the questions; where no type is unused that of `judge`."""
    stored = judge(file)
    if stored.meaning is None or not stored.meaning.unused():
        return stored
    return Judged(file, SCHEMA_QUESTIONS, stored.meaning)


def answer_text(number, place):
    return f"refused {number} at {place}" if number else "accepted"


def has_room(room):
    """Has the witness buffer so many bytes as question 1 asks?"""
    return room >= LEAST_WITNESS_ROOM


def schema_line(file, room):
    """The line for a schema file and a witness buffer of so many bytes, and the number."""
    if not has_room(room):
        text = answer_text(SHORT_WITNESS_ROOM, 0)
        return f"{text} | {NO_SCHEMA.text()} | kept", SHORT_WITNESS_ROOM
    judged = read(file)
    buffer = buffer_text(judged.number, judged.meaning)
    return f"{judged.text()} | {judged.value.text()} | {buffer}", judged.number


def buffer_text(number, meaning):
    """What the witness buffer holds after an answer: past the witness all is kept."""
    if number != COMPETITION:
        return "kept"
    return f"kept | {witness_text(*meaning.first_competition())}"


def witness_text(a, j, k, w):
    return " ".join(map(str, [a, j, k, len(w), *w]))


def value_line(value, room):
    """The line for a schema value made up, and the numbers of its search and its judgement."""
    meaning = value.meaning
    types = range(min(value.held["types"], MOST_TYPES))
    live = [as_set(meaning.live(a)) if meaning else 0 for a in types]
    bears = [part for a in sorted(meaning.borne) for part in (a, *kind_words(meaning, a))] \
        if meaning else []
    reached = sorted(meaning.reached()) if meaning else []
    rows = rows_text(meaning) if meaning else "rows"
    search, judgement = value_answers(meaning, room)
    line = "; ".join([
        "inside" if meaning else "outside", listed("live", live, ""),
        listed("bears", bears, " none"), listed("reached", reached, " none"), rows,
        listed("live", live, ""), rows,
        f"search {search} | {buffer_text(search, meaning)}",
        f"judge {answer_text(judgement, 0)} | {buffer_text(judgement, meaning)}"])
    return line, (f"search {search}", f"judge {judgement}")


KIND_WORDS = {(OPEN,): (), (OPEN_NIL,): ("nil",), KINDS: ("both",)}


def kind_words(meaning, a):
    """A word for the kinds of the trees that a type bears, where one is nil."""
    return KIND_WORDS[meaning.kinds_of(a)]


def rows_text(meaning):
    """The rows that have an entry: the number of each, and of each step that counts, in the order
    of the steps, its states, its type, the type's tag and the word for the kinds of its trees."""
    text = "rows"
    for a, block in enumerate(meaning.schema.blocks):
        live = meaning.live(a)
        counting = [(p, q, j) for p, j, q in block.steps if j in meaning.borne and q in live]
        for p in sorted({p for p, _, _ in counting}):
            row = [entry for from_, q, j in counting if from_ == p
                   for entry in (p, q, j, meaning.tag(j), *kind_words(meaning, j))]
            text += listed(f" row {a * MOST_STATES + p}", row, "")
    return text


def listed(name, entries, none):
    return name + ("".join(f" {entry}" for entry in entries) or none)


def value_answers(meaning, room):
    """The search's number and the judgement's."""
    if not has_room(room):
        return SHORT_WITNESS_ROOM, SHORT_WITNESS_ROOM
    if meaning is None:
        return OUTSIDE_LIMITS, OUTSIDE_LIMITS
    return COMPETITION if meaning.first_competition() else TAKEN, meaning.answer()[0]


def confirm_witness(meaning, numbers):
    """Is A J K n and the word's types a witness of this schema, of roots or of a shortest word?"""
    a, j, k, n, *w = numbers
    confirm_type_and_length(meaning, a, n)
    pairs = meaning.competing_roots() if a == NO_PARENT else meaning.pairs_after(a, tuple(w))
    if n != len(w) or (j, k) not in pairs:
        raise Wrong(f"they do not compete after the word: {numbers}")


def confirm_length(meaning, a, j, k, n):
    """Do J and K compete in A after some beginning of n types, or are they competing roots?"""
    confirm_type_and_length(meaning, a, n)
    compete = ((j, k) in meaning.competing_roots() if a == NO_PARENT
               else meaning.compete_after(a, j, k, n))
    if not compete:
        raise Wrong(f"{j} and {k} do not compete in {a} after {n} types")


def confirm_type_and_length(meaning, a, n):
    """Are they those of the schema: NO_PARENT and 0 where roots compete; else the smallest type in
    which two compete, and the length of the shortest beginnings after which two compete in it?"""
    smallest, _, _, shortest = meaning.first_competition()
    if (a, n) != (smallest, len(shortest)):
        raise Wrong(f"wrong type or length of a witness: {a}, {n}")
