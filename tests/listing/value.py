"""A schema and a reading as values, made up or not, by document 01's words on such values.

What a reading holds, where document 01 leaves it open: a fresh one has no level open, every type
0 and every set empty. An opening at depth d sets the type at index d, the set at index d to {0}, a
nil one to the empty set, the set at d - 1 to the states kept, the depth and `rooted`; a closing
lowers the depth; a finish sets `finished`; all else stays, entries of levels that are not open
included. 17 is not asked where the innermost type is nillable and its set is empty. 18 is answered
yes where `rooted` is set and no level is open. Beside a refused file stands the schema of no tag,
no type and no root, and every entry that no file stated is 0. An entry put past the end of a table
changes nothing. A type is nillable where its entry is not 0.
"""

from functools import cached_property

from .meaning import Meaning
from .schema_file import Block, Schema
from .tables import (CALL_QUESTIONS, CLOSE, KINDS, MOST_LEVELS, MOST_ROOTS, MOST_STATES,
                     MOST_STEPS, MOST_TAGS, MOST_TYPES, OPEN, OPEN_NIL, READING_FIELDS,
                     SCHEMA_FIELDS)

NONE, START = 0, 1      # the set of no states, and that of only state 0


def blank(fields):
    """Every entry of these fields 0."""
    return {name: [0] * field.entries if field.entries else 0 for name, field in fields.items()}


def as_set(states):
    """The states as a number, state q as 2 to the q."""
    return sum(1 << q for q in states)


def states_of(number):
    return [q for q in range(MOST_STATES) if number >> q & 1]


class SchemaValue:
    """A schema as held."""

    def __init__(self, held):
        self.held = held

    @classmethod
    def of(cls, schema, meaning=None):
        """The value that states the schema; its meaning may be known."""
        value = cls(blank(SCHEMA_FIELDS))
        if meaning:
            value.meaning = meaning
        for field, index, number in entries_of(schema):
            value.set(field, index, number)
        return value

    def set(self, field, index, number):
        """Sets an entry; one past the end of its table changes nothing. A first root set in a
        value of no root is its one root, as in the program `cases`."""
        entries = SCHEMA_FIELDS[field].entries
        if not entries:
            self.held[field] = number
        elif index < entries:
            self.held[field][index] = number
            if (field, index) == ("root", 0):
                self.held["roots"] = self.held["roots"] or 1

    def get(self, field, index=0):
        held = self.held[field]
        return held[index] if SCHEMA_FIELDS[field].entries else held

    def with_entry(self, field, index, number):
        """The value with one entry put."""
        held = dict(self.held)
        if SCHEMA_FIELDS[field].entries:
            held[field] = list(held[field])
        value = SchemaValue(held)
        value.set(field, index, number)
        return value

    @cached_property
    def meaning(self):
        """What the schema held means, or None where it is outside the limits."""
        schema = self.stated()
        return None if schema is None else Meaning(schema)

    def stated(self):
        """The schema held, or None where it is outside the limits."""
        held, at = self.held, 0
        if not (1 <= held["tags"] <= MOST_TAGS and 1 <= held["types"] <= MOST_TYPES
                and 1 <= held["roots"] <= MOST_ROOTS
                and all(root < held["types"] for root in self.used_roots())):
            return None
        schema = Schema(held["tags"], [], tuple(self.used_roots()))
        for a in range(held["types"]):
            steps = self.steps_between(at, at + held["steps"][a])
            if steps is None or not self.is_inside(a, steps):
                return None
            schema.blocks.append(Block(held["tag"][a], held["states"][a],
                                       states_of(held["accepting"][a]), steps,
                                       bool(held["nillable"][a])))
            at += len(steps)
        return schema

    def used_roots(self):
        return self.held["root"][:self.held["roots"]]

    def steps_between(self, start, end):
        """These steps, or None if there are not so many."""
        held = self.held
        if end > MOST_STEPS:
            return None
        return list(zip(*(held[field][start:end] for field in ("from", "by", "to"))))

    def is_inside(self, a, steps):
        """Is all that is held of type a inside the limits?"""
        held, states = self.held, self.held["states"][a]
        return (held["tag"][a] < held["tags"] and 1 <= states <= MOST_STATES
                and held["accepting"][a] < 1 << states
                and all(p < states and j < held["types"] and q < states for p, j, q in steps))

    def kinds(self):
        """The kinds of openings that are tried: nil ones where some type is nillable."""
        return KINDS if any(self.held["nillable"]) else (OPEN,)

    def text(self):
        """The value of an accepted schema, or that of none."""
        held, types = self.held, range(self.held["types"])
        fields = ("tag", "states", "accepting", "steps")
        rows = [[held[field][a] for field in fields] + ["nil"] * bool(held["nillable"][a])
                for a in types]
        rows += self.steps_between(0, sum(held["steps"][a] for a in types))
        roots = self.used_roots() or held["root"][:1]
        parts = [f"tags {held['tags']} types {held['types']} root {' '.join(map(str, roots))}"]
        parts += [" ".join(map(str, row)) for row in rows]
        return "; ".join(parts) + "; rest 0"


def entries_of(schema):
    """The entries that state the schema: (field, index, number)."""
    yield "tags", 0, schema.tags
    yield "types", 0, len(schema.blocks)
    for n, root in enumerate(schema.roots):
        yield "root", n, root
    for a, block in enumerate(schema.blocks):
        yield "tag", a, block.tag
        yield "states", a, block.states
        yield "accepting", a, as_set(block.accepting)
        yield "steps", a, len(block.steps)
        if block.nillable:
            yield "nillable", a, 1
    for n, step in enumerate(step for block in schema.blocks for step in block.steps):
        yield from zip(("from", "by", "to"), (n, n, n), step)
    yield "roots", 0, len(schema.roots)


class Asked:
    """What answers the questions of a call."""

    def refusal(self, event, tag):
        """The number of the first question answered no, or None."""
        for number, asks in CALL_QUESTIONS[event]:
            if not getattr(self, asks)(tag):
                return number
        return None

    def may_open(self, tag):
        return self.may_open_by(OPEN, tag)

    def may_open_nil(self, tag):
        return self.may_open_by(OPEN_NIL, tag)


class ReadingValue(Asked):
    """A reading as held, with the schema handed over beside it."""

    def __init__(self, schema_value):
        self.schema_value, self.held = schema_value, blank(READING_FIELDS)

    @property
    def meaning(self):
        return self.schema_value.meaning

    def innermost(self):
        """The innermost level's type and set."""
        at = self.depth() - 1
        return self.held["level type"][at], self.held["level set"][at]

    def depth(self):
        return self.held["depth"]

    def open_types(self):
        return self.held["level type"][:self.depth()]

    def innermost_tag(self):
        """The tag of the innermost element's type as held, or None."""
        inside = 0 < self.depth() <= MOST_LEVELS and self.innermost()[0] < MOST_TYPES
        return self.schema_value.held["tag"][self.innermost()[0]] if inside else None

    # The questions.

    def is_inside(self, tag):
        held, meaning = self.held, self.meaning
        if meaning is None or held["depth"] > MOST_LEVELS:
            return False
        blocks = meaning.schema.blocks
        for a, states in zip(held["level type"][:held["depth"]], held["level set"]):
            if not (a < len(blocks) and states < 1 << blocks[a].states):
                return False
        return True

    def is_unfinished(self, tag):
        return not self.held["finished"]

    def knows_tag(self, tag):
        return tag < self.meaning.schema.tags

    def may_open_by(self, kind, tag):
        return self.opened(kind, tag) is not None

    def has_level(self, tag):
        return self.depth() < MOST_LEVELS

    def has_open(self, tag):
        return self.depth() > 0

    def is_innermost(self, tag):
        return self.innermost_tag() == tag

    def is_complete(self, tag):
        a, states = self.innermost()
        nil = self.meaning.is_nillable(a) and states == NONE
        return nil or any(states >> q & 1 for q in self.meaning.accepting[a])

    def is_whole(self, tag):
        return self.held["rooted"] and not self.depth()

    # What a call changes.

    def opened(self, kind, tag):
        """The smallest type that 13 looks for, which bears a tree of this kind, and the set of the
        live states that it leads to, or None."""
        meaning = self.meaning
        if not self.depth():
            roots = [] if self.held["rooted"] else meaning.bearing_roots(kind)
            return next(((root, ()) for root in roots if meaning.tag(root) == tag), None)
        a, states = self.innermost()
        ends = {}
        for p, j, q in meaning.schema.blocks[a].steps:
            if (states >> p & 1 and meaning.tag(j) == tag and j in meaning.borne_by[kind]
                    and q in meaning.live(a)):
                ends.setdefault(j, set()).add(q)
        return min(ends.items(), default=None, key=lambda found: found[0])

    def changes(self, event, tag):
        """The entries that a taken call sets."""
        depth = self.depth()
        if event in KINDS:
            j, kept = self.opened(event, tag)
            yield "depth", 0, depth + 1
            yield "rooted", 0, 1
            yield "level type", depth, j
            yield "level set", depth, START if event == OPEN else NONE
            if depth:
                yield "level set", depth - 1, as_set(kept)
        elif event == CLOSE:
            yield "depth", 0, depth - 1
        else:
            yield "finished", 0, 1

    def take(self, event, tag):
        """Sets what the call, which is taken, changes; gives an opening's type."""
        self.set(list(self.changes(event, tag)))
        return self.innermost()[0] if event in KINDS else None

    def set(self, entries):
        """Sets the entries; `changed` is what is held now and was not before, as text."""
        changed = []
        for name, index, number in entries:
            held, field = self.held, READING_FIELDS[name]
            if field.entries:
                held, name = held[name], index
            if held[name] != number:
                shown = f"{index}=" if field.entries else ""
                changed.append((bool(field.entries), index, field.byte,
                                f"{field.letter}{shown}{number}"))
                held[name] = number
        texts = ",".join(text for *_, text in sorted(changed))
        self.changed = f"({texts})" if changed else ""

    def put(self, field, index, number):
        """Puts an entry of the schema or of the reading."""
        if field in READING_FIELDS:
            past = index >= (READING_FIELDS[field].entries or 1)
            self.set([] if past else [(field, index, number)])
        else:
            self.schema_value = self.schema_value.with_entry(field, index, number)
            self.changed = ""
