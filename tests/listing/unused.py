"""Schemas with types that no valid document uses: by hand with the place of 24 and the file that
is written, over expressions with every set of types dropped, at the limits, and at random."""

import random
from dataclasses import replace
from itertools import chain, combinations

from . import damage, expressions, nil, roots, samples, schemas
from .expressions import content, text
from .judged import judge
from .meaning import TooMany
from .nil import nillable, only_nil
from .roots import any_of, no_tree
from .schema_file import Block, Content, Schema, leaf, once, write
from .tables import (LONGEST_FILE, MOST_ROOTS, MOST_STATES, MOST_STEPS, MOST_TAGS, MOST_TYPES,
                     MOST_USES)

# By hand: a file, the place of 24 (None: every type is used) and the file written.
BY_HAND = [(bytes.fromhex(file), place, bytes.fromhex(written or file))
           for file, place, written in (
    # Every type used: a leaf; a nil root; two roots; an expression; R.
    ("10 01 11 00 01 12 00 14 00 1F", None, ""),
    ("10 01 11 00 01 15 14 00 1F", None, ""),
    ("10 02 11 01 01 12 00 11 00 01 12 00 14 01 14 00 1F", None, ""),
    ("10 02 11 00 00 30 32 01 33 31 34 3F 15 11 01 00 3F 14 00 1F", None, ""),
    (samples.R.hex(), None, ""),
    # Dead states, a FINAL and steps by a used type among them, stay.
    ("10 02 11 00 04 12 00 12 03 13 00 01 00 13 00 01 02 13 02 01 02 13 03 01 00"
     "11 01 01 12 00 14 00 1F", None, ""),
    # A type that is not reached: last, in between, first.
    ("10 01 11 00 01 12 00 11 00 01 12 00 14 00 1F", 7, "10 01 11 00 01 12 00 14 00 1F"),
    ("10 02 11 00 01 12 00 13 00 02 00 11 01 02 13 00 02 01 12 01 11 01 01 12 00 14 00 1F", 11,
     "10 02 11 00 01 12 00 13 00 01 00 11 01 01 12 00 14 00 1F"),
    ("10 02 11 01 01 12 00 11 00 01 12 00 14 01 1F", 2, "10 02 11 00 01 12 00 14 00 1F"),
    # A type that bears no tree: a step by it goes, among steps that stay where they are.
    ("10 03 11 00 02 13 00 02 01 12 01 13 00 01 00 13 01 02 01 12 00 11 01 01 12 00 11 02 01 15"
     "14 00 1F", None, ""),
    ("10 03 11 00 02 13 00 02 01 12 01 13 00 01 00 13 01 02 01 12 00 11 01 01 12 00 11 02 01"
     "14 00 1F", 26, "10 03 11 00 02 12 01 13 00 01 00 12 00 11 01 01 12 00 14 00 1F"),
    # It needs itself; it is needed by another, which bears none either.
    ("10 02 11 00 01 12 00 13 00 01 00 11 01 02 12 01 13 00 01 01 14 00 1F", 11,
     "10 02 11 00 01 12 00 14 00 1F"),
    ("10 03 11 00 01 12 00 13 00 01 00 11 01 02 12 01 13 00 02 01 11 02 01 14 00 1F", 11,
     "10 03 11 00 01 12 00 14 00 1F"),
    # It bears one, but only beside a type that bears none; in a word that never ends.
    ("10 03 11 00 03 12 00 12 02 13 00 01 01 13 01 02 02 11 01 01 12 00 11 02 01 14 00 1F", 17,
     "10 03 11 00 03 12 00 12 02 14 00 1F"),
    ("10 02 11 00 02 12 00 13 00 01 01 11 01 01 12 00 14 00 1F", 11,
     "10 02 11 00 02 12 00 14 00 1F"),
    # Below a type that is not reached; two in a ring that nothing reaches.
    ("10 02 11 00 01 12 00 11 00 01 12 00 13 00 02 00 11 01 01 12 00 14 00 1F", 7,
     "10 02 11 00 01 12 00 14 00 1F"),
    ("10 01 11 00 01 12 00 13 00 01 00 11 00 01 12 00 13 00 00 00 11 00 01 12 00 14 02 1F", 2,
     "10 01 11 00 01 12 00 14 00 1F"),
    # Document 01's fifth sample.
    (samples.NO_D.hex(), 24, "10 04 11 00 02 12 01 13 00 01 01 11 01 02 12 01 13 00 02 01"
     "11 02 01 12 00 14 00 1F"),
    # Roots: one that bears no tree, first, between and last; kept ones renumbered, in their order.
    ("10 02 11 00 01 11 01 01 12 00 14 00 14 01 1F", 2, "10 02 11 01 01 12 00 14 00 1F"),
    ("10 03 11 00 01 12 00 11 00 01 11 02 01 12 00 11 01 01 12 00 14 03 14 01 14 00 14 02 1F", 7,
     "10 03 11 00 01 12 00 11 02 01 12 00 11 01 01 12 00 14 02 14 00 14 01 1F"),
    ("10 02 11 00 01 11 01 01 12 00 14 01 14 00 1F", 2, "10 02 11 01 01 12 00 14 00 1F"),
    ("10 02 11 00 01 11 01 01 12 00 11 00 01 14 00 14 02 14 01 1F", 2,
     "10 02 11 01 01 12 00 14 00 1F"),
    # NIL: a nillable type that is not reached; one that is used as nil alone, below which nothing
    # is used; a root that is; without the NIL the whole goes.
    ("10 02 11 00 01 12 00 11 01 01 15 14 00 1F", 7, "10 02 11 00 01 12 00 14 00 1F"),
    ("10 03 11 00 01 12 00 13 00 01 00 11 01 02 15 13 00 02 01 11 02 01 12 00 14 00 1F", 19,
     "10 03 11 00 01 12 00 13 00 01 00 11 01 02 15 14 00 1F"),
    ("10 03 11 00 02 13 00 01 01 15 13 00 02 00 11 01 01 12 00 11 02 01 12 00 14 00 1F", 14,
     "10 03 11 00 02 15 14 00 1F"),
    ("10 03 11 00 01 12 00 13 00 01 00 11 01 02 13 00 02 01 11 02 01 12 00 14 00 1F", 11,
     "10 03 11 00 01 12 00 14 00 1F"),
    # Expressions: one of a dropped type goes whole, NIL too; one of kept types is copied and its
    # uses are renumbered.
    ("10 02 11 00 01 12 00 11 01 00 30 32 00 33 31 34 3F 15 14 00 1F", 7,
     "10 02 11 00 01 12 00 14 00 1F"),
    ("10 03 11 02 00 3F 11 00 00 30 32 02 33 32 01 31 34 3F 15 11 01 00 3F 14 01 1F", 2,
     "10 03 11 00 00 30 32 01 33 32 00 31 34 3F 15 11 01 00 3F 14 00 1F"),
    # An expression that uses a dropped type is written by states; NIL stays behind it.
    ("10 03 11 00 00 30 32 01 33 32 02 31 34 3F 15 11 01 01 12 00 11 02 01 14 00 1F", 20,
     "10 03 11 00 03 12 00 12 01 12 02 13 00 01 01 13 01 01 01 13 02 01 01 15 11 01 01 12 00"
     "14 00 1F"),
    ("10 03 11 00 00 32 02 33 3F 11 01 01 12 00 11 02 01 14 00 14 01 1F", 14,
     "10 03 11 00 02 12 00 12 01 11 01 01 12 00 14 00 14 01 1F"),
    # Steps rise by from, then type, then to, in the new numbers: 3 | 1 | 3 | 2 with 2 dropped.
    ("10 03 11 00 00 32 03 33 32 01 33 32 03 33 32 02 3F 11 01 01 12 00 11 02 01 11 02 01 12 00"
     "14 00 1F", 22,
     "10 03 11 00 05 12 01 12 02 12 03 12 04 13 00 01 02 13 00 02 01 13 00 02 03 11 01 01 12 00"
     "11 02 01 12 00 14 00 1F"),
    # The first type dropped, and named by the second's expression, which uses itself.
    ("10 02 11 01 01 11 00 00 30 32 01 33 32 00 31 34 3F 14 01 1F", 2,
     "10 02 11 00 03 12 00 12 01 12 02 13 00 00 01 13 01 00 01 13 02 00 01 14 00 1F"),
    # Used as nil alone by an expression that has no word left: states, no step.
    ("10 02 11 00 00 32 01 3F 15 11 01 01 14 00 1F", 9, "10 02 11 00 02 12 01 15 14 00 1F"),
)]
# Competing: 24 at this place, 9 from the writer.
COMPETING = [(bytes.fromhex(file), place) for file, place in (
    ("10 02 11 00 02 12 01 13 00 01 01 13 00 02 01 11 01 01 12 00 11 01 01 12 00 11 00 01 14 00 1F",
     25),
    ("10 02 11 01 01 11 00 02 12 01 13 00 02 01 13 00 03 01 11 01 01 12 00 11 01 01 12 00 14 01 1F",
     2),
    ("10 01 11 00 01 12 00 11 00 01 12 00 11 00 01 14 00 14 01 1F", 12),
    ("10 01 11 00 01 15 11 00 01 11 00 01 15 14 02 14 01 14 00 1F", 6),
    ("10 02 11 00 00 32 01 33 32 02 33 32 03 3F 11 01 00 3F 11 01 00 3F 11 01 01 14 00 1F", 22),
)]
# No document: 8 comes before 24.
TREELESS = [write(schema) for schema in (
    Schema(1, [no_tree(0)]), Schema(2, [no_tree(0), leaf(1)]), Schema(2, [once(0, 1), no_tree(1)]),
    Schema(2, [no_tree(0), once(1, 0), only_nil(1)], (1, 0)))]


# Over expressions: types 1 to 3 dropped or not.

TEXTS = [
    "1", "1*", "1 2", "1 | 2", "1 2*", "1* 2", "1* 2*", "(1 2)*", "(1 | 2)*", "1 |", "| 1", "(1 |)",
    "(1 |)*", "()", "()* 1", "(() | 1)", "1 1", "1 1*", "1 2 1", "(1 1)* 2", "1 2 3", "1 | 2 | 3",
    "3 2 1", "3 | 2 | 1", "1 (2 | 3)", "(1 | 2) 3", "1* 2 3*", "(1* 2)* 3", "(1 (2 3)*)*",
    "((1 | 2)* 3 | 1)*", "(1 | (2 | (3 |)))", "(((1)*)* | ((2) 3)*)*", "1 (2 |) 3",
    "(1 |) (2 |) (3 |)", "1 2 | 1 3", "2 1 | 3 1", "1* (2 | 3*)* 1", "(1 2 | 2 1)* 3", "2 3 | 1",
    "(2 | 3)* 1 (2 | 3)*",
]
NAMED = (1, 2, 3)


def over(written, dropped, nil_first, above):
    """Type 0 with this content, nillable or not; types 1 to 3, those dropped without a tree; and
    the root, type 4, with these in its words."""
    first = nillable(content(0, written)) if nil_first else content(0, written)
    return write(Schema(5, [first, *(no_tree(a) if a in dropped else leaf(a) for a in NAMED),
                            any_of(4, *above)], (4,)))


def over_texts():
    """Each text with every set of types dropped; type 0 nillable or not; the types used by the root
    too or by type 0 alone."""
    for written in TEXTS:
        for dropped in chain.from_iterable(combinations(NAMED, n) for n in range(4)):
            for nil_first in (False, True):
                for above in ((0, *NAMED), (0,)):
                    yield over(written, dropped, nil_first, above)


# At the limits.

def full_longest():
    """The longest accepted file: 64 types of 32 accepting states, every one used, 1,024 steps, in
    the words of a type one type of each tag."""
    states, half = range(MOST_STATES), MOST_STEPS // 2
    blocks = [Block(a % MOST_TAGS, MOST_STATES, list(states)) for a in range(MOST_TYPES)]
    every = [(p, q) for p in states for q in states][:half]
    for a, first in ((0, MOST_TAGS), (MOST_TAGS, 0)):
        blocks[a].steps = [(p, first + (p + q) % MOST_TAGS, q) for p, q in every]
    return schemas.longest(blocks)


def chain_longest():
    """Another: one tag, one step from each state of 32 types, each by the next type or the one
    after it, so that nothing competes."""
    blocks = [Block(0, MOST_STATES, list(range(MOST_STATES))) for _ in range(MOST_TYPES)]
    for a in range(MOST_TYPES // 2):
        by = 2 * a + 1
        blocks[a].steps = [(p, min(by + p % 2, MOST_TYPES - 1), (p + 1) % MOST_STATES)
                           for p in range(MOST_STATES)]
    return write(Schema(1, blocks))


LONGEST = (full_longest(), chain_longest(), schemas.spread_longest())
assert all(len(file) == LONGEST_FILE for file in LONGEST)


def with_dropped(dropped, bare):
    """64 types of which these are dropped, without a tree (`bare`) or not reached. Each other one
    but the first stands in the words of the first that is reached and has none of its tag. Some of
    those without a tree are roots too, before and after the one kept, and stand in its words."""
    root, *others = (a for a in range(MOST_TYPES) if a not in dropped)
    blocks = [Block(a % (MOST_TAGS - 1), 2, [] if a in dropped and bare else [0, 1],
                    [(0, a, 1)] if a in dropped else []) for a in range(MOST_TYPES)]
    blocks[root].tag, reached = MOST_TAGS - 1, [root]
    for j in others:
        above = next(a for a in reached if blocks[j].tag not in
                     {blocks[k].tag for _, k, _ in blocks[a].steps})
        blocks[above].steps.append((0, j, 0))
        reached.append(j)
    some = sorted(dropped)[:MOST_ROOTS - 1] if bare else []
    blocks[root].steps += [(0, j, 1) for j in some[:3]]
    return write(Schema(MOST_TAGS, blocks, (*some[:4], root, *some[4:])))


def at_limits():
    """64 types, of which the first, the last, every second, all but one are dropped; 1,024 steps;
    8 roots; expressions of 31 uses."""
    every = range(MOST_TYPES)
    for dropped in ({0}, {MOST_TYPES - 1}, set(every[::2]), set(every[1::2]), set(every[:-1]),
                    set(every[1:]), {31, 32}, set(every[:32]), set(every[32:])):
        for bare in (False, True):
            yield with_dropped(dropped, bare)
    yield from (write(schemas.full_steps()), write(schemas.full_steps(MOST_STEPS - 1, 2)),
                schemas.dense_longest(last=True), schemas.dense_longest(last=False),
                schemas.LAST_TYPE, nil.NILLABLE_LAST_TYPE, roots.EIGHT, roots.longest_file(),
                nil.longest_file(), nil.NILLABLE_EIGHT, *LONGEST, *map(nil.all_nillable, LONGEST))
    yield from large_texts()


def large_texts():
    """31 uses, repeated in one choice, so 992 steps: one use dropped, the first, one in between or
    the last, half of them, all; in a sequence; and all used, but a type before them is not."""
    uses = range(1, MOST_USES + 1)
    for written in (expressions.any_words(MOST_USES), expressions.each(MOST_USES, "{} ")):
        for dropped in ((1,), (16,), (MOST_USES,), uses[::2], uses[1::2], uses, ()):
            for made in (content(0, written), nillable(content(0, written))):
                yield write(Schema(MOST_TAGS, [
                    made, *(no_tree(a) if a in dropped else leaf(a) for a in uses),
                    *([] if dropped else [no_tree(0)])], (0, *(a for a in uses if a % 9 == 5))))
    # 32 more steps to the limit; with the first use dropped.
    data = text(expressions.any_words(MOST_USES))
    more = Block(0, MOST_STATES, [0], [(p, 0, p) for p in range(MOST_STATES)])
    yield write(Schema(MOST_TAGS, [Content(0, data), no_tree(1), *(leaf(a) for a in uses[1:]),
                                   more], (0,)))
    yield write(Schema(MOST_TAGS, [Content(0, data), no_tree(1), *(leaf(a) for a in uses[1:]),
                                   replace(more, tag=1)], (0, MOST_TAGS)))
    # Long expressions that become short, and the reverse.
    for part in ("()", "|", "()*"):
        yield expressions.schema(3, (0, part * 200 + " 1 | 2"), (1, ""), no_tree(2))


# At random.

def with_dead_wood(shape):
    """The shape with some types that no document uses: without a tree, not reached, below such
    ones; mostly put where other types stand, and the types numbered anew."""
    def some(rng):
        schema = shape(rng)
        for _ in range(rng.choice((0, 1, 1, 2, 3))):
            if len(schema.blocks) < MOST_TYPES:
                add_dead(rng, schema)
        if rng.random() < 0.3:
            kill(rng, schema)
        return shuffled(rng, schema)
    return some


def add_dead(rng, schema):
    """A type more, mostly without a tree, or a twin of another that nothing reaches."""
    count, a = len(schema.blocks), rng.randrange(len(schema.blocks))
    tag, way = rng.randrange(schema.tags), rng.random()
    if way < 0.5:
        new = Block(tag, 1, [], [(0, rng.randrange(count), 0)] if rng.random() < 0.5 else [])
    elif way < 0.7:
        new = once(tag, count)
    else:
        new = replace(schema.blocks[a], tag=tag)
    schema.blocks = [beside(rng, block, a, count) if way < 0.7 else block
                     for block in schema.blocks] + [new]
    if way < 0.7 and len(schema.roots) < MOST_ROOTS and rng.random() < 0.3:
        at = rng.randrange(len(schema.roots) + 1)
        schema.roots = schema.roots[:at] + (count,) + schema.roots[at:]


def beside(rng, block, j, k):
    return nil.with_type_beside(rng, block, j, k, rng.random() < 0.5)


def kill(rng, schema):
    """A type without an accepting state; of an expression, one that needs itself."""
    a = rng.randrange(len(schema.blocks))
    block = schema.blocks[a]
    if isinstance(block, Content):
        schema.blocks[a] = replace(block, text=block.text + text(f"{a}"))
    else:
        schema.blocks[a] = replace(block, accepting=[])


def shuffled(rng, schema):
    """The same schema with other numbers for the types, in half of the cases."""
    if rng.random() < 0.5:
        return schema
    number = rng.sample(range(len(schema.blocks)), len(schema.blocks))
    blocks = [None] * len(number)
    for a, block in enumerate(schema.blocks):
        blocks[number[a]] = renamed(block, number)
    return Schema(schema.tags, blocks, tuple(number[root] for root in schema.roots))


def renamed(block, number):
    if isinstance(block, Content):
        commands = ((command, *(number[j] for j in operands))
                    for command, operands in expressions.split(block.text))
        return replace(block, text=b"".join(map(bytes, commands)))
    return replace(block, steps=[(p, number[j], q) for p, j, q in block.steps])


BY_STATES = [with_dead_wood(shape) for shape in schemas.SMALL + schemas.LEVELS + roots.SMALL
             + nil.SMALL + nil.LEVELS]
BY_TEXT = [with_dead_wood(shape) for shape in [*expressions.SHAPES, *roots.BY_TEXT, *nil.BY_TEXT]]


def random_schema(rng):
    """A random file, half by expressions, and its answer as a stored one; None where the listing
    would be too long."""
    schema = rng.choice(BY_TEXT if rng.random() < 0.5 else BY_STATES)(rng)
    try:
        if rng.random() < 0.5 and not any(isinstance(block, Content) for block in schema.blocks):
            schemas.without_competition(rng, schema)
        file = schemas.random_order(rng, schema)
        return file, judge(file)
    except TooMany:
        return None


def damaged_files(seed, count):
    """So many random files with something wrong, or nothing, each after how many are still to come."""
    rng = random.Random(seed)
    while count:
        made = random_schema(rng)
        file = damage.damaged_file(rng, made[0]) if made else None
        if file is not None and schemas.is_listed(file):
            count -= 1
            yield count, file
