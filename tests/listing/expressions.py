"""Expressions: written out, of known words at the limits, and at random; and schemas of them."""

from . import samples
from .expression import begins_expression, enter_known, parsed
from .judged import judge
from .meaning import TooMany
from .schema_file import Block, Content, Schema, commands_of, leaf, write
from .schemas import random_steps, some_states
from .tables import (CLOSE_BRACKET, MOST_TAGS, MOST_USES, NEXT_SEQUENCE, OPEN_BRACKET, REPEAT,
                     USE)

LEAVES = range(1, MOST_TAGS)        # the tags, and the types, of 31 leaves
SIGNS = {"(": OPEN_BRACKET, ")": CLOSE_BRACKET, "|": NEXT_SEQUENCE, "*": REPEAT}


def text(written):
    """The bytes of an expression: types in decimal, brackets, | between sequences, * after what is
    repeated."""
    for sign in SIGNS:
        written = written.replace(sign, f" {sign} ")
    parts = ([SIGNS[word]] if word in SIGNS else [USE, int(word)] for word in written.split())
    return b"".join(map(bytes, parts))


def content(tag, written):
    return Content(tag, text(written))


def schema(tags, *blocks, roots=(0,)):
    """The file of a schema; a block may be (tag, expression)."""
    return write(Schema(tags, [content(*block) if isinstance(block, tuple) else block
                               for block in blocks], roots))


def over_leaves(written, *tags):
    """Type 0 with this content, of tag 0; from type 1 on leaves of these tags, also by
    expressions."""
    return schema(1 + max(tags, default=0), (0, written), *((tag, "") for tag in tags))


def leaves_below(*texts):
    """Types 0, 32, 33 .. by these texts, and 31 leaves, each of its own tag."""
    first, *more = (Content(0, data) for data in texts)
    return write(Schema(MOST_TAGS, [first, *(leaf(a) for a in LEAVES), *more]))


def schema_of(data):
    """A file of this text, of type 0, and of a leaf."""
    return write(Schema(2, [Content(0, data), content(1, "")]))


def split(data):
    """The commands of an expression's bytes, each (command, operands)."""
    return tuple((command[0], tuple(command[1:])) for command in commands_of(data))


# Document 01's samples written as expressions.

R = schema(3, (0, "1* 2 3*"), (1, ""), (2, ""), (1, ""))
TWO_B = schema(4, (0, "1 | 2"), (1, "3"), (1, "4"), (2, ""), (3, ""))
NO_D = schema(4, (0, "1 | 2"), (1, "3"), (1, "4"), (2, ""), Block(3, 1))
SIXTH = over_leaves("1 2 | 1 3", 1, 2, 2)
TWO_A = over_leaves("1 (2 | 3)", 1, 1, 2)
LAST_BUT_ONE = over_leaves("(1 | 2)* 1 (1 | 2)", 1, 2)
EXAMPLE_8_20 = over_leaves("(1 |) 2 (2 | 3)* 4 3", 1, 2, 3, 1)
NO_TREE_AT_ROOT = schema(1, (0, "0"))
NESTED = schema(1, (0, "0*"))
SAMPLES = {samples.R: R, samples.TWO_B: TWO_B, samples.NO_D: NO_D, samples.SIXTH: SIXTH,
           samples.TWO_A: TWO_A, samples.LAST_BUT_ONE: LAST_BUT_ONE,
           samples.EXAMPLE_8_20: EXAMPLE_8_20, samples.NO_TREE_AT_ROOT: NO_TREE_AT_ROOT,
           samples.NESTED: NESTED}

# By hand: a wall of racks; types in turn down the levels; parts that bear no tree; states and
# expressions in one file.
BOOT_WALL = schema(4, (0, "1*"), (1, "2* 3 4*"), (2, ""), (3, ""), (2, ""))
IN_TURN = schema(3, (0, "1*"), (1, "0*"))
THREE_TYPES = schema(2, *((0, f"({(a + 1) % 3} | 3 |) 3*") for a in range(3)), (1, ""))
NO_TREE_BELOW = schema(2, (0, "1 | 2 | 2 1"), (1, "1"), (1, ""))
MIXED = schema(3, (0, "(1 2)* 1"), Block(1, 2, [1], [(0, 3, 1), (1, 3, 1)]), leaf(2), (2, "0 |"))
# With a valid document each, as words of `event_file.route`.
ROUTES = (
    (R, "0 1 /1 2 /2 1 /1 /0 f"),
    (LAST_BUT_ONE, "0 1 /1 2 /2 1 /1 1 /1 1 /1 2 /2 /0 f"),
    (EXAMPLE_8_20, "0 1 /1 2 /2 3 /3 2 /2 1 /1 3 /3 /0 f"),
    (BOOT_WALL, "0 1 2 /2 2 /2 3 /3 2 /2 /1 1 3 /3 2 /2 /1 1 2 /2 3 /3 /1 /0 f"),
    (IN_TURN, "0 1 0 1 /1 1 /1 /0 /1 1 /1 /0 f"),
    (THREE_TYPES, "0 0 1 /1 /0 1 /1 1 /1 /0 f"),
    (NO_TREE_BELOW, "0 1 /1 /0 f"),
    (MIXED, "0 1 2 /2 2 0 1 2 /2 /1 /0 /2 /1 2 /2 1 2 /2 /1 /0 f"),
)
# Refused with 9: the leaves' tags, the content of type 0, in which two compete, and n of the
# witness.
COMPETING = (
    ((1, 1), "1 | 2", 0),
    ((1, 1), "1 2 | 2 1", 0),
    ((1, 1), "1* 2", 0),
    ((1, 1), "1 (1 | 2)", 1),
    ((1, 1, 2), "3* (1 | 2)", 0),
    ((1, 1, 2), "3 3 3 (1 | 2)", 3),
    ((1, 1, 2), "3 1 | 3 2", 1),
    ((1, 1, 2), "(3 |) (3 |) 3 1 | 3 3 3 3 3 2 | 3 3 3 2", 3),
    ((1, 1, 2), "(3 3)* 3 1 | (3 3 3)* 2", 3),
    ((1, 1, 2), "(3 3 3 3)* 3 3 1 | (3 3 3)* 3 2", 10),
    ((1, 1, 2), f"({'3 ' * 13})* 1 | 3 ({'3 ' * 15})* 2", 91),
    ((1, 1, 2), "(1 3 | 3 (1 |) 2)*", 1),
)
# Not refused, though two types of one tag are named.
NOT_COMPETING = (
    ((1, 1), "1 2"), ((1, 1), "1* |"), ((1, 1), "(1 2)*"), ((1, 1, 2), "1* 3 2*"),
    ((1, 1, 2), "(1 3 2 3)*"), ((1, 1, 2), "3 1 | 1"), ((1, 1, 2), "(3 3)* 1 | 3 (3 3 3 3)* 2 3"),
)


# Of known words, with so many uses, the use q of type q. Uses are numbered from 1 on. Where there
# are few uses the automaton is held to the listing.

def each(uses, form):
    return "".join(form.format(q) for q in range(1, uses + 1))


def any_words(uses):
    """(1 | 2 | ..)*: each use may follow each, itself too, begin and end."""
    return "(" + each(uses, "{} | ")[:-3] + ")*"


def known(written, accepting, steps):
    """A text of a known automaton, the steps as (from use, to use)."""
    made = text(written)
    enter_known(split(made), accepting, [(p, q, q) for p, q in steps])
    return made


def all_after_all(uses):
    """(1* 2* ..)*: each use alone is a word of what is repeated, so every list of uses is one."""
    ends = range(uses + 1)
    return known(f"({each(uses, '{}* ')})*", ends, [(p, q) for p in ends for q in ends if q])


def never_falling(uses):
    """1* 2* ..: the words are the lists of uses in which no use comes after a higher one."""
    ends = range(uses + 1)
    return known(each(uses, "{}* "), ends, [(p, q) for p in ends for q in ends if q and p <= q])


def rising(uses):
    """(1 |) (2 |) ..: the words are the lists of uses in which each is higher than the one before
    it."""
    ends = range(uses + 1)
    return known(each(uses, "({} |) "), ends, [(p, q) for p in ends for q in ends if p < q])


def one_of_each_pair(pairs):
    """(1 | 2) (3 | 4) ..: a word takes one use of each pair, in order."""
    def at(n):
        return (2 * n - 1, 2 * n) if n else (0,)
    written = "".join("({} | {}) ".format(*at(n)) for n in range(1, pairs + 1))
    return known(written, at(pairs), [(p, q) for n in range(pairs) for p in at(n)
                                      for q in at(n + 1)])


def nested_rows(depth):
    """((1 2)* 3 4)* .. so many brackets deep: a word of n brackets is any number of times a word of
    n - 1 brackets followed by the two uses of its own."""
    written = ""
    for n in range(depth):
        written = f"({written} {2 * n + 1} {2 * n + 2})*"
    return text(written)


FAMILIES = (all_after_all, never_falling, rising)
SIZES = (1, 2, 3, 4, MOST_USES - 1, MOST_USES)
KNOWN_TEXTS = [family(uses) for family in FAMILIES for uses in SIZES]
KNOWN_TEXTS += [one_of_each_pair(pairs) for pairs in (1, 2, 3, MOST_USES // 2)]


# Every text up to some length, and at random.

def every_text(length, types=(1,)):
    """Every list of so many commands but the end, right or not, the types in turn."""
    if length == 0:
        yield b""
        return
    for start in every_text(length - 1, types):
        for sign in SIGNS.values():
            yield start + bytes([sign])
        yield start + bytes([USE, types[len(start) % len(types)]])


def is_text(data):
    """Is it the whole text of an expression?"""
    return parsed(split(data)) is not None


def may_begin(data):
    return begins_expression(split(data))


def random_text(rng, types, uses, depth=3):
    """A random expression of at most so many uses."""
    out, left = [], [uses]

    def choice(depth):
        for n in range(rng.choice((1, 1, 1, 2, 2, 3))):
            if n:
                out.append(NEXT_SEQUENCE)
            for _ in range(rng.choice((0, 1, 1, 2, 2, 3))):
                factor(depth)

    def factor(depth):
        if depth and rng.random() < 0.35:
            out.append(OPEN_BRACKET)
            choice(depth - 1)
            out.append(CLOSE_BRACKET)
        elif left[0]:
            left[0] -= 1
            out.extend((USE, rng.choice(types)))
        else:
            return
        if rng.random() < 0.3:
            out.append(REPEAT)

    choice(depth)
    return bytes(out)


def any_blocks(rng):
    """Types by expressions, by states and leaves, all as they come."""
    tags, count = rng.randint(1, 4), rng.randint(1, 5)
    blocks = []
    for a in range(count):
        tag, shape = rng.randrange(tags), rng.random()
        if a == 0 or shape < 0.5:
            blocks.append(Content(tag, random_text(rng, range(count), rng.randint(1, 6))))
        elif shape < 0.65:
            states = rng.randint(1, 3)
            steps = random_steps(rng, states, range(count), rng.randint(0, 4))
            blocks.append(Block(tag, states, some_states(rng, states, 0.5), steps))
        else:
            blocks.append(Content(tag, b"") if rng.random() < 0.5 else leaf(tag))
    return Schema(tags, blocks, (rng.randrange(count) if rng.random() < 0.2 else 0,))


def marked(rng):
    """R's form: types before a mark and after it that share tags; below them leaves, or more of
    the same."""
    before, after = rng.randint(1, 3), rng.randint(1, 3)
    tags, mark = rng.randint(2, 4), 1
    first, second = range(2, 2 + before), range(2 + before, 2 + before + after)
    root = random_text(rng, first, 4, 2) + bytes([USE, mark]) + random_text(rng, second, 4, 2)
    if NEXT_SEQUENCE in root:
        root = b"".join(bytes([OPEN_BRACKET]) + random_text(rng, part, 4, 2)
                        + bytes([CLOSE_BRACKET]) + more
                        for part, more in ((first, bytes([USE, mark])), (second, b"")))
    blocks = [Content(0, root), Content(rng.randrange(tags), b"")]
    for _ in range(before + after):
        below = random_text(rng, range(2 + before + after), 2, 1) if rng.random() < 0.3 else b""
        blocks.append(Content(rng.randrange(tags), below))
    return Schema(tags, blocks)


def one_type_a_tag(rng):
    """Larger expressions over types of tags of their own, so that none compete."""
    count = rng.randint(2, 5)
    blocks = [Content(a, random_text(rng, range(count), rng.randint(2, 9)) if a < 2 else b"")
              for a in range(count)]
    return Schema(count, blocks)


def competing_ends(rng):
    """Words of a few lengths by types of their own tags, each followed by one of two types of one
    tag."""
    parts = []
    for _ in range(rng.randint(2, 3)):
        parts.append(random_text(rng, (3, 4), rng.randint(1, 4), 1).replace(
            bytes([NEXT_SEQUENCE]), b"") + bytes([USE, rng.randint(1, 2)]))
    root = bytes([NEXT_SEQUENCE]).join(parts)
    if rng.random() < 0.3:
        root = bytes([OPEN_BRACKET]) + root + bytes([CLOSE_BRACKET, REPEAT])
    return Schema(4, [Content(0, root), *(Content(tag, b"") for tag in (1, 1, 2, 3))])


SHAPES = (any_blocks, any_blocks, marked, marked, one_type_a_tag, competing_ends)


def random_schema(rng, shapes=SHAPES):
    """A random file with expressions and its answer; None where the listing would be too long."""
    file = write(rng.choice(shapes)(rng))
    try:
        return file, judge(file)
    except TooMany:
        return None


def by_states(file):
    """The same schema written by states."""
    return write(judge(file).meaning.schema)
