"""Schemas with nillable types: by hand with their documents and with every witness that each may
get, without a tree, at the limits, and at random."""

from dataclasses import replace

from . import expressions, roots, samples, schemas, words
from .event_file import route
from .expressions import content
from .meaning import Meaning, TooMany
from .roots import any_of, no_tree, of_roots
from .schema_file import Block, Content, Schema, commands_of, leaf, once, read, write
from .tables import (CLOSE_BRACKET, LONGEST_FILE, MOST_ROOTS, MOST_TAGS, MOST_TYPES, NEXT_SEQUENCE,
                     NO_TREE, OPEN_BRACKET, OPEN_NIL, USE)

LAST_TAG = MOST_TAGS - 1


def nillable(block):
    return replace(block, nillable=True)


def only_nil(tag):
    """A type that bears a nil tree and no other."""
    return nillable(no_tree(tag))


def either(tag):
    """A type of elements without children that may be nil."""
    return nillable(leaf(tag))


def all_nillable(file):
    """The file's schema with every type nillable."""
    schema = read(file)
    return write(replace(schema, blocks=[nillable(block) for block in schema.blocks]))


# By hand, accepted.

# A child that is always nil; a root that is; elements that may be nil and need no child, or one.
ONLY_NIL = write(Schema(3, [any_of(0, 1), only_nil(1)]))
NIL_ROOT = write(Schema(2, [only_nil(0)]))
EITHER = write(Schema(2, [any_of(0, 1), either(1)]))
NEEDS_A_CHILD = write(Schema(3, [nillable(once(0, 1)), nillable(once(1, 2)), leaf(2)]))
# Document 01's samples with every type nillable; without that the last gets 8.
NILLABLE_R, NILLABLE_NESTED, NEEDS_ITSELF = map(all_nillable, (
    samples.R, samples.NESTED, samples.NO_TREE_AT_ROOT))
# Two types of one tag, told apart by the kind alone: children; the smaller one nil; children that
# are followed by others; roots; roots that stand below one of them too.
BY_KIND = write(Schema(2, [any_of(0, 1, 2), leaf(1), only_nil(1)]))
NIL_FIRST = write(Schema(3, [any_of(0, 1, 2), only_nil(1), once(1, 3), leaf(2)]))
NEXT_BY_KIND = write(Schema(3, [Block(0, 4, [3], [(0, 1, 1), (0, 2, 2), (1, 3, 3), (2, 4, 3)]),
                                leaf(1), only_nil(1), leaf(2), leaf(2)]))
ROOTS_BY_KIND = write(Schema(2, [once(0, 2), only_nil(0), leaf(1)], (1, 0)))
ROOTS_BELOW_BY_KIND = write(Schema(1, [any_of(0, 0, 1), only_nil(0)], (0, 1)))
# Types 0 and 1 bear a tree because type 2 is nillable.
BELOW_NIL = write(Schema(3, [once(0, 1), once(1, 2), only_nil(2)]))
# No word of type 1 ends, so that types 2 and 3 are not reached and do not compete.
NO_END = [any_of(0, 1), nillable(Block(1, 2, [], [(0, 2, 1), (0, 3, 1)])), either(2), either(2)]
# Racks of boots before a mark and after it, by states and by expressions: any rack may be nil, the
# mark always is.
RACKS = write(Schema(4, [
    Block(0, 2, [1], [(0, 1, 0), (0, 2, 1), (1, 3, 1)]),
    nillable(Block(1, 2, [1], [(0, 4, 1), (1, 4, 1)])), only_nil(2),
    nillable(Block(1, 2, [1], [(0, 5, 1), (1, 5, 1)])), leaf(3), leaf(3)]))
RACKS_BY_TEXT = expressions.schema(
    4, (0, "1* 2 3*"), nillable(content(1, "4 4*")), nillable(content(2, "6")),
    nillable(content(1, "5 5*")), (3, ""), (3, ""), (0, "6"))
# 64 types and 8 roots; the last type, of the last tag; the last state.
NILLABLE_EIGHT, NILLABLE_LAST_TYPE, NILLABLE_LAST_STATE = map(all_nillable, (
    roots.EIGHT, schemas.LAST_TYPE, schemas.LAST_STATE))

# Documents, with the types that they get.
ROUTES = [(file, route(written), types) for file, written, types in (
    (ONLY_NIL, "0 n1 /1 n1 /1 /0 f", [0, 1, 1]),
    (NIL_ROOT, "n0 /0 f", [0]),
    (EITHER, "0 1 /1 n1 /1 1 /1 /0 f", [0, 1, 1, 1]),
    (NEEDS_A_CHILD, "n0 /0 f", [0]),
    (NEEDS_A_CHILD, "0 n1 /1 /0 f", [0, 1]),
    (NEEDS_A_CHILD, "0 1 2 /2 /1 /0 f", [0, 1, 2]),
    (NILLABLE_R, "0 n1 /1 1 /1 n2 /2 n1 /1 1 /1 /0 f", [0, 1, 1, 2, 3, 3]),
    (NILLABLE_NESTED, "0 n0 /0 0 n0 /0 0 /0 /0 /0 f", [0] * 5),
    (NEEDS_ITSELF, "0 0 n0 /0 /0 /0 f", [0, 0, 0]),
    (NEEDS_ITSELF, "n0 /0 f", [0]),
    (BY_KIND, "0 1 /1 n1 /1 1 /1 /0 f", [0, 1, 2, 1]),
    (NIL_FIRST, "0 1 2 /2 /1 n1 /1 /0 f", [0, 2, 3, 1]),
    (NEXT_BY_KIND, "0 1 /1 2 /2 /0 f", [0, 1, 3]),
    (NEXT_BY_KIND, "0 n1 /1 2 /2 /0 f", [0, 2, 4]),
    (ROOTS_BY_KIND, "0 1 /1 /0 f", [0, 2]),
    (ROOTS_BY_KIND, "n0 /0 f", [1]),
    (ROOTS_BELOW_BY_KIND, "0 0 n0 /0 /0 n0 /0 0 /0 /0 f", [0, 0, 1, 1, 0]),
    (ROOTS_BELOW_BY_KIND, "n0 /0 f", [1]),
    (BELOW_NIL, "0 1 n2 /2 /1 /0 f", [0, 1, 2]),
    (write(Schema(3, NO_END)), "0 n1 /1 n1 /1 /0 f", [0, 1, 1]),
    (RACKS, "0 1 3 /3 3 /3 /1 n1 /1 n2 /2 n1 /1 1 3 /3 /1 /0 f", [0, 1, 4, 4, 1, 2, 3, 3, 5]),
    (RACKS_BY_TEXT, "0 n1 /1 1 3 /3 /1 n2 /2 1 3 /3 3 /3 /1 /0 f", [0, 1, 1, 4, 2, 3, 5, 5]),
    (NILLABLE_EIGHT, "31 n1 /1 7 /7 /31 f", [63, 49, 55]),
    (NILLABLE_EIGHT, "n24 /24 f", [56]),
    (NILLABLE_LAST_TYPE, "31 n31 /31 31 n31 /31 /31 n31 /31 /31 f", [63] * 5),
    (NILLABLE_LAST_TYPE, "n31 /31 f", [63]),
    (NILLABLE_LAST_STATE, "0 " + "n1 /1 " * 33 + "/0 f", [0] + [1] * 33))]
FILES = list(dict.fromkeys(file for file, *_ in ROUTES))


# By hand, with A J K n and w of every witness that each may get; none: accepted.

def below(*types):
    """A root with one child, of type 1 or 2; the types from 1 on are these."""
    return Schema(3, [once(0, 1, 2), *types])


def three_below(*types):
    """The same with a child of type 1, 2 or 3."""
    return Schema(2, [once(0, 1, 2, 3), *types])


def sixth(*types):
    """Document 01's sixth sample with these for the types from 1 on."""
    return replace(read(samples.SIXTH), blocks=[read(samples.SIXTH).blocks[0], *types])


def long_way(one, other):
    """The schema of a shortest word of 527 types with these for the two types that compete after
    it."""
    schema = read(words.long_way())
    tag = schema.blocks[-1].tag
    return write(replace(schema, blocks=[*schema.blocks[:-2], one(tag), other(tag)]))


# Two of each of four tags, a nil one and a plain one, in turn.
IN_PAIRS = [leaf(n // 2) if n % 2 else only_nil(n // 2) for n in range(MOST_ROOTS)]

BY_HAND = [
    # Of one tag, by the kinds that they share: nil alone, plain alone, both, none.
    (below(only_nil(1), only_nil(1)), ["0 1 2 0"]),
    (below(either(1), only_nil(1)), ["0 1 2 0"]),
    (below(only_nil(1), either(1)), ["0 1 2 0"]),
    (below(either(1), leaf(1)), ["0 1 2 0"]),
    (below(leaf(1), either(1)), ["0 1 2 0"]),
    (below(either(1), either(1)), ["0 1 2 0"]),
    (below(leaf(1), only_nil(1)), []),
    (below(only_nil(1), leaf(1)), []),
    (below(either(1), no_tree(1)), []),
    (below(only_nil(1), only_nil(2)), []),
    (below(either(1), either(2)), []),
    # Of three, each two that share a kind.
    (three_below(only_nil(1), leaf(1), either(1)), ["0 1 3 0", "0 2 3 0"]),
    (three_below(either(1), leaf(1), only_nil(1)), ["0 1 2 0", "0 1 3 0"]),
    (three_below(only_nil(1), leaf(1), only_nil(1)), ["0 1 3 0"]),
    (three_below(leaf(1), only_nil(1), leaf(1)), ["0 1 3 0"]),
    (three_below(leaf(1), only_nil(1), no_tree(1)), []),
    # A type bears a plain tree because another is nillable, or because it is; and with neither.
    (below(once(1, 3), leaf(1), only_nil(2)), ["0 1 2 0"]),
    (below(once(1, 3), leaf(1), no_tree(2)), []),
    (below(once(1, 3), only_nil(1), only_nil(2)), []),
    (below(nillable(once(1, 3)), only_nil(1), no_tree(2)), ["0 1 2 0"]),
    (below(nillable(once(1, 3)), leaf(1), no_tree(2)), []),
    (below(nillable(once(1, 1)), leaf(1)), ["0 1 2 0"]),
    (below(once(1, 1), only_nil(1)), []),
    # After a word of types that are nil alone; after one of two ways by types of one tag.
    (Schema(3, [Block(0, 3, [2], [(0, 1, 1), (1, 2, 2), (1, 3, 2)]), only_nil(1), leaf(2),
                leaf(2)]), ["0 2 3 1 1"]),
    (Schema(3, [Block(0, 4, [3], [(0, 1, 1), (0, 2, 2), (1, 1, 2), (2, 3, 3), (2, 4, 3)]),
                only_nil(1), leaf(1), only_nil(2), either(2)]), ["0 3 4 1 2"]),
    (Schema(3, [Block(0, 4, [3], [(0, 1, 1), (0, 2, 2), (1, 3, 3), (2, 4, 3)]),
                leaf(1), only_nil(1), either(2), either(2)]), []),
    # At once no two share a kind; after a child two do.
    (Schema(3, [Block(0, 3, [2], [(0, 1, 1), (0, 2, 2), (0, 3, 2), (1, 3, 2), (1, 4, 2)]),
                leaf(1), leaf(2), only_nil(2), either(2)]), ["0 3 4 1 1"]),
    # At once by one kind, after a child by the other.
    (Schema(3, [Block(0, 3, [2], [(0, 1, 1), (0, 2, 2), (0, 3, 2), (1, 4, 2), (1, 5, 2)]),
                leaf(1), only_nil(2), only_nil(2), leaf(2), leaf(2)]), ["0 2 3 0"]),
    # One leads to a dead state.
    (Schema(2, [Block(0, 3, [1], [(0, 1, 1), (0, 2, 2)]), only_nil(1), only_nil(1)]), []),
    # Document 01's fifth sample where d is nillable; its sixth with nil types.
    (Schema(4, [once(0, 1, 2), once(1, 3), once(1, 4), leaf(2), only_nil(3)]), ["0 1 2 0"]),
    (sixth(only_nil(1), only_nil(2), only_nil(2)), ["0 2 3 1 1"]),
    (sixth(only_nil(1), only_nil(2), leaf(2)), []),
    # In the smaller of two types, by either kind.
    (Schema(4, [any_of(0, 1, 2), once(1, 3, 4), once(2, 5, 6), only_nil(3), only_nil(3), leaf(3),
                leaf(3)]), ["1 3 4 0"]),
    (Schema(4, [any_of(0, 1, 2), once(1, 5, 6), once(2, 3, 4), only_nil(3), only_nil(3), leaf(3),
                leaf(3)]), ["1 5 6 0"]),
    (Schema(4, [any_of(0, 1, 2), once(1, 3, 5), once(2, 3, 4), only_nil(3), only_nil(3), leaf(3)]),
     ["2 3 4 0"]),
    # In a nillable type, in one of which no word ends, in one that is not reached.
    (Schema(3, [any_of(0, 1), nillable(once(1, 2, 3)), only_nil(2), either(2)]), ["1 2 3 0"]),
    (Schema(3, NO_END), []),
    (Schema(3, [any_of(0, 1), only_nil(1), once(1, 3, 4), either(2), either(2)]), []),
    # The last types; the last tag.
    (Schema(1, [once(0, MOST_TYPES - 2, MOST_TYPES - 1), *[leaf(0)] * (MOST_TYPES - 3),
                only_nil(0), only_nil(0)]), [f"0 {MOST_TYPES - 2} {MOST_TYPES - 1} 0"]),
    (Schema(MOST_TAGS, [once(0, 1, 2), only_nil(LAST_TAG), either(LAST_TAG)]), ["0 1 2 0"]),
    (Schema(MOST_TAGS, [once(0, 1, 2), leaf(LAST_TAG), only_nil(LAST_TAG)]), []),
    # Roots.
    (Schema(1, [only_nil(0), only_nil(0)], (0, 1)), of_roots(0, 1)),
    (Schema(1, [only_nil(0), either(0)], (1, 0)), of_roots(0, 1)),
    (Schema(1, [either(0), leaf(0)], (1, 0)), of_roots(0, 1)),
    (Schema(1, [either(0), either(0)], (0, 1)), of_roots(0, 1)),
    (Schema(1, [leaf(0), only_nil(0)], (0, 1)), []),
    (Schema(1, [only_nil(0), leaf(0)], (0, 1)), []),
    (Schema(1, [only_nil(0), leaf(0), no_tree(0)], (2, 1, 0)), []),
    (Schema(1, [only_nil(0), leaf(0), either(0)], (2, 1, 0)), of_roots(0, 2) + of_roots(1, 2)),
    (Schema(1, [only_nil(0), leaf(0), only_nil(0), leaf(0)], (3, 2, 1, 0)),
     of_roots(0, 2) + of_roots(1, 3)),
    (Schema(2, [only_nil(0), only_nil(1)], (0, 1)), []),
    (Schema(MOST_TAGS, [only_nil(LAST_TAG), either(LAST_TAG)], (0, 1)), of_roots(0, 1)),
    (Schema(MOST_TAGS, [leaf(LAST_TAG), only_nil(LAST_TAG)], (0, 1)), []),
    (Schema(4, IN_PAIRS, tuple(range(MOST_ROOTS))), []),
    (Schema(4, IN_PAIRS + [only_nil(3)], tuple(range(1, MOST_ROOTS + 1))), of_roots(6, 8)),
    # Roots come before types if they share a kind.
    (Schema(2, [once(0, 2, 3), only_nil(0), only_nil(1), only_nil(1)], (0, 1)), ["0 2 3 0"]),
    (Schema(2, [nillable(once(0, 2, 3)), only_nil(0), only_nil(1), only_nil(1)], (0, 1)),
     of_roots(0, 1)),
    # A root is nil alone, and its content has two that would compete.
    (Schema(2, [nillable(Block(0, 2, [], [(0, 1, 1), (0, 2, 1)])), either(1), either(1)]), []),
]
BY_HAND_EXPRESSIONS = [
    (expressions.schema(2, (0, "1 | 2"), nillable(content(1, "3")), nillable(content(1, "3")),
                        (0, "3")), ["0 1 2 0"]),
    (expressions.schema(2, (0, "(1 | 2)*"), nillable(content(1, "3")), (1, ""), (0, "3")), []),
    (expressions.schema(3, (0, "1 2 | 1 3"), only_nil(1), nillable(content(2, "")),
                        nillable(content(2, "4")), (0, "4")), ["0 2 3 1 1"]),
    (expressions.schema(2, (0, "2*"), nillable(content(0, "3")), (1, ""), (1, "3"), roots=(0, 1)),
     []),
    (expressions.schema(1, nillable(content(0, "0")), nillable(content(0, "")), roots=(0, 1)),
     of_roots(0, 1)),
]

# No root bears a tree, though other types do; with a NIL in the first type one does.
TREELESS = [
    Schema(1, [no_tree(0), either(0)]),
    Schema(2, [once(0, 2), only_nil(1), once(1, 2)]),
    Schema(2, [once(0, 1), no_tree(1), only_nil(1)], (1, 0)),
    Schema(2, [Block(0, 3, [2], [(0, 1, 1)]), either(1)]),
    Schema(1, [no_tree(0)] * MOST_ROOTS + [only_nil(0)], tuple(range(MOST_ROOTS))),
]


def longest_file():
    """The longest file without expressions: a NIL in each block of the longest of eight roots."""
    file = all_nillable(roots.longest_file())
    assert len(file) == LONGEST_FILE + 2 * (MOST_ROOTS - 1) + MOST_TYPES
    return file


# At random.

def with_nil(shape):
    """The shape with some nillable types; in half of the schemas a type has a twin."""
    def some(rng):
        schema, often = shape(rng), rng.choice((0.2, 0.5, 0.8))
        schema.blocks = [replace(block, nillable=rng.random() < often) for block in schema.blocks]
        if rng.random() < 0.5 and len(schema.blocks) < MOST_TYPES:
            add_twin(rng, schema)
        return schema
    return some


def add_twin(rng, schema):
    """A type that is nil alone, of the tag of another, which is mostly not nillable. It may stand
    where the other does, sometimes as a root too; it leads to the same states or to any."""
    j, k = rng.randrange(len(schema.blocks)), len(schema.blocks)
    anywhere = rng.random() < 0.4
    schema.blocks[j].nillable = rng.random() < 0.2
    schema.blocks = [with_type_beside(rng, block, j, k, anywhere) for block in schema.blocks]
    schema.blocks.append(only_nil(schema.blocks[j].tag))
    if j in schema.roots and len(schema.roots) < MOST_ROOTS and rng.random() < 0.7:
        schema.roots += (k,)


def with_type_beside(rng, block, j, k, anywhere):
    """The block with type k wherever type j stands."""
    if isinstance(block, Content):
        both = bytes([OPEN_BRACKET, USE, j, NEXT_SEQUENCE, USE, k, CLOSE_BRACKET])
        commands = [both if command == bytes([USE, j]) else command
                    for command in commands_of(block.text)]
        return replace(block, text=b"".join(commands))
    more = [(p, k, rng.randrange(block.states) if anywhere else q)
            for p, i, q in block.steps if i == j]
    return replace(block, steps=list(dict.fromkeys(block.steps + more)))


SMALL, LEVELS, DENSE, BY_TEXT = ([with_nil(shape) for shape in shapes] for shapes in (
    schemas.SMALL + roots.SMALL, schemas.LEVELS + roots.LEVELS, [schemas.dense] + roots.DENSE,
    expressions.SHAPES + tuple(roots.BY_TEXT)))
IN_ORDER = ((SMALL, True), (LEVELS, None), (DENSE, None), (LEVELS, True), (SMALL, None))


def random_schema(rng, number):
    """A random file, every fourth by expressions, and its answer; None where the listing would be
    too long."""
    if number % 4 == 0:
        return expressions.random_schema(rng, BY_TEXT)
    return schemas.random_schema(rng, SMALL + DENSE + LEVELS)


def is_wanted(judged):
    """May documents have nil elements? Where there are no documents, is some type nillable?"""
    nil = judged.meaning.borne_by[OPEN_NIL]
    return bool(nil if judged.number == NO_TREE else nil.keys() & judged.meaning.reached().keys())


def random_accepted(rng, number):
    """An accepted random schema file whose documents may have nil elements, its shape by its
    number, every sixth by expressions, and its answer."""
    while True:
        made = (expressions.random_schema(rng, BY_TEXT) if number % 6 == 5
                else schemas.random_accepted(rng, *IN_ORDER[number % len(IN_ORDER)]))
        if made and made[1].accepted and is_wanted(made[1]):
            return made


def told_apart(schema):
    """Does the kind alone tell two types of one tag apart, as roots or after some beginning?"""
    try:
        meaning = Meaning(schema)
        nexts = [meaning.bearing_roots()] + [meaning.next_types(a, w) for a in meaning.reached()
                                             for w in meaning.beginnings(a)]
    except TooMany:
        return False
    return any(meaning.tag(j) == meaning.tag(k) and not meaning.kinds_of(j, k)
               for types in nexts for j in types for k in types)
