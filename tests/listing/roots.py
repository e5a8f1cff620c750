"""Schemas of several roots: by hand with their documents and with every witness that each may get,
at the limits, and at random."""

from itertools import combinations

from . import expressions, schemas
from .event_file import route
from .schema_file import Block, Schema, end_of_file, leaf, once, without_end, write
from .tables import LONGEST_FILE, MOST_ROOTS, MOST_TAGS, MOST_TYPES, NO_PARENT


def any_of(tag, *types):
    """A type whose elements have children of these types, in any number and order."""
    return Block(tag, 1, [0], [(0, j, 0) for j in types])


def no_tree(tag):
    """A type that bears none."""
    return Block(tag, 1)


# By hand, accepted.

# A price list has boots of type 2; a stock list has boots for hire, the mark, boots for sale.
LISTS = [any_of(0, 2), Block(1, 2, [1], [(0, 3, 0), (0, 4, 1), (1, 5, 1)]),
         leaf(2), leaf(2), leaf(3), leaf(2)]
PRICES_AND_STOCK = write(Schema(4, LISTS, (0, 1)))
STOCK_AND_PRICES = write(Schema(4, LISTS, (1, 0)))
BY_EXPRESSIONS = expressions.schema(
    4, (0, "2*"), (1, "3* 4 5*"), (2, ""), (2, ""), (3, ""), (2, ""), roots=(1, 0))
# Roots that stand below another too; two that nest in each other, and a third tag of no type.
ALSO_BELOW = write(Schema(3, [any_of(0, 1), any_of(1, 2), leaf(2)], (2, 0, 1)))
IN_TURN = write(Schema(3, [any_of(0, 1), any_of(1, 0)], (1, 0)))
# Below a root its tag and another root's have other types.
OTHER_TYPES_BELOW = write(Schema(2, [any_of(0, 2, 3), any_of(1, 2), leaf(0), leaf(1)], (1, 0)))
# Of the roots of tag 0 one bears a tree: the largest; the one between.
ONE_OF_TAG_0 = write(Schema(2, [once(0, 0), no_tree(0), any_of(0, 3), leaf(1)], (0, 2, 1)))
ONE_BETWEEN = write(Schema(2, [no_tree(0), any_of(0, 3, 4), Block(0, 2, [1], [(0, 0, 1)]), leaf(1),
                               no_tree(1)], (2, 1, 3, 0)))
# The only root of tag 0 bears none.
NONE_OF_TAG_0 = write(Schema(2, [no_tree(0), any_of(1, 2), leaf(0)], (0, 1)))
# 64 types and 8 roots, the last types, each over seven leaves of its own.
FIRST = MOST_TYPES - MOST_ROOTS
EIGHT = write(Schema(
    MOST_TAGS, [leaf(a % (MOST_TAGS - MOST_ROOTS)) for a in range(FIRST)]
    + [any_of(MOST_TAGS - MOST_ROOTS + n, *range(7 * n, 7 * n + 7)) for n in range(MOST_ROOTS)],
    tuple(reversed(range(FIRST, MOST_TYPES)))))

# Documents, with the types that they get.
ROUTES = [(file, route(words), types) for file, words, types in (
    (PRICES_AND_STOCK, "0 2 /2 2 /2 /0 f", [0, 2, 2]),
    (PRICES_AND_STOCK, "1 2 /2 3 /3 2 /2 /1 f", [1, 3, 4, 5]),
    (STOCK_AND_PRICES, "0 2 /2 /0 f", [0, 2]),
    (STOCK_AND_PRICES, "1 3 /3 2 /2 /1 f", [1, 4, 5]),
    (BY_EXPRESSIONS, "0 2 /2 2 /2 /0 f", [0, 2, 2]),
    (BY_EXPRESSIONS, "1 2 /2 2 /2 3 /3 /1 f", [1, 3, 3, 4]),
    (ALSO_BELOW, "0 1 2 /2 /1 1 /1 /0 f", [0, 1, 2, 1]),
    (ALSO_BELOW, "1 2 /2 2 /2 /1 f", [1, 2, 2]),
    (ALSO_BELOW, "2 /2 f", [2]),
    (IN_TURN, "0 1 0 /0 /1 1 /1 /0 f", [0, 1, 0, 1]),
    (IN_TURN, "1 0 1 /1 /0 /1 f", [1, 0, 1]),
    (OTHER_TYPES_BELOW, "0 0 /0 1 /1 0 /0 /0 f", [0, 2, 3, 2]),
    (OTHER_TYPES_BELOW, "1 0 /0 /1 f", [1, 2]),
    (ONE_OF_TAG_0, "0 1 /1 /0 f", [2, 3]),
    (ONE_BETWEEN, "0 1 /1 1 /1 /0 f", [1, 3, 3]),
    (ONE_BETWEEN, "1 /1 f", [3]),
    (NONE_OF_TAG_0, "1 0 /0 /1 f", [1, 2]),
    (EIGHT, "31 1 /1 7 /7 /31 f", [63, 49, 55]),
    (EIGHT, "24 0 /0 6 /6 0 /0 /24 f", [56, 0, 6, 0]),
    (EIGHT, "27 3 /3 21 /21 /27 f", [59, 27, 21]))]
FILES = list(dict.fromkeys(file for file, *_ in ROUTES))


# By hand, with A J K n and w of every witness that each may get; none: accepted.

def of_roots(*types):
    """The witnesses where any two of these roots compete."""
    return [f"{NO_PARENT} {j} {k} 0" for j, k in combinations(types, 2)]


# In type 0 types 2 and 3 compete at once; type 1 has type 0's tag.
TWO_IN_0 = [once(0, 2, 3), leaf(0), leaf(1), leaf(1)]
# Types 4 and 5 compete in type 2, which stands in type 0, and after a child in type 3, which stands
# in type 1.
IN_2_AND_3 = [once(0, 2), once(1, 3), once(2, 4, 5),
              Block(3, 3, [2], [(0, 4, 1), (1, 4, 2), (1, 5, 2)]), leaf(4), leaf(4)]
# Type 0 stands in itself, and type 1, of its tag, too.
IN_ITSELF = [Block(0, 2, [0, 1], [(0, 0, 0), (0, 1, 1)]), leaf(0)]

BY_HAND = [
    # Two of one tag, in either order; of three, of eight, of the first and the last types.
    (Schema(1, [leaf(0), leaf(0)], (0, 1)), of_roots(0, 1)),
    (Schema(1, [leaf(0), leaf(0)], (1, 0)), of_roots(0, 1)),
    (Schema(1, [leaf(0)] * 3, (1, 2, 0)), of_roots(0, 1, 2)),
    (Schema(1, [leaf(0)] * 9, (8, *range(1, MOST_ROOTS))), of_roots(*range(1, 9))),
    (Schema(1, [leaf(0)] * MOST_TYPES, (MOST_TYPES - 1, 0)), of_roots(0, MOST_TYPES - 1)),
    # With a document in common, and with none.
    (Schema(2, [any_of(0, 2), once(0, 2), leaf(1)], (0, 1)), of_roots(0, 1)),
    (Schema(3, [once(0, 2), once(0, 3), leaf(1), leaf(2)], (1, 0)), of_roots(0, 1)),
    # Of two tags, and of two with a third between.
    (Schema(2, [leaf(0), leaf(1), leaf(1), leaf(0)], (0, 1, 2, 3)),
     of_roots(0, 3) + of_roots(1, 2)),
    (Schema(3, [leaf(0), leaf(1), leaf(2), leaf(1)], (3, 0, 2, 1)), of_roots(1, 3)),
    (Schema(3, [leaf(0), leaf(1), leaf(2), leaf(1)], (3, 0, 2)), []),
    # Some bear no tree.
    (Schema(1, [leaf(0), no_tree(0)], (0, 1)), []),
    (Schema(1, [leaf(0), once(0, 1)], (1, 0)), []),
    (Schema(1, [leaf(0), no_tree(0), leaf(0)], (0, 1, 2)), of_roots(0, 2)),
    (Schema(2, [no_tree(0), leaf(0), once(0, 4), leaf(0), no_tree(1)], (0, 1, 2, 3)),
     of_roots(1, 3)),
    # Roots come before types, also where the same two compete.
    (Schema(2, TWO_IN_0, (0, 1)), of_roots(0, 1)),
    (Schema(2, TWO_IN_0, (0, 2)), ["0 2 3 0"]),
    (Schema(2, TWO_IN_0, (3, 0, 2)), of_roots(2, 3)),
    (Schema(2, TWO_IN_0, (1, 2)), []),
    (Schema(2, IN_ITSELF, (0,)), ["0 0 1 0"]),
    (Schema(2, IN_ITSELF, (0, 1)), of_roots(0, 1)),
    # In a type that only one root reaches, the first or the second; in the smaller of two.
    (Schema(5, IN_2_AND_3, (0,)), ["2 4 5 0"]),
    (Schema(5, IN_2_AND_3, (1,)), ["3 4 5 1 4"]),
    (Schema(5, IN_2_AND_3, (4, 1)), ["3 4 5 1 4"]),
    (Schema(5, IN_2_AND_3, (1, 4)), ["3 4 5 1 4"]),
    (Schema(5, IN_2_AND_3, (1, 0)), ["2 4 5 0"]),
    (Schema(5, IN_2_AND_3, (3, 2)), ["2 4 5 0"]),
    (Schema(5, IN_2_AND_3, (4,)), []),
    (Schema(3, [once(0, 2, 3), once(1, 2, 3), leaf(2), leaf(2)], (1, 0)), ["0 2 3 0"]),
    # In a type that no root reaches; in a root that bears no tree, and below one.
    (Schema(3, [leaf(0), leaf(1), once(0, 3, 4), leaf(2), leaf(2)], (0, 1)), []),
    (Schema(3, [leaf(0), leaf(1), once(0, 3, 4), leaf(2), leaf(2)], (1, 2)), ["2 3 4 0"]),
    (Schema(3, [Block(0, 2, [], [(0, 2, 1), (0, 3, 1)]), leaf(1), leaf(2), leaf(2)], (0, 1)), []),
    (Schema(3, [Block(0, 2, [], [(0, 1, 1)]), once(1, 2, 3), leaf(2), leaf(2)], (0, 2)), []),
    # Below two roots a tag has two types.
    (Schema(3, [once(0, 2), once(1, 3), leaf(2), leaf(2)], (0, 1)), []),
    (Schema(3, [once(0, 2), once(1, 3), leaf(2), leaf(2)], (0, 1, 2)), []),
    (Schema(3, [once(0, 2), once(1, 3), leaf(2), leaf(2)], (0, 3, 1, 2)), of_roots(2, 3)),
]
BY_HAND_EXPRESSIONS = [
    (expressions.schema(3, (0, "2 | 3"), (1, "3* 2"), (2, ""), (2, ""), roots=(0, 1)), ["0 2 3 0"]),
    (expressions.schema(3, (0, "2*"), (1, "3 3 | 3 2"), (2, ""), (2, ""), roots=(0, 1)),
     ["1 2 3 1 3"]),
    (expressions.schema(3, (0, "2*"), (0, "3 3 | 3 2"), (2, ""), (2, ""), roots=(1, 0)),
     of_roots(0, 1)),
    (expressions.schema(2, (0, "1"), (0, "1"), (0, "(0 |) 3"), (1, ""), roots=(0, 1, 2)), []),
]

# No root bears a tree, also where another type does; of one tag and of eight.
TREELESS = [
    Schema(1, [once(0, 0), once(0, 1)], (0, 1)),
    Schema(1, [once(0, 1), once(0, 0)], (1, 0)),
    Schema(2, [no_tree(0), no_tree(1), leaf(0)], (0, 1)),
    Schema(2, [any_of(0, 1), once(1, 1), no_tree(0)], (1, 2)),
    Schema(MOST_ROOTS, [no_tree(tag) for tag in range(MOST_ROOTS)], tuple(range(MOST_ROOTS))),
    Schema(1, [leaf(0)] + [no_tree(0)] * MOST_ROOTS, tuple(range(1, MOST_ROOTS + 1))),
]


def longest_file():
    """The longest file of states: seven ROOTs more than the longest of one ROOT."""
    file = without_end(schemas.spread_longest()) + end_of_file(*range(MOST_ROOTS))
    assert len(file) == LONGEST_FILE + 2 * (MOST_ROOTS - 1)
    return file


# At random.

def with_roots(shape):
    """The shape with up to eight roots in any order; in two of three schemas no two have one
    tag."""
    def several(rng):
        schema = shape(rng)
        types = range(len(schema.blocks))
        more = rng.sample(types, min(rng.choice((1, 2, 2, 3, 4, 7)), len(types)))
        roots = list(dict.fromkeys((*schema.roots, *more)))[:MOST_ROOTS]
        if rng.random() < 0.67:
            roots = list({schema.blocks[root].tag: root for root in roots}.values())
        rng.shuffle(roots)
        schema.roots = tuple(roots)
        return schema
    return several


SMALL, LEVELS, DENSE, BY_TEXT = ([with_roots(shape) for shape in shapes] for shapes in (
    schemas.SMALL, schemas.LEVELS, [schemas.dense], expressions.SHAPES))
IN_ORDER = ((SMALL, True), (LEVELS, None), (DENSE, None), (LEVELS, True), (SMALL, None))


def random_schema(rng, number, shapes=SMALL):
    """A random file of these shapes, every fourth by expressions, and its answer; None where the
    listing would be too long."""
    if number % 4 == 0:
        return expressions.random_schema(rng, BY_TEXT)
    return schemas.random_schema(rng, shapes)


def random_of_all(rng, number):
    """The same of all shapes."""
    return random_schema(rng, number, SMALL + DENSE + LEVELS)


def is_wanted(judged):
    return len(judged.meaning.schema.roots) > 1


def random_accepted(rng, number):
    """An accepted random schema file of which two roots at least bear a tree, its shape by its
    number, and its answer."""
    while True:
        file, judged = schemas.random_accepted(rng, *IN_ORDER[number % len(IN_ORDER)])
        if len(judged.meaning.bearing_roots()) > 1:
            return file, judged
