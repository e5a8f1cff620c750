"""Schemas by the words after which two types compete: by hand with every witness that each may
get, one with a shortest word of 527 types, and at random."""

from .judged import judge
from .schema_file import Block, Schema, leaf, once, write
from .tables import MOST_STATES, MOST_WORD

# By hand.

def over(tags, steps, *others):
    """Type 0 with these steps, which accepts in its last state; from type 1 on leaves of these
    tags, and then other types."""
    last = max(q for _, _, q in steps)
    blocks = [Block(0, last + 1, [last], steps), *map(leaf, tags), *others]
    return Schema(1 + max(block.tag for block in blocks), blocks)


def in_two(first, second, *root_types):
    """The children of types 1 and 2 are so many of type 5 and then one of type 3 or 4, of one tag.
    The root has one child, of one of these types."""
    blocks = [once(0, *root_types)]
    for tag, count in ((1, first), (2, second)):
        steps = [(p, 5, p + 1) for p in range(count)] + [(count, j, count + 1) for j in (3, 4)]
        blocks.append(Block(tag, count + 2, [count + 1], steps))
    return Schema(5, blocks + [leaf(3), leaf(3), leaf(4)])


NO_TREE_IN_1 = in_two(0, 2, 1, 2)
NO_TREE_IN_1.blocks[1].accepting = []
# The leaves' tags: types 1 and 2 have one tag, and ways are by type 3 and by type 4.
LEAVES = (1, 1, 2, 3)
LONG = [(0, 3, 1), (1, 3, 2), (2, 3, 3), (3, 3, 4), (4, 3, 6)]
SHORT = [(0, 4, 5), (5, 4, 6)]

# Each schema with A J K n and w of every witness that it may get.
BY_HAND = [
    # A way of five types and one of two to the same state; and two types on from there.
    (over(LEAVES, LONG + SHORT + [(6, 1, 7), (6, 2, 7)]), ["0 1 2 2 4 4"]),
    (over(LEAVES, LONG + SHORT + [(6, 3, 7), (7, 3, 8), (8, 1, 9), (8, 2, 9)]),
     ["0 1 2 4 4 4 3 3"]),
    # The same where the long way goes on from the state to which the short one leads.
    (over(LEAVES, [(0, 3, 1), (1, 3, 2), (2, 3, 3), (0, 4, 4), (4, 4, 3), (3, 3, 1), (3, 1, 5),
                 (3, 2, 5)]), ["0 1 2 2 4 4"]),
    # At once, and after a type too.
    (over(LEAVES, [(0, 3, 1), (1, 1, 2), (1, 2, 2), (0, 1, 2), (0, 2, 2)]), ["0 1 2 0"]),
    # Loops on the way.
    (over(LEAVES, [(0, 3, 0), (0, 4, 1), (1, 3, 0), (1, 4, 1), (1, 1, 2), (1, 2, 2)]),
     ["0 1 2 1 4"]),
    # Two shortest words: with other types J and K, with the same, and with the ways' types in
    # either order.
    (over((1, 1, 2, 2, 3, 4), [(0, 5, 1), (0, 6, 2), (1, 1, 3), (1, 2, 3), (2, 3, 3), (2, 4, 3)]),
     ["0 1 2 1 5", "0 3 4 1 6"]),
    (over(LEAVES, [(0, 3, 1), (0, 4, 1), (1, 1, 2), (1, 2, 2)]), ["0 1 2 1 3", "0 1 2 1 4"]),
    (over(LEAVES, [(0, 3, 1), (1, 4, 3), (0, 4, 2), (2, 3, 3), (3, 1, 4), (3, 2, 4)]),
     ["0 1 2 2 3 4", "0 1 2 2 4 3"]),
    # Three types of one tag after one word.
    (over((1, 1, 1, 2), [(0, 4, 1), (1, 1, 2), (1, 2, 2), (1, 3, 2)]),
     ["0 1 2 1 4", "0 1 3 1 4", "0 2 3 1 4"]),
    # The smaller types compete after the longer word.
    (over((1, 1, 2, 2, 3), [(0, 5, 1), (1, 5, 2), (2, 1, 3), (2, 2, 3), (1, 3, 3), (1, 4, 3)]),
     ["0 3 4 1 5"]),
    # Two types by one path or three by two paths at once; three by one path or two by two.
    (over(LEAVES, [(0, 3, 1), (1, 3, 2), (2, 1, 9), (2, 2, 9), (0, 4, 3), (0, 4, 4), (3, 4, 5),
                 (4, 4, 6), (5, 4, 7), (6, 4, 8), (7, 1, 9), (8, 2, 9)]), ["0 1 2 2 3 3"]),
    (over(LEAVES, [(0, 3, 1), (1, 3, 2), (2, 3, 3), (3, 1, 8), (3, 2, 8), (0, 4, 4), (0, 4, 5),
                 (4, 4, 6), (5, 4, 7), (6, 1, 8), (7, 2, 8)]), ["0 1 2 2 4 4"]),
    # The path parts after the first type; J leaves the lower state of the two, then the higher.
    (over(LEAVES, [(0, 3, 1), (1, 3, 2), (1, 3, 3), (2, 1, 4), (3, 2, 4)]), ["0 1 2 2 3 3"]),
    (over(LEAVES, [(0, 3, 1), (1, 3, 2), (1, 3, 3), (3, 1, 4), (2, 2, 4)]), ["0 1 2 2 3 3"]),
    # Shorter ways that do not count: by type 4, which bears no tree, and with a dead state 1.
    (over(LEAVES[:3], [(0, 4, 2), (0, 3, 1), (1, 3, 2), (2, 1, 3), (2, 2, 3)], Block(3, 1)),
     ["0 1 2 2 3 3"]),
    (over(LEAVES, [(0, 1, 4), (0, 2, 1), (0, 3, 2), (2, 3, 3), (3, 1, 4), (3, 2, 4)]),
     ["0 1 2 2 3 3"]),
    # In type 3 they compete at once, but type 0 is smaller.
    (over(LEAVES[:2], [(0, 3, 1), (1, 3, 2), (2, 1, 3), (2, 2, 3)], once(2, 1, 2)),
     ["0 1 2 2 3 3"]),
    # After fewer types in the larger of two types, in the smaller, in one that is not reached and
    # in one that bears no tree.
    (in_two(3, 1, 1, 2), ["1 3 4 3 5 5 5"]),
    (in_two(1, 3, 1, 2), ["1 3 4 1 5"]),
    (in_two(0, 2, 2), ["2 3 4 2 5 5"]),
    (NO_TREE_IN_1, ["2 3 4 2 5 5"]),
]


def in_both_orders(schema):
    """Two files that state the schema: its steps in order, and the other way round."""
    return [write(schema), write(schema, list.reverse)]


# The longest word.

def long_way(sooner=False):
    """A shortest word of 527 types; `sooner`: in type 1, a larger type, two compete at once.

    Let s = 31 be the last state. The 528 pairs of states, those of one state twice among them,
    stand in an order: by their distance d, from {0, 0} to {0, s}, and those of one distance by
    their lower state, from {0, d} to {s - d, s}. By one type from both of its states a pair leads
    at the furthest to the next:
    - Type 1 leads from each state but s to the next: from a pair to the next of its distance.
    - Type 2 leads from s - d to d + 1, for d up to 15, and from s to 0 as well. From s - d and
      s - e to d + 1 and e + 1 the distance is the same, and neither state is higher than 16 or
      was lower. With 0 for s, {s - d, s}, the last pair of its distance, leads to {0, d + 1}, the
      first of the next; and {s, s} to {0, 0} too.
    - For each d from 16 to 30 a type of its own leads from s - d to 0 and from s to d + 1: again
      from {s - d, s} to {0, d + 1}. No other state has it. From {s - d, s - d} it leads to
      {0, 0}, and from {s, s}, the last pair of distance 0, to one of that distance.
    - J leads from 0 alone, K from s alone, both to 0.
    So a word of n types leads to no pair past place n, counted from 0. Of the types in words J and
    K alone have one tag, and they compete after the words that lead to 0 and to s; {0, s} has
    place 527. It is reached, since from each pair a type leads to the next."""
    s, half = MOST_STATES - 1, MOST_STATES // 2
    steps = [(p, 1, p + 1) for p in range(s)] + [(s, 2, 0)]
    steps += [(s - d, 2, d + 1) for d in range(half)]
    for d in range(half, s):
        steps += [(s - d, d - half + 3, 0), (s, d - half + 3, d + 1)]
    j = s - half + 3
    steps += [(0, j, 0), (s, j + 1, 0)]
    assert furthest_on(steps) == 1
    blocks = [Block(0, MOST_STATES, [0], steps)] + [leaf(a) for a in range(j)] + [leaf(j - 1)]
    if sooner:
        blocks[1].steps = [(0, j, 0), (0, j + 1, 0)]
    file = write(Schema(j, blocks))
    a, _, _, w = judge(file).meaning.first_competition()
    assert a == 0 and len(w) == MOST_WORD
    return file


def furthest_on(steps):
    """By how many places of `long_way`'s order a pair leads on at most."""
    pairs = [(p, p + d) for d in range(MOST_STATES) for p in range(MOST_STATES - d)]
    place = {pair: number for number, pair in enumerate(pairs)}
    return max(place[min(q, r), max(q, r)] - place[p, o]
               for p, j, q in steps for o, i, r in steps if i == j and p <= o)


# At random.

def ways(rng):
    """One or two types, each with ways of two lengths by leaves of their own tags. Types of one
    tag, two or twice two, lead from the ways to the end."""
    owners, kinds, pairs = rng.randint(1, 2), rng.randint(1, 4), rng.choice((1, 1, 2))
    own = owners + kinds
    tags = [*range(own), *(own + n // 2 for n in range(2 * pairs))]
    blocks = [two_ways(rng, tag, range(owners, own), range(own, len(tags)))
              for tag in range(owners)]
    if owners == 2:
        blocks[0].steps.append((rng.randrange(2), 1, rng.randrange(2)))
    return Schema(1 + max(tags), blocks + [leaf(tag) for tag in tags[owners:]])


def two_ways(rng, tag, by, rivals):
    """Two ways to a state and some steps beside them; every other rival leads to the end from that
    state, the rest from there or any other."""
    one, other = rng.sample(range(2, 8), 2)
    meeting = one + other - 1
    steps = []
    for way in ([0, *range(1, one), meeting], [0, *range(one, meeting), meeting]):
        steps += [(p, rng.choice(by), q) for p, q in zip(way, way[1:])]
    states = range(meeting + 1)
    steps += [(rng.choice(states), rng.choice(by), rng.choice(states))
              for _ in range(rng.randint(0, 4))]
    for n, j in enumerate(rivals):
        anywhere = n % 2 and rng.random() < 0.4
        steps.append((rng.choice(states) if anywhere else meeting, j, meeting + 1))
    return Block(tag, meeting + 2, [meeting + 1], sorted(set(steps)))
