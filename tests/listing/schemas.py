"""Schemas: those made by hand, random ones small enough to list, and those at the limits."""

from dataclasses import replace

from .judged import judge
from .meaning import Meaning, TooMany
from .schema_file import Block, Schema, leaf, once, write
from .tables import (COMPETITION, LONGEST_FILE, MOST_STATES, MOST_STEPS, MOST_TAGS, MOST_TYPES,
                     NO_PARENT, TAKEN)
from .words import long_way

# By hand.

# Types 0 and 1 nest in each other, under one tag each; a third tag has no type.
IN_TURN = write(Schema(3, [Block(0, 1, [0], [(0, 1, 0)]), Block(1, 1, [0], [(0, 0, 0)])]))
# Types 0, 1 and 2 of one tag in turn down the levels, type 3 a leaf that ends each level.
THREE_TYPES = write(Schema(2, [
    Block(0, 2, [0, 1], [(0, (a + 1) % 3, 1), (0, 3, 1), (1, 3, 1)]) for a in range(3)]
    + [leaf(1)]))
# By type 1 to a live state and to a dead one; by type 2 to a dead one only; from the dead state 2
# on by type 3.
DEAD_STATES = write(Schema(4, [
    Block(0, 4, [1], [(0, 1, 1), (0, 1, 2), (0, 2, 2), (1, 1, 1), (2, 3, 2), (1, 3, 3),
                      (3, 1, 3)]), leaf(1), leaf(2), leaf(3)]))
# Types 1 and 2 of one tag; 1 bears no tree, or leads to a dead state only.
NO_TREE_BELOW = write(Schema(2, [once(0, 1, 2), Block(1, 1), leaf(1)]))
DEAD_COMPETITOR = write(Schema(2, [
    Block(0, 3, [1], [(0, 1, 2), (0, 2, 1), (2, 1, 2)]), leaf(1), leaf(1)]))
# The last of 32 states, and a path that needs it.
LAST_STATE = write(Schema(2, [
    Block(0, MOST_STATES, [MOST_STATES - 1], [(q, 1, q + 1) for q in range(MOST_STATES - 1)]
          + [(0, 1, MOST_STATES - 1), (MOST_STATES - 1, 1, MOST_STATES - 2)]), leaf(1)]))
# The last of 64 types, of the last of 32 tags, nests and stands in rows.
LAST_TYPE = write(Schema(MOST_TAGS, [Block(0, 1) for _ in range(MOST_TYPES - 1)]
                         + [Block(MOST_TAGS - 1, 1, [0], [(0, MOST_TYPES - 1, 0)])],
                         (MOST_TYPES - 1,)))
# Types 1 and 2 end a word in two ways; they compete once they have one tag.
TWO_ENDS = write(Schema(3, [
    Block(0, 3, [1, 2], [(0, 1, 1), (0, 2, 2), (1, 1, 1), (2, 2, 2)]), leaf(1), leaf(2)]))
# Competition in a type that is not reached.
USELESS = write(Schema(2, [leaf(0), once(0, 2, 3), leaf(1), leaf(1)]))
# Schemas whose documents nest without end.
ONE_TAG = write(Schema(1, [Block(0, 2, [0, 1], [(0, 1, 1)]), Block(0, 2, [0, 1], [(0, 0, 1)])]))
WITH_LEAF = write(Schema(2, [
    Block(0, 3, [0, 2], [(0, 0, 1), (0, 2, 0), (1, 1, 2)]), leaf(1), leaf(1)]))
ALTERNATE = write(Schema(2, [Block(0, 1, [0], [(0, 1, 0)]), once(1, 0)]))
# Type 1 leads back to type 0; the first of the two lets no element of it end.
NO_WAY_BACK = write(Schema(5, [Block(0, 2, [0], [(0, 1, 1), (0, 2, 0)]),
                              Block(3, 1, [], [(0, 0, 0)]), leaf(4), leaf(1)]))
WAY_BACK = write(Schema(5, [Block(0, 1, [0], [(0, 1, 0), (0, 2, 0)]),
                           Block(3, 1, [0], [(0, 0, 0)]), leaf(4), leaf(1)]))


def cycles(m, n, early=0):
    """By type 1 into a cycle of m states or one of n; from the last state of the first type 2
    leads to the end, from the last of the second, or one so much earlier, type 3, of the same
    tag. They compete where both cycles come to these states at once."""
    end = m + n + 1
    steps = [(0, 1, 1), (0, 1, m + 1)]
    steps += [(1 + i, 1, 1 + (i + 1) % m) for i in range(m)]
    steps += [(m + 1 + i, 1, m + 1 + (i + 1) % n) for i in range(n)]
    steps += [(m, 2, end), (m + n - early, 3, end)]
    return write(Schema(3, [Block(0, end + 1, [end], steps), leaf(1), leaf(2), leaf(2)]))


def chain(depth, falling, tail):
    """A chain of types, one child each, so many levels; its numbers fall or rise. The last has
    one child, of one of two types of one tag, of which the second is `tail`."""
    number = [depth - i if falling else i for i in range(depth + 1)]
    blocks = [None] * (depth + 1) + [leaf(1), tail]
    for i in range(depth):
        blocks[number[i]] = once(0, number[i + 1])
    blocks[number[depth]] = once(0, depth + 1, depth + 2)
    return write(Schema(2, blocks, (number[0],)))


def line_of_types(depth, falling, accepting):
    """Each type has one child of the next; the last, whose start state accepts or not, none."""
    blocks = [once(0, i + 1) for i in range(depth)] + [Block(0, 1, accepting)]
    if falling:
        blocks = [Block(0, 1, accepting)] + [once(0, i) for i in range(depth)]
    return write(Schema(1, blocks, (depth if falling else 0,)))


def structures():
    """Long ways to a competition, ways that never meet, and useless competitions."""
    for m, n in ((1, 1), (1, 2), (2, 3), (3, 4), (3, 5), (4, 5), (5, 6), (6, 7), (7, 8), (8, 9),
                 (9, 11), (11, 13), (14, 15), (15, 15)):
        yield cycles(m, n)
    for m, n in ((2, 4), (3, 6), (4, 6), (6, 9), (10, 12), (14, 16)):
        yield cycles(m, n, early=1)
    yield long_way()
    for depth in (1, 2, 5, 20, MOST_TYPES - 9):
        for falling in (False, True):
            for tail in (leaf(1), Block(1, 1)):
                yield chain(depth, falling, tail)
    for depth in (1, 2, 10, MOST_TYPES - 2):
        for falling in (False, True):
            for accepting in ([0], []):
                yield line_of_types(depth, falling, accepting)
    yield from useless_competitions()


def useless_competitions():
    """Competition only in types that are not reached or bear no tree, or after dead states; J and
    K after each other, in one word, and only at the end of two words."""
    two = once(0, 1, 2)
    for root in (leaf(0), Block(0, 1, [0], [(0, 0, 0)]), Block(0, 2, [0], [(0, 0, 1)])):
        yield write(Schema(2, [two, leaf(1), leaf(1), root], (3,)))
    for accepting, steps in (
            ([1], [(0, 1, 1), (0, 2, 2)]),
            ([0, 1], [(0, 1, 1), (0, 2, 2), (2, 2, 2)]),
            ([1, 2], [(0, 1, 1), (0, 2, 2), (2, 2, 2)]),
            ([2], [(0, 1, 1), (1, 2, 2)]),
            ([0, 1], [(0, 1, 0), (0, 2, 1)])):
        yield write(Schema(2, [Block(0, 3, accepting, steps), leaf(1), leaf(1)]))
    own = Block(0, 2, [0, 1], [(0, 0, 0), (0, 1, 1)])
    yield write(Schema(1, [own, leaf(0)]))
    yield write(Schema(1, [own, leaf(0)], (1,)))
    yield write(Schema(1, [own, Block(0, 1, [0], [(0, 0, 0)])], (1,)))


# At the limits.

def leaves_only(count, *roots, tags=MOST_TAGS):
    """So many types, all leaves; the root is type 0, or the roots are these."""
    return write(Schema(tags, [leaf(a % MOST_TAGS) for a in range(count)], roots or (0,)))


def full_steps(count=MOST_STEPS, blocks=1):
    """One type for each tag, so accepted; so many steps fill the last blocks."""
    schema = Schema(MOST_TAGS, [], (MOST_TAGS - 1,))
    for tag in range(MOST_TAGS):
        filled = tag >= MOST_TAGS - blocks
        accepting = [MOST_STATES - 1] if filled else [0, MOST_STATES - 1]
        schema.blocks.append(Block(tag, MOST_STATES, accepting))
    for i in range(count):
        block = schema.blocks[MOST_TAGS - blocks + i * blocks // count]
        block.steps.append((i // MOST_STATES, 0, i % MOST_STATES))
    return schema


def dense_longest(last):
    """64 types of 32 accepting states and 1,024 steps, all in the root type or in the last type.
    In the root type's words stand types 32 to 63, each of its own tag."""
    states = range(MOST_STATES)
    blocks = [Block(a % MOST_TAGS, MOST_STATES, list(states)) for a in range(MOST_TYPES)]
    blocks[-1 if last else 0].steps = [(p, MOST_TAGS + (p + q) % MOST_TAGS, q)
                                       for p in states for q in states]
    return longest(blocks)


def spread_longest():
    """64 types of 32 accepting states, 16 steps each in a row by the next type, so that no two
    types ever compete."""
    row = MOST_STEPS // MOST_TYPES
    return longest([
        Block(a % MOST_TAGS, MOST_STATES, list(range(MOST_STATES)),
              [(p, (a + 1) % MOST_TYPES, p + 1) for p in range(row)]) for a in range(MOST_TYPES)])


def longest(blocks):
    file = write(Schema(MOST_TAGS, blocks))
    assert len(file) == LONGEST_FILE
    return file


def many_types(rng, count):
    """A file of so many types, which differ; 65 are too many."""
    blocks = [leaf(0)]
    for _ in range(1, count):
        states = rng.choice([1, 1, 2, MOST_STATES])
        blocks.append(Block(rng.randrange(3), states, some_states(rng, states, 0.5)[:1]))
    return write(Schema(3, blocks, (rng.randrange(2),)))


def many_steps(rng, count):
    """A file of so many steps over a few types; 1,025 are too many. All are by one type, so that
    no two types compete."""
    blocks = [Block(a % 2, MOST_STATES, [MOST_STATES - 1]) for a in range(rng.randint(2, 5))]
    states = range(MOST_STATES)
    every = [(a, (p, len(blocks), q)) for a in range(len(blocks)) for p in states for q in states]
    for a, step in rng.sample(every, count):
        blocks[a].steps.append(step)
    return write(Schema(2, blocks + [leaf(1)]))


# Random shapes.

def random_steps(rng, states, types, count, forward=False):
    """Different random steps; `forward` ones lead to higher states only."""
    steps = []
    for _ in range(count):
        p, q = rng.randrange(states), rng.randrange(states)
        if forward:
            if p == q:
                continue
            p, q = min(p, q), max(p, q)
        step = (p, rng.choice(types), q)
        if step not in steps:
            steps.append(step)
    return steps


def some_states(rng, states, often):
    return [p for p in range(states) if rng.random() < often]


def plain(rng):
    """Anything: recursion, useless types, dead states, several steps by one type from one state,
    all as they come."""
    tags, count = rng.randint(1, 4), rng.randint(1, 5)
    blocks = []
    for _ in range(count):
        states = rng.randint(1, 4)
        steps = random_steps(rng, states, range(count), rng.randint(0, 6))
        blocks.append(Block(rng.randrange(tags), states, some_states(rng, states, 0.4), steps))
    return Schema(tags, blocks, (rng.randrange(count),))


def layered(rng):
    """Finitely many trees: steps by later types to later states only."""
    tags, count = rng.randint(1, 4), rng.randint(2, 5)
    blocks = []
    for a in range(count):
        later = range(a + 1, count)
        states = rng.randint(2, 4) if later and (a == 0 or rng.random() < 0.6) else 1
        steps = random_steps(rng, states, later, rng.randint(3, 8), True) if later else []
        accepting = sorted({*some_states(rng, states, 0.3), states - 1})
        blocks.append(Block(rng.randrange(tags), states, accepting, steps))
    return Schema(tags, blocks)


def marked(rng):
    """R's form: one tag has one type before a mark and another after it; some types lead back to
    the root type or to each other."""
    tags = rng.randint(2, 4)
    mark, before, after = 1, 2, 3
    root = Block(0, rng.randint(2, 3), [1], [(0, mark, 1), (0, before, 0)])
    root.steps.append((1, after, 1 if rng.random() < 0.8 else root.states - 1))
    if rng.random() < 0.5:
        root.accepting = sorted({1, root.states - 1})
    blocks, twice = [root, leaf(rng.randrange(tags))], rng.randrange(tags)
    for tag in (twice, twice):
        states = rng.randint(1, 3)
        steps = random_steps(rng, states, range(4), rng.randint(0, 3))
        blocks.append(Block(tag, states, some_states(rng, states, 0.5) or [0], steps))
    return Schema(tags, blocks)


def chains(rng):
    """Each automaton is the union of a few words of its own, from state 0 on a path each, some
    ending in a loop: many steps by one type from state 0."""
    tags, count = rng.randint(2, 4), rng.randint(3, 5)
    blocks = []
    for _ in range(count):
        block = Block(rng.randrange(tags), 4, [0] if rng.random() < 0.5 else [])
        for _ in range(rng.randint(0, 3)):
            p = 0
            for _ in range(rng.randint(1, 3)):
                step = (p, rng.randrange(count), rng.randint(1, 3))
                if step not in block.steps:
                    block.steps.append(step)
                p = step[2]
            if p not in block.accepting:
                block.accepting.append(p)
        blocks.append(block)
    return Schema(tags, blocks)


def two_rounds(rng):
    """Type 0's automaton goes round on two ways at once, by one type; one way is left by type 2,
    the other by type 3, of one tag. The two compete after as many types as make both ways come to
    their exits together, if ever."""
    first, second = rng.randint(1, 4), rng.randint(1, 4)
    states = 2 + first + second
    one, other = range(1, 1 + first), range(1 + first, 1 + first + second)
    root = Block(0, states, [states - 1], [(0, 1, one[0]), (0, 1, other[0])])
    for way, j in ((one, 2), (other, 3)):
        root.steps += [(p, 1, way[(n + 1) % len(way)]) for n, p in enumerate(way)]
        root.steps.append((rng.choice(way), j, states - 1))
    if rng.random() < 0.5:
        root.accepting.append(rng.choice(one))
    blocks = [root, leaf(1), leaf(2), leaf(2)]
    for block in blocks[1:]:
        if rng.random() < 0.3:
            block.steps.append((0, rng.choice([0, 1]), 0))
    if rng.random() < 0.2:
        blocks[rng.choice([2, 3])].accepting = []
    return Schema(3, blocks)


def larger(rng):
    """Words with a mark somewhere in a row of four or five states, the types before and after it
    sharing tags."""
    tags, count, states = rng.randint(2, 4), rng.randint(4, 6), rng.randint(3, 5)
    blocks = []
    for a in range(count):
        if a > 2 or rng.random() < 0.2:
            blocks.append(leaf(rng.randrange(tags)))
            continue
        block = Block(rng.randrange(tags), states, [rng.randrange(states)])
        for p in range(states - 1):
            j = rng.randrange(count)
            block.steps.append((p, j, p + 1))
            if rng.random() < 0.4:
                block.steps.append((p, (j + 1) % count, rng.choice([p, p, states - 1])))
        if rng.random() < 0.7 and states - 1 not in block.accepting:
            block.accepting.append(states - 1)
        blocks.append(block)
    return Schema(tags, blocks)


def renumbered(rng, schema):
    """The same schema with other numbers for the types."""
    number = rng.sample(range(len(schema.blocks)), len(schema.blocks))
    blocks = [None] * len(number)
    for a, block in enumerate(schema.blocks):
        blocks[number[a]] = replace(block, steps=[(p, number[j], q) for p, j, q in block.steps])
    return Schema(schema.tags, blocks, tuple(number[root] for root in schema.roots))


def tidy(blocks, steps):
    """The first step from each state by each tag."""
    found = {}
    for p, j, q in steps:
        found.setdefault((p, blocks[j].tag), (p, j, q))
    return sorted(found.values())


def by_levels(rng, types, tags, most_states, leaf_chance, forward):
    """Types with few steps, some of them leaves; most steps name higher types, with the chance
    `forward`; in half of the schemas no two steps from one state have one tag."""
    once_a_tag = rng.random() < 0.5
    blocks = [Block(rng.randrange(tags), 1) for _ in range(types)]
    for a, block in enumerate(blocks):
        small = a > 0 and rng.random() < leaf_chance
        block.states = 1 if small else rng.randint(1, most_states)
        block.accepting = some_states(rng, block.states, 0.85 if small else 0.4)
        low = a + 1 if a + 1 < types and rng.random() < forward else 0
        count = rng.randint(0, 1 if small else 2 * block.states)
        steps = random_steps(rng, block.states, range(low, types), count)
        block.steps = tidy(blocks, steps) if once_a_tag else steps
    return renumbered(rng, Schema(tags, blocks))


def over_leaves(rng):
    """One type over leaves."""
    schema = by_levels(rng, rng.randint(3, 6), rng.randint(1, 3), 4, 1, 1)
    for a, block in enumerate(schema.blocks):
        if a not in schema.roots:
            block.steps = []
    return schema


def few_levels(rng):
    """A type's children mostly have higher numbers before these are changed."""
    return by_levels(rng, rng.randint(3, 6), rng.randint(1, 3), 3, rng.choice((0, 0, 0.7)), 0.9)


def no_levels(rng):
    return by_levels(rng, rng.randint(3, 6), rng.randint(1, 3), 3, 0, 0)


def many(rng):
    """Many types and tags."""
    return by_levels(rng, rng.randint(12, MOST_TYPES), rng.randint(4, MOST_TAGS), 3, 0.6, 0)


def dense(rng):
    """Many steps from each state, so that a word has many paths, some of them into dead states;
    in the words of a type a tag has one type, in those of another type another."""
    tags = rng.randint(2, 4)
    tag_of = [*range(tags), *(rng.randrange(tags) for _ in range(rng.randint(1, 4)))]
    blocks = []
    for tag in tag_of:
        children = [rng.choice([a for a, other in enumerate(tag_of) if other == t])
                    for t in range(tags)]
        states = rng.randint(2, 6)
        steps = random_steps(rng, states, children, rng.randint(0, 3) * states)
        blocks.append(Block(tag, states, some_states(rng, states, 0.35), steps))
    return Schema(tags, blocks, (rng.randrange(len(blocks)),))


SMALL = [plain, layered, layered, layered, marked, marked, chains, chains, two_rounds, larger,
         larger]
LEVELS = [over_leaves, few_levels, few_levels, no_levels, many]
ALL = SMALL + LEVELS + [dense]


def with_useless_parts(rng, schema):
    """A type that bears no tree or is not reached, or a dead state, added."""
    count = len(schema.blocks)
    block = schema.blocks[rng.randrange(count)]
    if rng.random() < 0.6 and count < MOST_TYPES:
        accepting = [] if rng.random() < 0.6 else [0]
        schema.blocks.append(Block(rng.randrange(schema.tags), 1, accepting))
        step = (rng.randrange(block.states), count, rng.randrange(block.states))
        if rng.random() < 0.8:
            block.steps.append(step)
    elif block.states < MOST_STATES:
        block.states += 1
        block.steps.append((rng.randrange(block.states - 1), rng.randrange(count),
                            block.states - 1))


def without_competition(rng, schema):
    """Some of the competing roots and steps by competing types left out, if the schema competes;
    it may still compete afterwards, or bear no tree."""
    for _ in range(6):
        meaning = Meaning(schema)
        if meaning.answer()[0] != COMPETITION:
            return
        a, j, k, _ = meaning.first_competition()
        if a == NO_PARENT:
            one = rng.choice((j, k))
            schema.roots = tuple(root for root in schema.roots if root != one)
        else:
            block = schema.blocks[a]
            block.steps.remove(rng.choice([step for step in block.steps if step[1] in (j, k)]))


def random_parts(rng, shapes, mend):
    """A random schema; with the chance `mend` steps by competing types are left out."""
    schema = rng.choice(shapes)(rng)
    if rng.random() < 0.4:
        with_useless_parts(rng, schema)
    if rng.random() < mend:
        without_competition(rng, schema)
    return schema


def random_order(rng, schema):
    """A file that states the schema, in half of the cases with each block in any order."""
    return write(schema, rng.shuffle if rng.random() < 0.5 else lambda commands: None)


def random_schema(rng, shapes, mend=0.5):
    """A random schema file and its answer; None where the listing would be too long."""
    try:
        file = random_order(rng, random_parts(rng, shapes, mend))
        return file, judge(file)
    except TooMany:
        return None


def is_listed(file):
    """Can the file be judged, its listing not being too long?"""
    try:
        judge(file)
    except TooMany:
        return False
    return True


def is_contested(meaning):
    """Do two types of one tag stand in the words of some reached type?"""
    words = [meaning.types_in_words(a) for a in meaning.reached()]
    return any(len({meaning.tag(j) for j in types}) < len(types) for types in words)


def random_accepted(rng, shapes, contested=None):
    """An accepted random schema file, with a root that may have children, and its answer;
    contested or not, if that is asked for."""
    while True:
        try:
            schema = random_parts(rng, shapes, 1 if contested else 0.5)
            if is_wanted(Meaning(schema), contested):
                file = random_order(rng, schema)
                return file, judge(file)
        except TooMany:
            continue


def is_wanted(meaning, contested):
    return (any(map(meaning.types_in_words, meaning.schema.roots))
            and contested in (None, is_contested(meaning)) and meaning.answer()[0] == TAKEN)


IN_ORDER = ((LEVELS, True), ([dense], None), (SMALL, True), ([dense], None), (LEVELS, False))


def accepted_in_turn(rng, number):
    """An accepted random schema file, its shape by its number, and its answer."""
    return random_accepted(rng, *IN_ORDER[number % len(IN_ORDER)])
