"""Cases of schema values made up (V), of pairs of states (P) and of sets of states (Q)."""

import random
import struct

from . import damage, samples, schemas
from .case import Case, value_case
from .judged import judge
from .meaning import TooMany
from .pair_numbers import pair_number
from .schema_file import Schema, leaf, write
from .tables import (BYTE, LEAST_WITNESS_ROOM, MOST_STATES, MOST_STEPS, MOST_TAGS, MOST_TYPES,
                     MOST_WITNESS_ROOM, SET)
from .value import START, entries_of

ROOMS = (0, LEAST_WITNESS_ROOM - 1, LEAST_WITNESS_ROOM, MOST_WITNESS_ROOM)
ROOM = MOST_WITNESS_ROOM


# Schema values.

def made_up(file):
    """A file and puts for the schema that a file states, refused with 8 or 9 or not."""
    judged = judge(file)
    refused = judged.meaning and not judged.accepted
    return (b"", puts_of(judged.meaning.schema)) if refused else (file, [])


def made_up_cases(name, file, room):
    """The value of the schema that a file states."""
    file, puts = made_up(file)
    return by_puts(name, puts, room) if puts else [value_case(name, file, [], room)]


def by_puts(name, puts, room):
    """A schema of one root stated by puts alone. The last, the count of its roots, is left out: a
    root put into a value of no root is its one root."""
    return [value_case(name, b"", puts[:-1], room)]


def sample_cases():
    """Document 01's samples, and a competition in a type that is not reached."""
    for file in [*samples.FILES, schemas.USELESS, b""]:
        for room in ROOMS:
            yield from made_up_cases("samples", file, room)
    # 33 tags, and an accepting state 1 of a type of one state.
    one = write(Schema(1, [leaf(0)]))
    yield value_case("samples", one, [("tags", MOST_TAGS + 1, 0)], ROOM)
    yield value_case("samples", one, [("accepting", 2, 0)], ROOM)


def limit_cases():
    """Each limit met and passed by one."""
    for file in (samples.R, samples.NO_D, schemas.DEAD_STATES, schemas.LAST_STATE,
                 schemas.TWO_ENDS):
        for put in damage.limit_puts(judge(file).value):
            yield value_case("limits", file, [put], ROOM)
    for puts in damage.COMPETITION_PUTS:
        for room in ROOMS:
            yield value_case("limits", schemas.TWO_ENDS, [("tag", 1, 2), *puts], room)
    full = write(schemas.full_steps())
    for a in (0, MOST_TAGS - 1):
        for count in damage.around(MOST_STEPS):
            yield value_case("limits", full, [("steps", count, a)], ROOM)
    for types in damage.around(MOST_TYPES):
        for root in damage.around(MOST_TYPES):
            yield value_case("limits", schemas.leaves_only(MOST_TYPES),
                             [("types", types, 0), ("root", root, 0)], ROOM)


def stated_cases():
    """Structures and random schemas, those refused stated by puts alone."""
    rng = random.Random("schemas by puts")
    for file in schemas.structures():
        yield from made_up_cases("structures", file, ROOM)
    for _ in range(60):
        made = schemas.random_schema(rng, schemas.SMALL)
        if made:
            puts = puts_of(made[1].meaning.schema)
            yield from by_puts("by puts", puts, rng.choice(ROOMS[1:]))


def puts_of(schema):
    """The puts that state a schema; the last is the count of its roots."""
    return [(field, number, index) for field, index, number in entries_of(schema)]


def random_cases():
    """Accepted random schemas changed at random, half of them to types of one tag."""
    rng, count = random.Random("schema values"), 0
    while count < 400:
        file, judged = schemas.random_accepted(rng, schemas.ALL)
        value, puts = judged.value, []
        if count % 2:
            puts = damage.one_tag_puts(rng, len(judged.meaning.types))
        for _ in range(rng.choice((0, 1, 2, 4))):
            puts.append(damage.random_schema_put(rng, value))
            field, number, index = puts[-1]
            value = value.with_entry(field, index, number)
        try:
            room = rng.choice((ROOM, ROOM, LEAST_WITNESS_ROOM, LEAST_WITNESS_ROOM - 1))
            yield value_case("random", file, puts, room)
            count += 1
        except TooMany:
            continue


# Pairs of states.

def pair_case(p, q):
    inside = p < MOST_STATES and q < MOST_STATES
    number = pair_number(p, q) if inside else "outside"
    return Case("P", "P pairs", 0, bytes([p, q]), b"", f"pair {p} {q}: {number}\n",
                ("inside" if inside else "outside",))


def pair_cases():
    """All pairs, and some outside."""
    for p in range(MOST_STATES):
        for q in range(MOST_STATES):
            yield pair_case(p, q)
    edges = (0, MOST_STATES - 1, MOST_STATES, MOST_STATES + 1, 2 * MOST_STATES, BYTE)
    for p in edges:
        for q in edges:
            if max(p, q) >= MOST_STATES:
                yield pair_case(p, q)


# Sets of states.

def set_case(states, state, other, count):
    """Is the state in the set, the set with it, the states in common with another, and is each
    below the count?"""
    first = struct.pack("<IBIB", states, state, other, count)
    one = 1 << state if state < MOST_STATES else 0
    has, meets = (yes_or_no(states & some) for some in (one, other))
    below = yes_or_no(states < 1 << count)
    line = (f"set {states}: has {state} {has}, with {state} {states | one}, "
            f"meets {other} {meets}, below {count} {below}; none 0, start {START}\n")
    return Case("Q", "Q sets", 0, first, b"", line, (f"has {has}", f"meets {meets}",
                                                     f"below {below}"))


def yes_or_no(answer):
    return "yes" if answer else "no"


def set_cases():
    rng = random.Random("sets of states")
    last = MOST_STATES - 1
    edges = (0, 1, last, MOST_STATES, MOST_STATES + 1, 2 * MOST_STATES, BYTE)
    some_sets = (0, 1, 2, 3, 1 << last, 1 << last | 1, SET >> 1, SET)
    for states in some_sets:
        for number, state in enumerate(edges):
            for shift in (0, 3):
                yield set_case(states, state, some_sets[number + shift & 7],
                               edges[(number + shift) % len(edges)])
    for _ in range(200):
        states, other = (rng.getrandbits(MOST_STATES) & rng.choice((SET, BYTE, 1 << last))
                         for _ in range(2))
        state, count = (rng.randrange(MOST_STATES + 2) for _ in range(2))
        yield set_case(states, state, other, count)


CASES = (sample_cases, limit_cases, stated_cases, random_cases, pair_cases, set_cases)
