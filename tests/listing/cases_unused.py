"""Cases of question 24, a type that no valid document uses: schema files (S), jobs and event files
(J, E) under them and under what the writer makes of them, and lists of calls (C)."""

import random

from . import damage, samples, unused
from .case import event_case, job_case, schema_case
from .cases_calls import starter, walked
from .cases_events import PLENTY
from .cases_jobs import ONE_ELEMENT
from .cases_schema import ROOM, ROOMS, longest_files
from .event_file import END, count_openings, nested
from .event_lists import random_document
from .judged import judge, read
from .listed import Listed
from .meaning import Wrong
from .reduce import reduced
from .tables import (COMPETITION, LEAST_WITNESS_ROOM, LONGEST_FILE, MOST_LEVELS, NO_TREE, TAKEN,
                     UNUSED_TYPE)


def due(part, file, number, place):
    """The case of a schema file of which the reader's number and place are known."""
    found = read(file)
    if (found.number, found.place) != (number, place):
        raise Wrong(f"{number} at {place} is due, not {found.text()}: {file.hex(' ')}")
    return schema_case(f"unused, {part}", file, LEAST_WITNESS_ROOM)


def hand_cases():
    """At the first unused type, or none; 8 before 24, and 24 before 9; what is written passes."""
    for file, place, written in unused.BY_HAND:
        yield due("by hand", file, *((TAKEN, 0) if place is None else (UNUSED_TYPE, place)))
        yield job_case("unused", file, ONE_ELEMENT)
        if written != file:
            yield due("written", written, TAKEN, 0)
    for file, place in unused.COMPETING:
        if judge(file).number != COMPETITION:
            raise Wrong(f"no competition: {file.hex(' ')}")
        yield due("competing", file, UNUSED_TYPE, place)
        yield due("competing", reduced(file), COMPETITION, 0)
        yield job_case("unused", file, ONE_ELEMENT)
    for file in unused.TREELESS:
        yield due("no tree", file, NO_TREE, 0)


def room_cases():
    """1 comes before 24; on 24 the witness buffer is kept."""
    for file in (samples.NO_D, unused.COMPETING[0][0]):
        for room in ROOMS:
            yield schema_case("unused, buffers", file, room)


def longest_cases():
    """The longest files with every type used, and what is just too long; jobs under them."""
    for file in longest_files(*unused.LONGEST):
        yield schema_case("unused, longest", file, LEAST_WITNESS_ROOM)
    for file in unused.LONGEST:
        if len(file) != LONGEST_FILE or not read(file).accepted:
            raise Wrong("a longest file is not accepted")
    for file, tags in zip(unused.LONGEST[1:], ([0], range(32))):
        for levels in (3, 33, MOST_LEVELS):
            yield job_case("unused", file, b"".join(nested(tags, levels)) + END)


def limit_cases():
    """64 types, 1,024 steps, 8 roots and 31 uses, with unused types and without."""
    for file in unused.at_limits():
        yield schema_case("unused, limits", file, ROOM)


def text_cases():
    """Expressions over dropped types, every third file."""
    for file in list(dict.fromkeys(unused.over_texts()))[::3]:
        yield schema_case("unused, expressions", file, ROOM)


def random_cases():
    """Random files, so many of each answer of the reader and as a stored file; documents and calls
    under accepted ones and under what is written of the others."""
    rng, start = random.Random("unused types"), starter("unused", "at random")
    left = {(UNUSED_TYPE, TAKEN): 300, (UNUSED_TYPE, COMPETITION): 100, (TAKEN, TAKEN): 100,
            (COMPETITION, COMPETITION): 40, (NO_TREE, NO_TREE): 20}
    while any(left.values()):
        made = unused.random_schema(rng)
        if made and left[read(made[0]).number, made[1].number]:
            left[read(made[0]).number, made[1].number] -= 1
            yield schema_case("unused, random", made[0], ROOM)
            if made[1].accepted:
                yield from under(rng, start, made[0])


def under(rng, start, file):
    """A job under the file, and a document and damaged ones under what is written of it, each
    answer held to the listed documents."""
    written = reduced(file)
    judged = read(written)
    data, listed = random_document(rng, judged.meaning), Listed(judged.meaning)
    yield job_case("unused", file, data)
    yield event_case("unused", file, data, count_openings(data))
    yield job_case("unused, written", written, data)
    some = rng.choice(damage.NIL_DAMAGES)(rng, judged, data)
    yield event_case("unused, written", written, some, rng.choice((PLENTY, count_openings(data))))
    if rng.random() < 0.3:
        yield walked(start(written), rng, 20, listed=listed).case()


def damaged_cases(count=300):
    """Random files with something wrong, or nothing."""
    for _, file in unused.damaged_files("unused types, damaged", count):
        yield schema_case("unused, damaged", file, ROOM)


CASES = (hand_cases, room_cases, longest_cases, limit_cases, text_cases, damaged_cases)
RANDOM_CASES = (random_cases,)
