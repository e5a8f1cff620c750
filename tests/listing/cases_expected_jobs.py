"""Cases of whole jobs of the program `whatnext` (X)."""

import random
from itertools import islice

from . import damage, nil, samples, unused, wall
from .case import next_case
from .cases_expected import EIGHT_ROOTS, EVERY_TAG, EVERY_TYPE, KNOWN, NESTING
from .cases_expected_random import accepted, documents_of
from .cases_jobs import ONE_ELEMENT, event_size_cases, schema_size_cases
from .event_file import END, nested, opened, route
from .judged import read
from .meaning import Wrong
from .reduce import reduced
from .tables import (BYTE, COMPETITION, MOST_LEVELS, NO_TREE, OPEN, OPEN_NIL, UNUSED_TYPE)

# Files, events and the text.
R = samples.R
TEXTS = [
    (R, samples.R_EVENTS, "accepted\n"),
    (R, b"", "refused 19 at 0\ninside\nopen 0\n"),
    (R, route("0 /0"), "refused 17 at 2\ninside 0\nopen 1\nopen 2\n"),
    (R, route("0 2 /2 /0"), "refused 19 at 8\ninside\nfinish\n"),
    (R, samples.R_EVENTS + END, "refused 11 at 17\ninside\n"),
    (nil.RACKS, route("0 2"), "refused 13 at 2\ninside 0\nopen 1\nopen nil 1\nopen nil 2\n"),
    (nil.RACKS, route("0 n1 3"), "refused 13 at 4\ninside 0 1\nclose\n"),
    (samples.TWO_B, b"", "schema refused 9 at 0\ntype 0 gives 1 or 2 after 0\n"),
    (samples.NO_TREE_AT_ROOT, b"", "schema refused 8 at 0\n"),
    (samples.NO_D, b"", "schema refused 24 at 24\n"),
    (b"", b"", "schema refused 2 at 0\n"),
    (b"", bytes(32769), "too long\n"),
    (wall.SCHEMA, wall.EVENTS, wall.TEXT),
    (wall.SCHEMA, wall.VALID, "accepted\n"),
]


def known_cases():
    """Texts that are known, and those of the known answers."""
    for file, events, text in TEXTS:
        case = next_case("known", file, events)
        if case.text != text + "--\n":
            raise Wrong(f"{text} is due: {case.text}")
        yield case
    for file, events, _ in KNOWN:
        yield next_case("known", file, events)


def deep_cases():
    """The first levels and the last, with an opening of either kind after them, and the widest
    lists."""
    for file, tags, _ in NESTING:
        for levels in (1, 2, *damage.around(MOST_LEVELS)):
            down, up = nested(tags, levels)
            for tail in (b"", up + END, opened(tags[0]), opened(tags[0], kind=OPEN_NIL), END):
                yield next_case("deep", file, down + tail)
    for file in (EVERY_TAG, EVERY_TYPE, EIGHT_ROOTS):
        for tag in (0, 1, 7, BYTE):
            for kind in (OPEN, OPEN_NIL):
                yield next_case("deep", file, opened(tag, kind=kind))
                yield next_case("deep", file, opened(0) + opened(tag, kind=kind) + END)


def named_size_cases():
    """Schema files and events of the most bytes and more, each with a name."""
    for name, *job in [*schema_size_cases(), *event_size_cases()]:
        yield name, next_case("sizes", *job)


def size_cases():
    """Each third of them."""
    return (case for _, case in list(named_size_cases())[::3])


def refused_cases(seed="refused", left=None):
    """Random files, so many of each number after DONE; a competing one without its unused types."""
    rng = random.Random(f"what would have been taken, {seed}")
    left = left or {NO_TREE: 25, COMPETITION: 90, UNUSED_TYPE: 120}
    while any(left.values()):
        made = unused.random_schema(rng)
        if made:
            file = reduced(made[0]) if made[1].number == COMPETITION else made[0]
            number = read(file).number
            if left.get(number):
                left[number] -= 1
                yield next_case("refused", file, rng.choice((ONE_ELEMENT, b"", b"\0")))


def damaged_cases(count=250):
    """Random files with something wrong, or nothing."""
    for _, file in unused.damaged_files("what would have been taken, damaged", count):
        yield next_case("damaged", file, ONE_ELEMENT)


def random_cases(seed="jobs", schemas=160, events=14):
    """Event files under random schemas, valid, cut and damaged."""
    rng = random.Random(f"what would have been taken, {seed}")
    for number in range(schemas):
        file = accepted(rng, number)
        for data in documents_of(rng, file, events):
            yield next_case("random", file, data)


def folder_cases(count):
    """About so many random jobs, the known ones and those at the limits, each with a name."""
    refused = dict.fromkeys((NO_TREE, COMPETITION, UNUSED_TYPE), count // 30)
    some = [*random_cases("folders", count // 5, 4), *refused_cases("folders", refused),
            *islice(damaged_cases(), count // 10)]
    for name, cases in (("known", known_cases()), ("deep", deep_cases()), ("random", some)):
        yield from ((f"{name}-{n}", case) for n, case in enumerate(cases))
    yield from named_size_cases()


CASES = (known_cases, deep_cases, size_cases, refused_cases, damaged_cases)
RANDOM_CASES = (random_cases,)
