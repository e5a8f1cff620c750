"""Cases under schemas of several roots, by hand and at random: lists of calls (C), event files (E)
and jobs (J); and values made up (C, V), the roots' entries among them."""

import random

from . import damage, roots
from .case import event_case, job_case, value_case
from .cases_calls import starter, walked
from .cases_events import PLENTY, checked_case
from .cases_jobs import schema_cases
from .cases_values import ROOM
from .event_file import END, calls_of, count_openings, leaves, nested, opened
from .event_lists import random_document, random_event
from .judged import judge
from .listed import Listed
from .meaning import TooMany, Wrong
from .schema_file import Schema, leaf, write
from .tables import (BYTE, COMPETITION, MOST_LEVELS, MOST_ROOTS, MOST_TYPES, NO_TREE, OPEN, TAKEN,
                     WORD)


# By hand.

def document_cases():
    """Documents of each root; a second root of every tag is among the calls refused on the way."""
    return cases_of_documents("roots", roots.FILES, roots.ROUTES)


def cases_of_documents(name, files, routes):
    """Walks under these files; along documents with known types every call that is refused; event
    files of two documents; jobs."""
    start, rng = starter(name), random.Random(f"{name}, walks")
    for file in files:
        yield walked(start(file), rng, 40).case()
    for file, data, types in routes:
        made = start(file)
        for event in calls_of(data):
            made.refused().give(*event)
        given = [int(text[1:]) for text in made.answers if text[0] == "t"]
        if given != types or made.answers[-1] != "ok":
            raise Wrong(f"a document that is to get {types}: {made.line()}")
        yield made.refused().case()
        yield event_case(name, file, data[:-1] + data, PLENTY)
        yield job_case(name, file, data)


def every_event_cases():
    """At every place of a small document every kind of event."""
    file = roots.ALSO_BELOW
    for _, some in damage.every_event_put_in(leaves(2) + END, judge(file).value):
        yield event_case("roots", file, some, PLENTY)


def level_cases():
    """64 levels and the 65th below each of two roots."""
    for tags in ([0, 1], [1, 0]):
        for levels in damage.around(MOST_LEVELS)[1:]:
            yield event_case("roots", roots.IN_TURN, b"".join(nested(tags, levels)) + END, PLENTY)


def first_event_cases():
    """Every tag opened first, and opened after a whole root."""
    for file in (roots.STOCK_AND_PRICES, roots.ALSO_BELOW, roots.ONE_BETWEEN, roots.NONE_OF_TAG_0):
        meaning = judge(file).meaning
        first = min(root for root in meaning.bearing_roots() if meaning.is_word(root, ()))
        for tag in range(meaning.schema.tags + 1):
            yield event_case("roots", file, opened(tag), 1)
            yield job_case("roots", file, leaves(meaning.tag(first), tag))


# At random.

def random_event_cases():
    """Event files, valid and damaged, each answer held to the listed documents."""
    rng = random.Random("event files under several roots")
    for number in range(10):
        yield from random_event_files("roots", rng, *roots.random_accepted(rng, number),
                                      damage.ROOT_DAMAGES)


def random_event_files(name, rng, file, judged, damages):
    """Two documents, each with two event files made of it by these damages."""
    listed = Listed(judged.meaning)
    for _ in range(2):
        data = random_document(rng, judged.meaning, (), (2, 6, 12, 20), 200)
        most = count_openings(data)
        yield checked_case(name, file, data, most, listed)
        for _ in range(2):
            some = rng.choice(damages)(rng, judged, data)
            yield checked_case(name, file, some, rng.choice((most, most + 1)), listed)


def random_call_cases():
    """Walks, each answer held to the listed documents."""
    start, rng = starter("roots", "at random"), random.Random("walks under several roots")
    for number in range(16):
        yield random_walk(start, rng, *roots.random_accepted(rng, number))


def random_walk(start, rng, file, judged):
    listed = Listed(judged.meaning)
    return walked(start(file), rng, rng.choice((10, 20, 40)), listed=listed).case()


def random_job_cases():
    """Jobs under random schemas by states and by expressions."""
    return random_jobs("roots", "several roots", {TAKEN: 12, COMPETITION: 8, NO_TREE: 2},
                       roots.random_schema, roots.is_wanted, damage.ROOT_WAYS)


def random_jobs(name, seed, left, random_schema, is_wanted, ways):
    """Jobs under random schemas that are wanted, so many of each answer; three under an accepted
    one, made by these ways."""
    number = 0
    while any(left.values()):
        number += 1
        rng = random.Random(f"{seed}, jobs {number}")
        made = random_schema(rng, number)
        if made and is_wanted(made[1]) and left[made[1].number]:
            cases = schema_cases(rng, *made, 3, ways)
            left[made[1].number] -= bool(cases)
            for case in cases:
                yield case._replace(name=f"J {name}")


# Values made up.

# Six leaves of tags of their own, roots 4, 1 and 3.
SIX = write(Schema(6, [leaf(tag) for tag in range(6)], (4, 1, 3)))
# Puts for it: types of one tag, some without a tree, other roots, other counts; a root twice.
SIX_PUTS = [
    [("tag", 1, 4)], [("tag", 1, 3), ("tag", 1, 4)], [("tag", 4, 1), ("tag", 4, 3)],
    [("tag", 1, 4), ("accepting", 0, 1)], [("tag", 1, 4), ("accepting", 0, 4)],
    [("tag", 1, 4), ("accepting", 0, 1), ("accepting", 0, 4)],
    [("accepting", 0, 1), ("accepting", 0, 3), ("accepting", 0, 4)],
    [("tag", 1, a) for a in range(6)],
    [("tag", 1, a) for a in range(6)] + [("roots", 2, 0)],
    [("tag", 1, a) for a in range(6)] + [("root", 5, 1), ("root", 5, 2)],
    [("tag", 1, a) for a in range(6)] + [("roots", 4, 0)],
    [("root", 4, 1), ("root", 4, 2)], [("root", 1, 0)], [("root", 5, 0), ("root", 0, 2)],
    [("roots", 1, 0)], [("roots", 2, 0), ("root", BYTE, 2)], [("roots", 2, 0), ("root", 6, 1)],
    [("roots", MOST_ROOTS, 0)], [("roots", MOST_ROOTS, 0), ("root", 6, MOST_ROOTS - 1)],
    [("root", 2, n) for n in range(MOST_ROOTS)] + [("roots", MOST_ROOTS, 0)],
    [("root", 7 - n, n) for n in range(2, MOST_ROOTS)] + [("roots", MOST_ROOTS, 0)],
    [("root", BYTE, MOST_ROOTS), ("root", BYTE, WORD), ("root", 5, BYTE + 1)],
]


def value_cases():
    """Each limit of the roots met and passed; roots that compete, bear no tree, come twice."""
    for file in (SIX, roots.EIGHT):
        for put in damage.root_puts(judge(file).value):
            yield value_case("roots made up", file, [put], ROOM)
    for puts in SIX_PUTS:
        yield value_case("roots made up", SIX, puts, ROOM)


def limit_call_cases():
    """The same limits before a document and inside it, and put back."""
    start, value = starter("roots made up", "limits"), judge(roots.STOCK_AND_PRICES).value
    old = [("root", value.get("root", n), n) for n in range(MOST_ROOTS)]
    old += [("roots", value.get("roots")), ("depth", 0), ("rooted", 0), ("finished", 0)]
    for put in damage.root_puts(value)[::2]:
        made = start(roots.STOCK_AND_PRICES)
        for words in ("", "0 2 /2"):
            made.route(words).puts(put).some((0, 1)).puts(*old)
        yield made.route("1 3 /3 /1 f").case()


def smallest_cases():
    """Of the tree-bearing roots of a tag the smallest type is given, wherever it is listed."""
    start = starter("roots made up", "smallest")
    for puts in SIX_PUTS:
        made = start(SIX).puts(*puts)
        for tag in range(6):
            made.puts(("depth", 0), ("rooted", 0)).route(f"{tag} /{tag} {tag}")
        yield made.route("f").case()
    # The roots change under an open document, and after it.
    made = start(roots.IN_TURN).route("0 1").puts(("root", 1, 1), ("roots", 1)).route("0 /0 /1 /0")
    yield made.puts(("rooted", 0)).route("0 1 /1").puts(("roots", 2), ("root", 0)).route("f").case()
    # All of one tag and 64 of them: the first types are no roots, or are last in the table.
    many = write(Schema(1, [leaf(0)] * MOST_TYPES, (MOST_TYPES - 1,)))
    for some in ((63, 40, 9), (63, 9, 40), (9, 63, 40), range(MOST_TYPES - 1, 55, -1), (63, 0)):
        made = start(many).puts(*(("root", root, n) for n, root in enumerate(some)))
        yield made.puts(("roots", len(some))).route("0 0 /0 f").case()


def random_value_cases():
    """Accepted random schemas, roots and other entries changed at random; fresh readings."""
    rng = random.Random("values of several roots")
    some = (roots.random_accepted(rng, number) for number in range(16))
    return values_at_random("roots", rng, some, damage.ROOT_PUTS, fresh_and_opened)


def fresh_and_opened(rng, made):
    """Puts a fresh reading and opens a root."""
    made.puts(("depth", 0), ("rooted", 0), ("finished", 0))
    made.give(OPEN, rng.randrange(made.schema().tags))


def values_at_random(name, rng, some, ways, change, begun=lambda rng, made: made):
    """Each of these accepted schemas with entries changed by these ways, as a value; and a list of
    calls, begun and then changed so, between changes of the reading."""
    start = starter(f"{name} made up", "at random")
    for number, (file, judged) in enumerate(some):
        puts = random_puts(rng, judged, ways, number % 2)
        try:
            yield value_case(f"{name} made up", file, puts, ROOM)
        except TooMany:
            continue
        made = begun(rng, start(file)).puts(*puts)
        for _ in range(4):
            change(rng, made)
            for _ in range(rng.randint(1, 4)):
                made.give(*random_event(rng, judged.value))
        yield made.case()


def random_puts(rng, judged, ways, one_tag):
    """One to five puts made by these ways; before them, if that is asked for, most types get one
    tag."""
    value, puts = judged.value, []
    if one_tag:
        puts = damage.one_tag_puts(rng, len(judged.meaning.types))
    for _ in range(rng.choice((1, 2, 3, 5))):
        puts.append(rng.choice(ways)(rng, value))
        value = value.with_entry(puts[-1][0], puts[-1][2], puts[-1][1])
    return puts


CASES = (document_cases, every_event_cases, level_cases, first_event_cases, random_event_cases,
         random_call_cases, random_job_cases, value_cases, limit_call_cases, smallest_cases,
         random_value_cases)
