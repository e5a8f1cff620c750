"""Cases under random expressions and those by hand: schema files (S) and values (V), and under
accepted ones lists of calls (C), event files (E) and jobs (J)."""

import random

from . import damage, expressions, samples, schemas
from .case import event_case, job_case, schema_case
from .cases_calls import starter, walked
from .cases_events import PLENTY, checked_case
from .cases_expressions import ROOM
from .cases_jobs import schema_cases
from .cases_values import made_up_cases
from .event_file import END, calls_of, count_openings, leaves, nested, route
from .event_lists import random_document
from .expressions import (LEAVES, all_after_all, any_words, each, leaves_below, never_falling,
                          rising, schema_of, text)
from .judged import judge
from .listed import Listed
from .meaning import Wrong
from .schema_file import end_of_file
from .tables import (COMPETITION, END_EXPRESSION, MOST_LEVELS, MOST_USES, NO_COMMAND, NO_TREE,
                     SCHEMA_BYTES, TAGS, TAKEN, TYPE)

ROUTES = [(file, route(words)) for file, words in expressions.ROUTES]


# At random.

def random_cases():
    """Random files, so many of each answer; the same schema by states has the same answer."""
    rng = random.Random("random expressions")
    left = {(COMPETITION, True): 150, (TAKEN, True): 150, (TAKEN, False): 100, (NO_TREE, False): 50}
    while any(left.values()):
        made = expressions.random_schema(rng)
        if made is None:
            continue
        file, judged = made
        contested = judged.number != NO_TREE and schemas.is_contested(judged.meaning)
        if left[judged.number, contested]:
            left[judged.number, contested] -= 1
            if judge(expressions.by_states(file)).text() != judged.text():
                raise Wrong("by states another answer")
            if judged.accepted:
                Listed(judged.meaning)
            yield schema_case("expressions, random", file, ROOM)
            if rng.random() < 0.3:
                yield from made_up_cases("expressions", file, ROOM)


def random_job_cases():
    """Jobs under random expressions."""
    left, number = {TAKEN: 110, COMPETITION: 30, NO_TREE: 15}, 0
    while any(left.values()):
        number += 1
        rng = random.Random(f"expressions, jobs {number}")
        made = expressions.random_schema(rng)
        if made and left[made[1].number]:
            for case in schema_cases(rng, *made, 8):
                yield case._replace(name="J expressions")
            left[made[1].number] -= 1


def random_accepted(rng):
    while True:
        made = expressions.random_schema(rng)
        if made and made[1].accepted and any(map(made[1].meaning.types_in_words,
                                                 made[1].meaning.schema.roots)):
            return made


def random_event_cases():
    """Event files under random expressions: valid, with short buffers, damaged."""
    rng = random.Random("expressions, event files")
    for _ in range(60):
        file, judged = random_accepted(rng)
        listed = Listed(judged.meaning)
        for _ in range(2):
            data = random_document(rng, judged.meaning, (), (2, 6, 12, 20), 200)
            most = count_openings(data)
            yield checked_case("expressions", file, data, most, listed)
            yield checked_case("expressions", file, data, rng.randrange(most), listed)
            for _ in range(2):
                some = rng.choice(damage.EVENT_DAMAGES)(rng, judged, data)
                yield checked_case("expressions", file, some, most + 1, listed)


def event_cases():
    """Under the schemas by hand every cut of a valid file, every kind of event at every place."""
    for file, data in ROUTES:
        for some in [*damage.every_cut(data), data]:
            yield event_case("expressions", file, some, count_openings(data))
    for file, data in ROUTES[:5]:
        for before, some in damage.every_event_put_in(data, judge(file).value):
            yield event_case("expressions", file, some, PLENTY)
    for levels in damage.around(MOST_LEVELS):
        for file, tags in ((expressions.NESTED, [0]), (expressions.IN_TURN, [0, 1])):
            yield event_case("expressions", file, b"".join(nested(tags, levels)) + END, PLENTY)
    # Under refused files every call is outside the limits.
    for file in (expressions.TWO_B, expressions.R[:-4], schema_of(text("(1")),
                 schema_of(text("1 " * (MOST_USES + 1)))):
        for data in (ROUTES[0][1], b"", END):
            yield event_case("expressions", file, data, 1)


def large_event_cases():
    """Documents under expressions of 31 uses."""
    order = list(LEAVES)
    for data, children in (
            (text(any_words(MOST_USES)), order * 3), (text(any_words(MOST_USES)), order[::-1]),
            (text(each(MOST_USES, "{} ")), order), (text(each(MOST_USES, "{} ")), order[:-1]),
            (text(each(MOST_USES, "{} ")), order + [1]), (never_falling(MOST_USES), order * 2),
            (never_falling(MOST_USES), sorted(order * 3)), (rising(MOST_USES), order[::3]),
            (rising(MOST_USES), [1, 5, 5]), (all_after_all(MOST_USES), order[::-2] * 2),
            (text("1 " * MOST_USES), [1] * MOST_USES), (text("1 " * MOST_USES), [1] * 30),
            (text("1* " + "1 " * 30), [1] * 40), (text("1* " + "1 " * 30), [1] * 29)):
        file, events = leaves_below(data), samples.row(*children)
        yield event_case("expressions", file, events, PLENTY)
        yield job_case("expressions", file, events)


def call_cases():
    """Lists of calls: along documents every call that is refused, and walks."""
    start, rng = starter("expressions"), random.Random("expressions, walks")
    for file, data in ROUTES:
        made = start(file)
        for event in calls_of(data):
            made.refused().give(*event)
            if made.answers[-1][0] == "r":
                raise Wrong(f"a document that is not valid: {data.hex()}")
        yield made.refused().case()
        for _ in range(3):
            yield walked(start(file), rng, 40).case()
    for _ in range(60):
        file, judged = random_accepted(rng)
        listed = Listed(judged.meaning)
        yield walked(start(file), rng, rng.choice((10, 20, 40)), listed=listed).case()


# Sizes, by the program.

def long_files():
    """Files about as long as the program reads, each with a name and with number and place: whole,
    or cut inside an expression or after it."""
    head, tail = bytes([TAGS, 1, TYPE, 0, 0]), bytes([END_EXPRESSION]) + end_of_file(0)
    most = SCHEMA_BYTES
    for name, part in (("sequences", "|"), ("brackets", "()"), ("repeats", "()*")):
        data = text(part)
        fits = (most - len(head + tail)) // len(data)
        yield f"{name}-whole", head + data * fits + tail, TAKEN, 0
        yield f"{name}-cut", head + data * (fits + 10) + tail, NO_COMMAND, most
    # Cut before the end of the expression, ROOT, its operand and DONE; and far behind.
    for end, place in ((most, most), (most - 1, most), (most - 2, most - 1), (most - 3, most),
                       (3 * most, most)):
        file = head + text("|") * (end - len(head)) + tail
        yield f"expression-{end}", file, NO_COMMAND, place
    file = head + text("|") * (most - 1 - len(head)) + text("0") + tail
    yield "expression-use-cut", file, NO_COMMAND, most - 1


def named_size_cases():
    """Jobs of these files, each with a name; the program reads no more of them than it should."""
    for name, file, number, place in long_files():
        case = job_case("expressions", file, leaves(0) + END)
        due_text = f"schema refused {number} at {place}\n" if number else "depth tag type\n1 0 0\n"
        if not case.text.startswith(due_text):
            raise Wrong(f"{due_text!r} is due for {name}: {case.text!r}")
        yield f"schema-{name}", case


def size_cases():
    """The same with what the program reads of the file."""
    for _, case in named_size_cases():
        yield case._replace(first=case.first[:SCHEMA_BYTES])


CASES = (random_cases, random_job_cases, random_event_cases, event_cases, large_event_cases,
         call_cases, size_cases)
