"""Cases of what would have been taken where an event file stops (N), at random: under accepted
schemas, each answer held to documents, and under values made up."""

import random

from . import damage, expressions, nil, roots, schemas
from .case import expected_case, made_up
from .cases_under_roots import random_puts
from .event_file import event_bytes
from .event_lists import random_document, random_event, walk_to_refusal
from .expected import MadeUp, held_to_documents
from .judged import read
from .listed import Listed
from .meaning import TooMany
from .reading import Reading
from .reduce import reduced


def accepted(rng, number):
    """A random schema file without unused types, its shape by its number: of one root, of several,
    with nillable types or by expressions."""
    if number % 4 == 0:
        return reduced(schemas.accepted_in_turn(rng, number // 4)[0])
    if number % 4 == 1:
        return reduced(roots.random_accepted(rng, number // 4)[0])
    if number % 4 == 2:
        return reduced(nil.random_accepted(rng, number // 4)[0])
    while True:
        made = expressions.random_schema(rng, rng.choice((expressions.SHAPES, nil.BY_TEXT)))
        if made and made[1].accepted:
            return reduced(made[0])


def documents_of(rng, file, count, ways=damage.NIL_WAYS):
    """So many event files under an accepted file, each made of a document by one of these ways; the
    answers are held to documents."""
    judged = read(file)
    listed = Listed(judged.meaning)
    for _ in range(count):
        data = rng.choice(ways)(rng, judged, random_document(rng, judged.meaning, listed.trees))
        held_to_documents(judged, data, listed)
        yield data


def random_cases():
    """Event files under random schemas, valid, cut and damaged."""
    rng = random.Random("what would have been taken")
    for number in range(160):
        file = accepted(rng, number)
        for data in documents_of(rng, file, 8, [damage.prefix, *damage.NIL_DAMAGES]):
            yield expected_case("random", file, data)


def random_value_cases():
    """Accepted random schemas, entries changed at random; event files that are walked as far as
    events are taken under the value."""
    rng = random.Random("what would have been taken under values")
    for number in range(110):
        file = accepted(rng, number)
        puts = random_puts(rng, read(file), damage.NIL_PUTS, number % 2)
        try:
            value = MadeUp(made_up(file, puts)[0])
            for _ in range(6):
                yield expected_case("random values", file, events_under(rng, value), puts)
        except TooMany:
            continue


def events_under(rng, value):
    """A walk under a value; outside the limits, where nothing is taken, any event or none."""
    if value.meaning is None:
        return rng.choice((b"", event_bytes(*random_event(rng, value.value)), b"\0"))
    return walk_to_refusal(rng, Reading(value), rng.randint(1, 16), 0.1)


CASES = (random_cases,)
VALUE_CASES = (random_value_cases,)
