"""Cases of the shortest word after which two types compete: schema files (S), the same made up as
values (V), and jobs (J)."""

import random
from itertools import islice

from . import choices, schemas, words
from .case import job_case, schema_case
from .cases_jobs import ONE_ELEMENT
from .cases_values import made_up_cases
from .judged import judge, witness_text
from .meaning import TooMany, Wrong
from .tables import LEAST_WITNESS_ROOM, MOST_WITNESS_ROOM


def three_cases(file, room):
    return [schema_case("words", file, room), *made_up_cases("words", file, room),
            job_case("words", file, ONE_ELEMENT)]


def by_hand_cases():
    """Schemas of which every witness is known; each is a right choice and no other is."""
    for schema, known in words.BY_HAND:
        for file in words.in_both_orders(schema):
            if sorted(shortest_witnesses(judge(file).meaning)) != known:
                raise Wrong(f"a schema has other witnesses than {known}")
            for case in three_cases(file, LEAST_WITNESS_ROOM):
                show_choices(case, known, wrong_witnesses(judge(file).meaning))
                yield case


def longest_cases():
    """A shortest word of 527 types, of which other cases have the schema file and the value; the
    same with a shorter word in a larger type."""
    yield job_case("words", words.long_way(), ONE_ELEMENT)
    yield from three_cases(words.long_way(sooner=True), LEAST_WITNESS_ROOM)


def random_cases():
    """Random schemas, as many of each length of the shortest words."""
    rng, left = random.Random("shortest words"), dict.fromkeys(range(1, 7), 10)
    while any(left.values()):
        file = schemas.random_order(rng, schemas.renumbered(rng, words.ways(rng)))
        try:
            found = judge(file).meaning.first_competition()
        except TooMany:
            continue
        if found and left.get(len(found[-1])):
            left[len(found[-1])] -= 1
            yield from three_cases(file, rng.choice((LEAST_WITNESS_ROOM, MOST_WITNESS_ROOM)))


# Right and wrong choices.

def witnesses_after(meaning, a, beginnings):
    return [witness_text(a, j, k, w) for w in beginnings for j, k in meaning.pairs_after(a, w)]


def shortest_witnesses(meaning):
    """Every witness that the schema may get: all beginnings of the least length are looked at."""
    a, _, _, shortest = meaning.first_competition()
    [beginnings] = islice(meaning.by_length(a), len(shortest), len(shortest) + 1)
    return witnesses_after(meaning, a, beginnings)


def wrong_witnesses(meaning):
    """Witnesses of longer words, up to four types more, and one with a part changed: A, J and K,
    n, the last type of the word."""
    a, j, k, w = meaning.first_competition()
    wrong = [witness_text(a + 1, j, k, w), witness_text(a, k, j, w), witness_text(a, j, j, w)]
    for beginnings in islice(meaning.by_length(a), len(w) + 1, len(w) + 5):
        wrong += witnesses_after(meaning, a, beginnings)
    word = "".join(f" {i}" for i in w)
    wrong += [f"{a} {j} {k} {n}{word}" for n in (len(w) - 1, len(w) + 1)]
    return wrong + [witness_text(a, j, k, w[:-1] + (i,)) for i in meaning.types if w]


def show_choices(case, right, wrong):
    """A committed text with a right witness is taken over; another with a wrong one is not."""
    right, wrong = ({choices.with_witness(case, witness) for witness in some}
                    for some in (right, wrong))
    for text in right:
        choices.taken_over(case, text)
    for text in wrong - right:
        try:
            choices.taken_over(case, text)
        except Wrong:
            continue
        raise Wrong(f"a wrong witness would be taken over: {text}")


CASES = (by_hand_cases, longest_cases, random_cases)
