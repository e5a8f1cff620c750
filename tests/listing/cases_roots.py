"""Cases of several roots: schema files (S), and by hand and at random the same as values (V) and
jobs (J)."""

import random

from . import damage, roots, schemas
from .case import due_case, job_case, schema_case, value_case
from .cases_jobs import ONE_ELEMENT
from .cases_schema import ROOM, listed_case
from .cases_values import made_up
from .cases_words import shortest_witnesses, show_choices, wrong_witnesses
from .expressions import text
from .judged import judge, witness_text
from .listed import check_both_ways
from .meaning import Wrong
from .schema_file import Block, Schema, end_of_file, leaf, without_end, write
from .tables import (BYTE, COMPETITION, DONE, END_EXPRESSION, EXPRESSION_COMMANDS, FINAL,
                     LEAST_WITNESS_ROOM, MOST_ROOTS, MOST_TYPES, NO_COMMAND, NO_PARENT, NO_TREE,
                     OUT_OF_ORDER, OUT_OF_RANGE, REPEATED, ROOT, STEP, TAGS, TAKEN, TOO_MANY, TYPE,
                     TYPE_NOT_GIVEN, USE)

TYPES = 10      # leaves, each of its own tag
HEAD = without_end(schemas.leaves_only(TYPES))


def due(part, file, number=TAKEN, place=0):
    return due_case(f"roots, {part}", file, number, place, LEAST_WITNESS_ROOM)


def refused_after(part, start, more, number):
    """The file of this start and these commands is refused at the first of these."""
    return due(part, start + bytes(more), number, len(start))


def given(*some):
    """A file as far as these ROOTs."""
    return HEAD + end_of_file(*some)[:-1]


# How many, and which.

def count_cases():
    """One to eight ROOTs, rising and falling; a ninth, also one that repeats; 4 comes before 5,
    and 5 before 6, 8 and 9."""
    most = MOST_ROOTS
    for count in range(1, most + 1):
        some = range(TYPES - count, TYPES)
        yield due("counts", HEAD + end_of_file(*some))
        yield due("counts", HEAD + end_of_file(*reversed(some)))
    for more, number in (
            ([ROOT, most], TOO_MANY), ([ROOT, most, DONE], TOO_MANY), ([ROOT, 0], TOO_MANY),
            ([ROOT, most - 1, DONE], TOO_MANY), ([ROOT, 3, ROOT, most, DONE], TOO_MANY),
            ([ROOT, most, ROOT, most, DONE], TOO_MANY), ([ROOT, TYPES, DONE], OUT_OF_RANGE),
            ([ROOT, MOST_TYPES], OUT_OF_RANGE), ([ROOT, BYTE, DONE], OUT_OF_RANGE),
            ([ROOT], NO_COMMAND)):
        yield refused_after("counts", given(*range(most)), more, number)
    for block in (leaf(0), roots.no_tree(0)):
        start = without_end(write(Schema(1, [block] * TYPES)))
        yield due("counts", start + end_of_file(*range(most + 1)), TOO_MANY, len(start) + 2 * most)
    longest = roots.longest_file()
    yield due("counts", longest)
    yield refused_after("counts", longest, [DONE], OUT_OF_ORDER)
    yield refused_after("counts", longest[:-1], [ROOT, most, DONE], TOO_MANY)


def repeat_cases():
    """After one to seven ROOTs the first once more, after seven each; others after the repeat."""
    for count in range(1, MOST_ROOTS):
        for root in range(1, 1 + count) if count == MOST_ROOTS - 1 else (1,):
            yield refused_after("repeats", given(*range(1, 1 + count)), [ROOT, root, DONE],
                                REPEATED)
    for more in ([ROOT, 1], [ROOT, 1, ROOT, 1, DONE], [ROOT, 1, ROOT, 2, DONE], [ROOT, 1, BYTE]):
        yield refused_after("repeats", given(1), more, REPEATED)


def range_cases():
    """At each place a type that is not given."""
    for count in range(MOST_ROOTS):
        yield refused_after("range", given(*range(count)), [ROOT, TYPES, DONE], OUT_OF_RANGE)
    for root in (TYPES + 1, MOST_TYPES - 1, MOST_TYPES, MOST_TYPES + 1, 128, BYTE):
        yield refused_after("range", given(0), [ROOT, root, DONE], OUT_OF_RANGE)


# The order of commands.

OTHERS = ([TAGS, 1], [TYPE, 0, 1], [TYPE, 0, 0], [TYPE, BYTE, BYTE], [FINAL, 0], [FINAL, BYTE],
          [STEP, 0, 0, 0], *([USE, 0] if sign == USE else [sign] for sign in EXPRESSION_COMMANDS))
CUT = ([], [TAGS], [TYPE, 0], [FINAL], [STEP, 0, 0], [ROOT], [USE], [0], [BYTE], [ROOT ^ 0x80])


def order_cases():
    """After a ROOT nothing may stand but ROOT and DONE."""
    for some, every in (((2, 1), 1), ((0,), 6), (range(MOST_ROOTS), 5)):
        for other in OTHERS[::every]:
            yield refused_after("order", given(*some), [*other, ROOT, 5, DONE], OUT_OF_ORDER)
        for other in CUT[::every]:
            yield refused_after("order", given(*some), other, NO_COMMAND)
    for more in ([ROOT, 2], [ROOT, 2, DONE], [ROOT, 0], [ROOT], [DONE]):
        yield refused_after("order", HEAD + end_of_file(0, 1), more, OUT_OF_ORDER)
    # Before the first TYPE, and before all.
    for start in (b"", bytes([TAGS, 1])):
        for more in ([ROOT, BYTE], [ROOT, 0, ROOT, 0], [ROOT, 0, TYPE, 0, 1, ROOT, 0]):
            yield refused_after("order", start, more, OUT_OF_ORDER)
        yield refused_after("order", start, [ROOT], NO_COMMAND)
    # Inside an expression, and after one.
    for written in ("", "0*", "(0 | "):
        inside = HEAD + bytes([TYPE, 0, 0]) + text(written)
        for more in ([ROOT, 0, ROOT, 1, DONE], [ROOT, BYTE]):
            yield refused_after("order", inside, more, OUT_OF_ORDER)
        yield refused_after("order", inside, [ROOT], NO_COMMAND)
    after = HEAD + bytes([TYPE, 0, 0]) + text("1*") + bytes([END_EXPRESSION])
    yield due("order", after + end_of_file(TYPES, 1))
    yield due("order", after + end_of_file(2, TYPES, 1, 3))
    yield due("order", after + end_of_file(TYPES, TYPES), REPEATED, len(after) + 2)


# By hand.

def hand_cases():
    return cases_by_hand("roots", roots)


def cases_by_hand(name, made):
    """Of the schemas of this module those of which every witness is known, where each is a right
    choice and no other is; and those with documents."""
    by_states = [(write(schema), known) for schema, known in made.BY_HAND]
    for file, known in by_states + made.BY_HAND_EXPRESSIONS:
        yield from known_cases(name, file, known)
    for file in made.FILES:
        yield from accepted_cases(name, file)


def known_cases(name, file, known):
    """The cases of a file of which every witness is known; one without any is accepted."""
    judged = judge(file)
    found = witnesses(judged.meaning) if judged.number == COMPETITION else []
    if judged.number == NO_TREE or sorted(found) != sorted(known):
        raise Wrong(f"{known} are due, not {judged.text()} with {found}: {file.hex(' ')}")
    check_both_ways(judged)
    if not known:
        return [due_case(f"{name}, by hand", file, TAKEN, 0, LEAST_WITNESS_ROOM)]
    cases = three_cases(name, "by hand", file, LEAST_WITNESS_ROOM)
    for case in cases:
        show_choices(case, known, wrong_choices(judged.meaning))
    return cases


def accepted_cases(name, file):
    """The cases of an accepted file and of its value."""
    check_both_ways(judge(file))
    return [due_case(f"{name}, by hand", file, TAKEN, 0, LEAST_WITNESS_ROOM),
            value_case(name, file, [], ROOM)]


def three_cases(name, part, file, room):
    return [schema_case(f"{name}, {part}", file, room), value_case(name, *made_up(file), room),
            job_case(name, file, ONE_ELEMENT)]


def no_tree_cases():
    """8 only if no root bears a tree; 7 comes before it, and before 9."""
    for schema in roots.TREELESS:
        if judge(write(schema)).number != NO_TREE:
            raise Wrong("a root bears a tree")
        yield from three_cases("roots", "no tree", write(schema), ROOM)
    for accepting in ([], [0]):
        start = without_end(write(Schema(1, [Block(0, 1, accepting)] * 2)))
        yield due("no tree", start + end_of_file(1, 0), COMPETITION if accepting else NO_TREE)
        yield due("no tree", start + bytes([STEP, 0, 2, 0]) + end_of_file(1, 0), TYPE_NOT_GIVEN,
                  len(start))


def buffer_cases():
    return cases_of_buffers("roots", roots)


def cases_of_buffers(name, made):
    """1 comes before all else, though five bytes would hold the witness of the first schema of this
    module."""
    for schema in (made.BY_HAND[0][0], made.TREELESS[0]):
        for room in (5, LEAST_WITNESS_ROOM - 1, LEAST_WITNESS_ROOM):
            yield schema_case(f"{name}, buffers", write(schema), room)
            yield value_case(name, *made_up(write(schema)), room)


def witnesses(meaning):
    """Every witness that the schema may get."""
    pairs = meaning.competing_roots()
    if pairs:
        return [witness_text(NO_PARENT, j, k, ()) for j, k in pairs]
    return shortest_witnesses(meaning)


def wrong_choices(meaning):
    """Wrong witnesses: other types as roots, or after a shortest word; where roots compete, also
    other numbers for A and n, a word, and two types that compete in a type."""
    some = sorted({*meaning.schema.roots, *meaning.types[:6]})
    wrong = [witness_text(NO_PARENT, j, k, ()) for j in some for k in some
             if (j, k) not in meaning.competing_roots()]
    if not meaning.competing_roots():
        a, _, _, w = meaning.first_competition()
        wrong += [witness_text(a, j, k, w) for j in some for k in some
                  if (j, k) not in meaning.pairs_after(a, w)]
        return wrong + wrong_witnesses(meaning)
    j, k = meaning.competing_roots()[0]
    wrong += [witness_text(a, j, k, ()) for a in (0, j, k, NO_PARENT - 1)]
    wrong += [f"{NO_PARENT} {j} {k} {rest}" for rest in ("1", f"1 {j}", f"0 {j}", "255")]
    found = {a: meaning.competition(a) for a in meaning.reached()}
    return wrong + [witness_text(a, *found[a]) for a in found if found[a]]


# Damage.

def damaged_cases():
    """The ROOTs of a file damaged byte by byte; random files of several roots with something
    wrong."""
    file = roots.ALSO_BELOW
    start = len(file) - len(end_of_file(*judge(file).meaning.schema.roots))
    for _, tail in damage.every_byte_strayed(file[start:], [ROOT]):
        yield from listed_case("roots, damaged", file[:start] + tail, ROOM)
    yield from damaged_at_random("roots", "damaged files of several roots", 50,
                                 roots.random_schema, damaged)


def damaged_at_random(name, seed, count, random_schema, damaged_file):
    """About so many random files with something wrong."""
    rng = random.Random(seed)
    for number in range(count):
        made = random_schema(rng, number)
        if made:
            yield from listed_case(f"{name}, damaged", damaged_file(rng, *made), ROOM)


def damaged(rng, file, judged):
    """The file with one thing wrong or a few; in half of the cases a ROOT more and perhaps another
    command, or a ROOT left out."""
    schema = judged.meaning.schema
    if rng.random() < 0.5:
        return damage.damaged_file(rng, file)
    at = len(file) - 1 - 2 * rng.randrange(len(schema.roots))
    if len(schema.roots) > 1 and rng.random() < 0.2:
        return file[:at - 2] + file[at:]
    more = rng.choice(([], [], [], [ROOT, 0], [TYPE, 0, 1], [FINAL, 0]))
    return file[:at] + bytes([ROOT, rng.randrange(len(schema.blocks)), *more]) + file[at:]


# At random.

def random_cases():
    """Random schemas, competition of roots and of types among them."""
    left = {(COMPETITION, True): 14, (COMPETITION, False): 8, (TAKEN, False): 14,
            (NO_TREE, False): 3}
    return cases_at_random("roots", "random files of several roots", left, roots.random_of_all,
                           roots.is_wanted, lambda judged: bool(judged.meaning.competing_roots()))


def cases_at_random(name, seed, left, random_schema, is_wanted, sort_of):
    """Random schemas that are wanted, so many of each answer and sort. Where all documents can be
    listed, they show a competition or show that there is none."""
    rng, number = random.Random(seed), 0
    while any(left.values()):
        number += 1
        made = random_schema(rng, number)
        if made is None or not is_wanted(made[1]):
            continue
        file, judged = made
        answer = judged.number, sort_of(judged)
        if left[answer]:
            left[answer] -= 1
            check_both_ways(judged)
            yield schema_case(f"{name}, random", file, rng.choice((LEAST_WITNESS_ROOM, ROOM)))
            if rng.random() < 0.4:
                yield value_case(name, *made_up(file), ROOM)


CASES = (count_cases, repeat_cases, range_cases, order_cases, hand_cases, no_tree_cases,
         buffer_cases, damaged_cases, random_cases)
