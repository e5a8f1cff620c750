"""Cases of the writer of schema files (W)."""

import random

from . import damage, expressions, nil, roots, samples, schemas, unused
from .case import writer_case
from .judged import judge, read
from .meaning import Wrong
from .reduce import answer, reduced
from .roots import no_tree
from .schema_file import commands_of, end_of_file, leaf, without_end
from .tables import (BYTE, CANNOT_FOLLOW, COMPETITION, DONE, MOST_LENGTH, NO_COMMAND, NO_ROOM,
                     NO_TREE, OUT_OF_ORDER, OUT_OF_RANGE, REPEATED, ROOT, SCHEMA_BYTES, STEP, TAGS,
                     TAKEN, TOO_MANY, TOO_MANY_BRACKETS, TOO_MANY_USES, TYPE, TYPE_NOT_GIVEN)

SOME = 64
PLENTY = 600


def due(part, file, room, number, data=b""):
    """The case of a file of which the number, and what is written, are known."""
    if answer(file, room) != (number, data):
        raise Wrong(f"{number} is due, and {data.hex(' ')}: {file.hex(' ')}")
    return writer_case(part, file, room)


# By hand.

def hand_cases():
    """Outputs exact, one byte short and longer, and empty; what is written is written again as it
    is."""
    for file, _, written in unused.BY_HAND:
        length = len(written)
        for room in sorted({0, 1, length - 1, length, length + 1, length + 9, SOME, PLENTY}):
            fits = length <= room
            yield due("by hand", file, room, *((TAKEN, written) if fits else (NO_ROOM,)))
        yield due("second pass", written, length, TAKEN, written)
    for file, _ in unused.COMPETING:
        for room in (0, len(reduced(file)), PLENTY):
            yield due("by hand", file, room, COMPETITION)
        yield due("second pass", reduced(file), len(file), COMPETITION)
    for file in unused.TREELESS:
        for room in (0, len(file)):
            yield due("by hand", file, room, NO_TREE)


# Files, one for each number.
BAD = [
    (b"", NO_COMMAND), (bytes([TAGS]), NO_COMMAND), (samples.NO_D[:-1], NO_COMMAND),
    (bytes([0]) + samples.NO_D, NO_COMMAND), (samples.NO_D + bytes([DONE]), OUT_OF_ORDER),
    (samples.NO_D[:-1] + bytes([TYPE, 0, 1]), OUT_OF_ORDER),
    (samples.TAGS_OUT_OF_RANGE, OUT_OF_RANGE), (without_end(samples.NO_D) + bytes([ROOT, 5]),
                                                OUT_OF_RANGE),
    (roots.longest_file()[:-1] + bytes([ROOT, 63, DONE]), TOO_MANY),
    (without_end(schemas.leaves_only(64)) + bytes([TYPE, 0, 1]) + end_of_file(0), TOO_MANY),
    (samples.NO_D[:-1] + bytes([ROOT, 0, DONE]), REPEATED),
    (without_end(samples.NO_D) + bytes([STEP, 0, 5, 0]) + end_of_file(0), TYPE_NOT_GIVEN),
    (samples.NO_TREE_AT_ROOT, NO_TREE), (samples.TWO_B, COMPETITION), (samples.SIXTH, COMPETITION),
    (expressions.schema_of(expressions.text("1**")), CANNOT_FOLLOW),
    (expressions.schema_of(expressions.text("(1")), CANNOT_FOLLOW),
    (expressions.schema_of(expressions.text("1 " * 32)), TOO_MANY_USES),
    (expressions.schema_of(expressions.text("(" * 17 + "1" + ")" * 17)), TOO_MANY_BRACKETS),
]


def number_cases():
    """Each number, with outputs empty and long enough: 20 comes last."""
    for file, number in BAD:
        for room in (0, 1, SOME, len(file)):
            yield due("numbers", file, room, number)


def same_cases():
    """Files without an unused type come back byte for byte."""
    files = [*samples.FILES, *roots.FILES, *nil.FILES, *expressions.SAMPLES.values(),
             *schemas.structures(), *unused.LONGEST]
    for file in dict.fromkeys(files):
        if read(file).accepted:
            yield due("same", file, len(file), TAKEN, file)
            yield due("same", file, len(file) - 1, NO_ROOM)


def limit_cases():
    """64 types, 1,024 steps, 8 roots and 31 uses; outputs exact, one short, longer, the longest;
    and what is written once more."""
    for file in unused.at_limits():
        if judge(file).number == TAKEN:
            length = len(reduced(file))
            for room in (length, length - 1, length + 1):
                yield writer_case("limits", file, room)
            yield writer_case("second pass", reduced(file), length)
        yield writer_case("limits", file, 0)
    yield writer_case("limits", schemas.dense_longest(last=True), MOST_LENGTH)
    # Files longer than the program reads: copied, and written by states.
    short = bytes.fromhex("10 03 11 00 03 12 00 12 01 12 02 13 00 01 01 11 01 00 3F 14 00 1F")
    for last in (leaf(2), no_tree(2)):
        file = expressions.schema(3, (0, "|" * SCHEMA_BYTES + "1 | 2"), (1, ""), last)
        written = file if last.accepting else short
        yield due("limits", file, len(written), TAKEN, written)
        yield due("limits", file, len(written) - 1, NO_ROOM)


# Systematic.

def text_cases():
    """Expressions over dropped types; the output is exact, one short or longer in turn."""
    for number, file in enumerate(dict.fromkeys(unused.over_texts())):
        yield writer_case("expressions", file, near(file, number))


def near(file, number):
    """A length near that of the file written, by a number."""
    length = len(reduced(file)) if judge(file).number == TAKEN else len(file)
    return max(length + (0, 0, 1, 0, -1, 0, 70)[number % 7], 0)


def cut_cases():
    """Every cut of some files, every byte changed of others; commands left out and given twice."""
    by_text = unused.BY_HAND[-4][0]
    for file in (samples.NO_D, by_text):
        for some in damage.every_cut(file):
            yield writer_case("cut", some, PLENTY)
    for file in (samples.NO_D, by_text):
        for some in list(damage.every_byte_changed(file))[::3]:
            if schemas.is_listed(some):
                yield writer_case("every byte", some, len(some) + 20)
    for file, _, _ in unused.BY_HAND[5:]:
        commands = commands_of(file)
        for at in range(len(commands)):
            for some in (commands[:at] + commands[at + 1:], commands[:at + 1] + commands[at:]):
                if schemas.is_listed(b"".join(some)):
                    yield writer_case("commands", b"".join(some), SOME)


def after_cases():
    """A byte after DONE gets 3 whatever types are unused."""
    for file, _, _ in unused.BY_HAND[6:12]:
        for more in (0, TAGS, DONE, BYTE):
            yield due("numbers", file + bytes([more]), PLENTY, OUT_OF_ORDER)


# At random.

def random_cases(part, count):
    """Random files, two of three with unused types, and of every eighth what is written."""
    rng, number = random.Random(f"files written {part}"), 0
    while number < count:
        made = unused.random_schema(rng)
        if made is None or (number % 3 and not (made[1].accepted and made[1].meaning.unused())):
            continue
        number += 1
        yield writer_case("random", made[0], near(made[0], rng.randrange(7)))
        if number % 8 == 0 and made[1].accepted:
            written = reduced(made[0])
            yield due("second pass", written, len(written) + number % 3, TAKEN, written)


def first_random_cases():
    return random_cases(1, 1500)


def second_random_cases():
    return random_cases(2, 1500)


def damaged_cases(count=900):
    """Random files with something wrong, or nothing."""
    for left, file in unused.damaged_files("files written, damaged", count):
        yield writer_case("damaged", file, near(file, left))


CASES = (hand_cases, number_cases, same_cases, limit_cases, text_cases, cut_cases, after_cases)
RANDOM_CASES = (first_random_cases,)
MORE_RANDOM_CASES = (second_random_cases, damaged_cases)
