"""Cases of schema files (S)."""

import random

from . import damage, samples, schemas
from .case import schema_case
from .listed import Listed
from .meaning import TooMany, Wrong
from .schema_file import Block, Schema, commands_of, end_of_file, without_end, write
from .tables import (BYTE, COMPETITION, DONE, FINAL, LEAST_WITNESS_ROOM, MOST_STATES, MOST_STEPS,
                     MOST_TAGS, MOST_TYPES, MOST_WITNESS_ROOM, NO_TREE, ROOT, STEP, TAGS, TAKEN,
                     TYPE)

ROOM = MOST_WITNESS_ROOM
ROOMS = (0, 1, *damage.around(LEAST_WITNESS_ROOM), MOST_WITNESS_ROOM)


def sample_cases():
    """Document 01's samples; each must come out as it says."""
    for file, number, place, witness in samples.SCHEMAS:
        case = schema_case("samples", file, ROOM)
        answer = f"refused {number} at {place} |" if number else "accepted |"
        if not case.text.startswith(answer) or (witness and not case.text.endswith(
                f"| kept | {witness}\n")):
            raise Wrong(f"a sample of document 01 comes out differently: {case.text}")
        yield case
    for file in [*samples.FILES, b"", samples.R + b"\0", schemas.dense_longest(last=False)]:
        for room in ROOMS:
            yield schema_case("buffers", file, room)


def one_type(tag, states, *commands, tags=1):
    """A file of one type and these commands, not always right."""
    file = bytes([TAGS, tags, TYPE, tag, states])
    return file + b"".join(map(bytes, commands)) + end_of_file(0)


def count_limits():
    """The counts of tags, states and types, met and passed."""
    yield b""
    for tags in (0, 1, *damage.around(MOST_TAGS), 2 * MOST_TAGS, BYTE):
        yield bytes([TAGS, tags])
        yield one_type(0, 1, [FINAL, 0], tags=tags)
    for tags in damage.around(MOST_TAGS)[:2]:
        yield schemas.leaves_only(MOST_TAGS, tags=tags)
    for states in (0, 1, *damage.around(MOST_STATES), BYTE):
        yield without_end(one_type(0, states))
        yield one_type(0, states, [FINAL, 0])
        for q in (0, MOST_STATES - 2, MOST_STATES - 1, MOST_STATES):
            yield one_type(0, states, [FINAL, q])
            yield one_type(0, states, [FINAL, 0], [STEP, q, 0, 0])
            yield one_type(0, states, [FINAL, 0], [STEP, 0, 0, q])
    for by in (0, 1, MOST_TYPES - 2, MOST_TYPES - 1, MOST_TYPES, BYTE):
        yield one_type(0, 1, [FINAL, 0], [STEP, 0, by, 0])
    for count in (1, 2, *damage.around(MOST_TYPES), MOST_TYPES + 2):
        for root in (0, count - 1, count, MOST_TYPES - 1, MOST_TYPES, BYTE):
            yield schemas.leaves_only(count, root)


def after_all_types():
    """What may come after 64 types, and what may not."""
    last = MOST_TYPES - 1
    head = without_end(schemas.leaves_only(MOST_TYPES))
    for tail in ([TYPE, 0, 1], [TYPE, MOST_TAGS, 1], [TYPE, 0, MOST_STATES + 1], [TYPE, 0, 0],
                 [TYPE, 0], [TAGS, 1], [FINAL, 0], [FINAL, 1], [STEP, 0, last, 0, ROOT, last, DONE],
                 [STEP, 0, MOST_TYPES, 0], [ROOT, MOST_TYPES, DONE], [ROOT, last],
                 [ROOT, last, DONE], [ROOT, last, DONE, DONE], [0], [BYTE], [DONE], []):
        yield head + bytes(tail)


def step_limits():
    """1,024 steps, in one block and in several, and a command too many."""
    past = MOST_STATES
    for blocks in (1, 2, MOST_TAGS - 1):
        full = schemas.full_steps(MOST_STEPS, blocks)
        yield write(schemas.full_steps(MOST_STEPS - 1, blocks))
        yield write(full)
        if blocks > 2:
            continue
        # A repeat of the last step, a new one, of a type not given, and out of range.
        repeat = full.blocks[-1].steps[-1]
        for step in (repeat, (0, 1, 0), (0, MOST_TYPES - 1, 0), (past, 0, 0), (0, MOST_TYPES, 0),
                     (0, 0, past), (past - 1, BYTE, past - 1)):
            yield without_end(write(full)) + bytes([STEP, *step]) + end_of_file(0)
        yield without_end(write(full)) + bytes([STEP, 0, 0])
        for *more, root in (([STEP, 0, 0, 0], 0), ([FINAL, 0], MOST_TAGS), ([STEP, 1, 0, 0], 0),
                            ([FINAL, 0], [FINAL, 0], MOST_TAGS)):
            yield (without_end(write(full)) + bytes([TYPE, 0, 1]) + b"".join(map(bytes, more))
                   + end_of_file(root))


def full_block():
    """A block of all but a state's steps, then one more: repeats, new ones, a type not given."""
    states, end = range(MOST_STATES), MOST_STATES - 1
    steps = [(p, 0, q) for p in states[:-1] for q in states]
    head = without_end(write(Schema(1, [Block(0, MOST_STATES, [0], steps)])))
    for step in ((0, 0, 0), (end - 1, 0, end), (end, 0, end), (end, 1, end),
                 (end, MOST_TYPES, end)):
        yield head + bytes([STEP, *step]) + end_of_file(0)


def longest_files(*files):
    """Files of the greatest length and what is just too long."""
    for file in files:
        yield file
        for more in (0, DONE, BYTE):
            yield file + bytes([more])
        yield file[:-1]
    for more in ([FINAL, MOST_STATES - 1], [STEP, 0, 0, 0]):
        yield without_end(file) + bytes(more) + end_of_file(0)


def limit_cases():
    for files in (count_limits(), after_all_types(), step_limits(), full_block(),
                  longest_files(*map(schemas.dense_longest, (True, False)))):
        for file in files:
            yield schema_case("limits", file, LEAST_WITNESS_ROOM)


def structure_cases():
    for file in schemas.structures():
        yield schema_case("structures", file, LEAST_WITNESS_ROOM)
        yield schema_case("structures", file, ROOM)


def after_done():
    """A byte after DONE comes before 7, 8 and 9."""
    for file in samples.FILES:
        for more in (0, TAGS, TYPE, DONE, BYTE):
            yield file + bytes([more])
    by_no_type = samples.R.replace(bytes([STEP, 1, 3, 1]), bytes([STEP, 1, 4, 1]))
    for file in (samples.TWO_B, samples.NO_TREE_AT_ROOT, by_no_type):
        yield file + bytes([DONE])
        yield file


def repeats():
    """Each command given twice, right after itself and at the end; a repeat comes before 7."""
    for file in (samples.R, samples.SIXTH, samples.EXAMPLE_8_20):
        commands = commands_of(file)
        for i, command in enumerate(commands):
            yield b"".join(commands[:i + 1] + commands[i:])
            yield b"".join(commands[:-2] + [command] + commands[-2:])
    for by in (5, MOST_TYPES - 1):
        step = [STEP, 0, by, 0]
        yield one_type(0, 1, step, step)
        yield one_type(0, 1, step, [TYPE, 0, 1], step)


def systematic_cases():
    """Cuts, every byte changed, bytes after DONE, repeats."""
    for name, files in (
            ("cut", (c for f in (samples.R, samples.EXAMPLE_8_20) for c in damage.every_cut(f))),
            ("every byte", (c for f in (samples.R, samples.TWO_B)
                            for c in damage.every_byte_changed(f))),
            ("after DONE", after_done()), ("repeats", repeats())):
        for file in files:
            yield from listed_case(name, file, ROOM)


def listed_case(name, file, room):
    """The case, or none where the listing is too long."""
    try:
        return [schema_case(name, file, room)]
    except TooMany:
        return []


def random_byte_cases():
    for file in damage.random_schema_files(random.Random("random bytes"), 240):
        yield from listed_case("random bytes", file, ROOM)


def damaged_cases(count=760):
    """Random schema files with something wrong, or nothing."""
    rng = random.Random("damaged schema files")
    while count:
        made = schemas.random_schema(rng, schemas.ALL)
        if made:
            cases = listed_case("damaged", damage.damaged_file(rng, made[0]), ROOM)
            count -= len(cases)
            yield from cases


def random_cases():
    """Random schemas, so many of each answer; contested: in some reached type's words two types
    of one tag stand. The documents of accepted ones are listed: no two may differ."""
    rng = random.Random("random schema files")
    left = {(COMPETITION, True): 360, (TAKEN, True): 300, (TAKEN, False): 60, (NO_TREE, False): 60}
    while any(left.values()):
        made = schemas.random_schema(rng, schemas.ALL)
        if made:
            file, judged = made
            contested = judged.number != NO_TREE and schemas.is_contested(judged.meaning)
            if left[judged.number, contested]:
                left[judged.number, contested] -= 1
                if judged.accepted:
                    Listed(judged.meaning)
                yield schema_case("random", file, rng.choice((LEAST_WITNESS_ROOM, ROOM)))


CASES = (sample_cases, limit_cases, structure_cases, systematic_cases, random_byte_cases,
         damaged_cases, random_cases)
