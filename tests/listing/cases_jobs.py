"""Cases of whole jobs of the program (J).

The answer 20 cannot come up: events of at most 32,768 bytes have at most 16,384 openings of two
bytes each, and the program's buffer holds 16,384 types. Nor can a byte of `schema.tab` past its
first 16,384 matter here: without expressions commands that are not refused fill at most 8,389
bytes, with eight ROOTs 14 more and with a NIL in each block 64 more, so the refusal comes long
before. cases_under_expressions has longer files.
"""

import random
from functools import partial

from . import damage, samples, schemas
from .case import job_case
from .event_file import END, closed, document, leaves, nested, opened, walked
from .event_lists import random_document, walk_to_refusal
from .judged import judge
from .listed import Listed
from .meaning import TooMany, Tree, Wrong
from .reading import Reading
from .schema_file import without_end
from .tables import (COMPETITION, DONE, EVENT_BYTES, FINAL, LONGEST_FILE, MOST_LENGTH, MOST_LEVELS,
                     MOST_STEPS, MOST_TAGS, MOST_TYPES, NO_TREE, OPEN, PROGRAM_TYPES, SCHEMA_BYTES,
                     TAGS, TAKEN, TYPE)

ONE_ELEMENT = leaves(0) + END


# Samples.

def sample_cases():
    """Document 01's samples; each must come out as it says."""
    case = job_case("samples", samples.R, samples.R_EVENTS)
    if case.text != samples.R_TEXT + "--\n":
        raise Wrong("document 01's example comes out differently")
    yield case
    for file, events, number, place, types in samples.DOCUMENTS:
        case = job_case("samples", file, events)
        given = [int(line.split()[2]) for line in case.text.split("\n")[1:-3]]
        last = f"refused {number} at {place}" if number else f"accepted {len(types)}"
        fits = given == types and case.text.endswith(f"\n{last}\n--\n")
        if samples.ANSWERS[file] != samples.ACCEPTED:
            fits = case.text == f"schema {samples.ANSWERS[file]}\n--\n"
        if not fits:
            raise Wrong(f"a sample of document 01 comes out differently: {case.text}")
        yield case
    with_events = [file for file, *_ in samples.DOCUMENTS]
    for file, number, place, witness in samples.SCHEMAS:
        if number and file not in with_events:
            case = job_case("samples", file, b"")
            text = f"schema refused {number} at {place}\n"
            if witness:
                a, j, k, n, *_ = witness.split()
                text += f"type {a} gives {j} or {k} after {n}\n"
            if case.text != text + "--\n":
                raise Wrong(f"a sample of document 01 comes out differently: {case.text}")
            yield case


# At random.

def random_cases(name, accepted, competing, treeless, lists=len(damage.WAYS)):
    """Random schemas, so many of each answer, all different; an accepted one comes with event
    lists, of which each answer is held to the listed documents."""
    left, seen, number = {TAKEN: accepted, COMPETITION: competing, NO_TREE: treeless}, set(), 0
    while any(left.values()):
        number += 1
        rng = random.Random(f"{name} {number}")
        made = schemas.random_schema(rng, schemas.SMALL)
        if made is None or made[0] in seen or not left[made[1].number]:
            continue
        cases = list(schema_cases(rng, *made, lists))
        if cases:
            seen.add(made[0])
            left[made[1].number] -= 1
            yield from cases


def schema_cases(rng, file, judged, lists, ways=damage.WAYS):
    """The jobs under a random schema; mostly none under one with a single small document."""
    if not judged.accepted:
        return [job_case("random", file, rng.choice([ONE_ELEMENT, b"", b"\0"]))]
    listed = Listed(judged.meaning)
    if len(listed.trees) == 1 and rng.random() < 0.9:
        return []
    cases = []
    for way in rng.sample(ways, lists):
        events = way(rng, judged, random_document(rng, judged.meaning, listed.trees))
        walk = walked(judged, events, PROGRAM_TYPES, None)
        listed.check(events, walk)
        cases.append(job_case("random", file, events))
    return cases


def damaged_cases(count=1500):
    """Damaged schema files, with two event lists where one is accepted."""
    number, seen = 0, set()
    while len(seen) < count:
        number += 1
        rng = random.Random(f"damaged {number}")
        made = schemas.random_schema(rng, schemas.SMALL, mend=1)
        file = damage.damaged_file(rng, made[0]) if made else None
        if file is None or file in seen:
            continue
        try:
            judged = judge(file)
        except TooMany:
            continue
        seen.add(file)
        yield job_case("damaged", file, ONE_ELEMENT)
        if judged.accepted:
            events = walk_to_refusal(rng, Reading(judged), 10, 0.12)
            yield job_case("damaged", file, events)


# At the limits.

# Schemas whose documents nest without end, with the tags on the way down.
NESTING = [(samples.NESTED, [0]), (schemas.ALTERNATE, [0, 1]), (schemas.ONE_TAG, [0]),
           (schemas.WITH_LEAF, [0]), (schemas.NO_WAY_BACK, [0, 3]), (schemas.WAY_BACK, [0, 3])]


def deep_cases():
    """1, 2 and 60 to 66 openings one below the other, each with several events more."""
    for file, tags in NESTING:
        for levels in (1, 2, *range(MOST_LEVELS - 4, MOST_LEVELS + 3)):
            down, up = nested(tags, levels)
            tails = [up + END, up, up[:-2], b"", END, bytes([OPEN])]
            for tag in range(judge(file).meaning.schema.tags + 1):
                tails += [opened(tag), closed(tag)]
            for tail in tails:
                yield job_case("deep", file, down + tail)


def big_file_cases():
    """Files around 64 types and 1,024 steps; 4 comes before 5."""
    rng = random.Random("big files")
    few, most = [MOST_TYPES - 2, MOST_TYPES - 1, MOST_TYPES], [MOST_TYPES + 1, MOST_TYPES + 2]
    for count in few * 4 + most * 25:
        yield job_case("big files", schemas.many_types(rng, count), ONE_ELEMENT)
    for more in (1, 1, 2, 16):
        yield job_case("big files", schemas.many_steps(rng, MOST_STEPS + more), b"")
    for tag in range(5):
        file = without_end(schemas.many_types(rng, MOST_TYPES)) + bytes([TYPE, tag, 1])
        yield job_case("big files", file, b"")


def with_length(start, length, filler=0):
    return start + bytes([filler]) * (length - len(start))


def schema_size_cases():
    """Schema files empty, the longest, and of 16,384 bytes and more."""
    longest, tags = schemas.spread_longest(), range(MOST_TAGS)
    for levels in (3, MOST_LEVELS, MOST_LEVELS + 1):
        yield f"longest-{levels}", longest, b"".join(nested(tags, levels)) + END
    events = opened(0, 2) + closed(2, 0) + END
    types = bytes([TAGS, 1]) + bytes([TYPE, 0, 1]) * (SCHEMA_BYTES // 3)
    r, most = samples.R, SCHEMA_BYTES
    for name, file in [
            ("empty", b""),
            (f"{LONGEST_FILE + 1}", longest + bytes([DONE])),
            (f"{most}", with_length(r, most)),
            (f"{most + 1}", with_length(r, most + 1)),
            ("40000", with_length(r, 40000, DONE)),
            (f"types-{most}", types[:most]),
            (f"types-{most + 1}", types),
            (f"done-{most + 1}", with_length(r[:-1], most, FINAL) + bytes([DONE]))]:
        yield f"schema-{name}", file, events


def row(file, a, count):
    """A tree of the first root type with so many children of type a, and its document."""
    tree = Tree(judge(file).meaning.schema.roots[0], (Tree(a),) * count)
    return tree, document(judge(file).meaning, tree)


def low_row():
    """The last type in rows 62 levels down."""
    last, most = MOST_TYPES - 1, EVENT_BYTES // 4 - MOST_LEVELS
    tree = Tree(last, (Tree(last),) * (most + 1))
    for _ in range(MOST_LEVELS - 3):
        tree = Tree(last, (tree,))
    return tree, document(judge(schemas.LAST_TYPE).meaning, tree)


def event_size_cases():
    """Events of 32,768 bytes and more, and `too long` before all else."""
    r, nest, bad, most = samples.R, samples.NESTED, samples.R[:-1], EVENT_BYTES
    count = most // 4 - 2
    tree, data = low_row()
    yield f"events-{len(data)}-low", schemas.LAST_TYPE, data, tree
    boots = Tree(0, (Tree(1),) * 4000 + (Tree(2),) + (Tree(3),) * (count - 4001))
    data = document(judge(r).meaning, boots)
    yield f"events-{len(data)}", r, data, boots
    tree, data = row(nest, 0, count)
    yield f"events-{most}-after", nest, data + END * 3, tree
    tree, data = row(nest, 0, count + 1)
    yield f"events-{most}-cut", nest, data[:-1], tree
    yield f"events-{most}-finish", nest, data[:-3] + END * 2, tree
    yield f"events-{most}-early", r, with_length(leaves(0), most)
    yield f"events-{most}-bad", bad, bytes(most)
    yield f"events-{most + 1}", nest, data
    yield f"events-{most + 1}-bad", bad, bytes(most + 1)
    yield f"events-{most + 1}-empty", b"", with_length(opened(0), most + 1)
    yield f"events-{most + 1}-competing", samples.TWO_B, bytes(most + 1)
    yield f"events-{MOST_LENGTH}", r, with_length(opened(0), MOST_LENGTH)


def named_size_cases():
    """The cases of sizes, each with a name."""
    for name, *job in [*schema_size_cases(), *event_size_cases()]:
        yield name, job_case("sizes", *job)


def size_cases():
    return (case for _, case in named_size_cases())


PARTS = 4


def random_part(part):
    """One of the parts into which the random jobs are divided, each with schemas of its own."""
    return random_cases(f"schema {part}", 1160 // PARTS, 560 // PARTS, 340 // PARTS)


RANDOM_CASES = tuple(partial(random_part, part) for part in range(PARTS))
OTHER_CASES = (sample_cases, damaged_cases, deep_cases, big_file_cases, size_cases)
