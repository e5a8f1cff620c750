"""Cases of event files with the types' buffer (E)."""

import random

from . import damage, samples, schemas
from .case import event_case
from .event_file import (END, closed, count_openings, document, event_at, leaves, nested, opened,
                         walked)
from .event_lists import FILES, ROUTES, random_document
from .judged import judge
from .listed import Listed
from .meaning import Tree, Wrong
from .schema_file import write
from .tables import (BYTE, CLOSE, DONE, EVENT_BYTES, FINISH, MOST_LENGTH, MOST_LEVELS, MOST_TAGS,
                     NO_EVENT, OPEN, OUTSIDE_LIMITS, PROGRAM_TYPES)


PLENTY = 100


def sample_cases():
    """Document 01's samples; each must come out as it says."""
    with_room = [(file, events, PROGRAM_TYPES, *rest)
                 for file, events, *rest in samples.DOCUMENTS]
    for file, events, room, number, place, types in with_room + samples.BUFFERS:
        case = event_case("samples", file, events, room)
        if case.text != samples.event_line(samples.ANSWERS[file], number, place, types):
            raise Wrong(f"a sample of document 01 comes out differently: {case.text}")
        yield case


def cut_cases():
    """Every length of a valid file, with the buffer as long as its openings."""
    for file, data in ROUTES:
        for some in [*damage.every_cut(data), data]:
            yield event_case("cut", file, some, count_openings(data))


def buffer_cases():
    """A valid file, one that ends early and ones refused late, with every buffer up to two bytes
    more than needed."""
    for file, data in ROUTES:
        for some in (data, data[:-1], data + END, data[:-2] + bytes([BYTE]) + END):
            for room in [*range(count_openings(data) + 3), PLENTY, BYTE, BYTE + 1, BYTE + 2]:
                yield event_case("buffers", file, some, room)


def after_finish_cases():
    """Bytes after the finish: an event gets 11 whatever its tag, any other byte 19."""
    tails = [END, *map(opened, (0, 1, BYTE)), *map(closed, (0, BYTE)), END * 2, END + b"\0",
             b"\0" + END, opened(0) + END, bytes([OPEN, FINISH]), bytes([CLOSE, OPEN]), b"\n\n",
             leaves(0) + END, *(bytes([byte]) for byte in (OPEN, CLOSE, DONE, *damage.NOT_PLAIN))]
    for file, data in ROUTES[:7]:
        openings = count_openings(data)
        for number, tail in enumerate(tails):
            yield event_case("after the finish", file, data + tail,
                             openings + number % 2)
        yield event_case("after the finish", file, data + data, 2 * openings)


STRAY = (0, OPEN - 1, OPEN, CLOSE, CLOSE + 1, FINISH, OPEN ^ 0x80, BYTE)


def stray_cases():
    """At every place of some files a byte put in, changed, left out or given twice."""
    for file, data in (ROUTES[0], ROUTES[2], ROUTES[5], ROUTES[7]):
        for more, some in damage.every_byte_strayed(data, STRAY):
            yield event_case("stray bytes", file, some, count_openings(data) + more)


def every_byte_cases():
    """Every byte as an event, at the start, inside and after the finish, and as a tag."""
    file, data = ROUTES[0]
    for byte in range(BYTE + 1):
        for some in (bytes([byte]), damage.byte_put(data, 2, byte), data + bytes([byte]),
                     data[:6] + bytes([OPEN, byte]) + data[8:],
                     data[:8] + bytes([CLOSE, byte]) + data[10:]):
            yield event_case("every byte", file, some, 4)


def every_event_cases():
    """At every event of a valid file every kind of event put in, with the buffer full there or
    not."""
    for file, data in ROUTES:
        for before, some in damage.every_event_put_in(data, judge(file).value):
            for room in (count_openings(before), PLENTY):
                yield event_case("every event", file, some, room)


def level_cases():
    """Levels 63 to 66; at the 65th opening 11, 12 and 13 come before 14, and 14 before 20."""
    name, most = "levels", MOST_LEVELS
    for levels in (*damage.around(most), most + 2):
        for room in (0, 1, most - 2, *damage.around(most), most + 2, PLENTY):
            for file, tags in ((samples.NESTED, [0]), (schemas.IN_TURN, [0, 1])):
                yield event_case(name, file, b"".join(nested(tags, levels)) + END, room)
            yield event_case(name, samples.NESTED, nested([0], levels)[0], room)
    events = [*(opened(tag) for tag in (0, 1, 2, 3, BYTE)), *map(closed, (0, 1, 3)), END, b"\0",
              bytes([OPEN])]
    for room in damage.around(most):
        for event in events:
            for file, tags in ((schemas.IN_TURN, [0, 1]), (schemas.THREE_TYPES, [0])):
                yield event_case(name, file, nested(tags, most)[0] + event + END, room)
        yield event_case(name, schemas.THREE_TYPES,
                         nested([0], most - 1)[0] + leaves(1) + opened(0) + END, room)
    # Up from level 64 and down again.
    down, up = nested([0], most)
    for levels in (1, 2, most - 1):
        data = down + b"".join(reversed(nested([0], levels)))
        yield event_case(name, samples.NESTED, data + up + END, most + levels)
        yield event_case(name, samples.NESTED, data + opened(0), most + levels)
        yield event_case(name, samples.NESTED, data + up + END, most + levels - 1)


def no_schema_cases():
    """Under a refused schema file: 19 where the first bytes are no event, else 10 at 0."""
    accepted, data = ROUTES[0]
    for file in (b"", samples.TWO_B, samples.SIXTH, samples.NO_TREE_AT_ROOT, accepted[:-1],
                 accepted + bytes([DONE]), samples.TAGS_OUT_OF_RANGE):
        for events in (b"", data, END, opened(0), opened(BYTE), closed(0), bytes([OPEN]),
                       bytes([CLOSE]), b"\0", END + b"\0", opened(0) + b"\0", b"\xff",
                       b"\0" + data, b"\x20" + data):
            number = NO_EVENT if event_at(events, 0) is None else OUTSIDE_LIMITS
            for room in (0, 1, 4):
                case = event_case("no schema", file, events, room)
                if case.answers != (number,):
                    raise Wrong(f"{number} is due under a refused schema: {case.text}")
                yield case


def boots(before, after):
    """R's tree with so many boots before the sale mark and after it, and its document without
    the finish."""
    tree = Tree(0, (Tree(1),) * before + (Tree(2),) + (Tree(3),) * after)
    return tree, document(judge(samples.R).meaning, tree)[:-1]


def large_cases():
    """Files about as long as the program takes, and longer ones."""
    most, room = EVENT_BYTES // 4 - 3, PROGRAM_TYPES     # so many boots and the mark fit
    tree, data = boots(4000, most - 4000)
    assert len(data + END) == EVENT_BYTES - 3
    for some, buffer in ((data + END, most + 1), (data + END, most + 2), (data, most + 2),
                         *((data + END + more, most + 3) for more in
                           (END, bytes([OPEN]), opened(0), closed(0) + END))):
        yield event_case("large", samples.R, some, buffer, tree)
    # No finish; a finish inside; a second opening of tag 2; none of it.
    tree, data = boots(most + 1, 0)
    assert len(data) == EVENT_BYTES
    yield event_case("large", samples.R, data, room, tree)
    yield event_case("large", samples.R, data[:-6] + closed(0) + END, room, tree)
    tree, data = boots(1, most - 1)
    yield event_case("large", samples.R, data[:-2] + END, room, tree)
    yield event_case("large", samples.R, data[:-2] + opened(2) + END, room, tree)
    # Twice as long.
    tree, data = boots(16000, PROGRAM_TYPES - 16000 - 3)
    assert MOST_LENGTH - 2 == len(data + END)
    yield event_case("large", samples.R, data + END, room, tree)
    openings = most_openings(EVENT_BYTES)
    data, tree = last_level(openings)
    for some, room in ((data, PROGRAM_TYPES), (data, openings - 1),
                       (data + opened(0), PROGRAM_TYPES)):
        yield event_case("large", samples.NESTED, some, room, tree)


def most_openings(length):
    """The most openings that so many bytes have under NESTED."""
    down, _ = nested([0], MOST_LEVELS)
    return MOST_LEVELS + (length - len(down)) // 4


def last_level(openings):
    """So many openings under NESTED: 64 levels, of which the last is closed and opened on and on;
    and a tree whose document begins so."""
    last = openings - MOST_LEVELS
    data, tree = nested([0], MOST_LEVELS)[0], Tree(0, (Tree(0),) * (last + 1))
    for _ in range(MOST_LEVELS - 2):
        tree = Tree(0, (tree,))
    return data + (closed(0) + opened(0)) * last, tree


def large_schema_cases():
    """32 tags, 64 types, 32 states, 1,024 steps."""
    name, last = "large schemas", MOST_TAGS - 1
    for file in (write(schemas.full_steps()), schemas.dense_longest(last=False)):
        schema = judge(file).meaning.schema
        root = schema.blocks[schema.roots[0]].tag
        end = closed(root) + END
        for data in (opened(root) + leaves(0, 0, 0) + end, opened(root) + leaves(last),
                     opened(root, last + 1), opened(root) + leaves(5, 7) + end, opened(last),
                     opened(0)):
            yield event_case(name, file, data, 4)
    for m, n, early in ((2, 3, 0), (3, 3, 1), (14, 16, 1)):
        file = schemas.cycles(m, n, early)
        for some in range(20 if judge(file).accepted else 0):
            data = opened(0) + leaves(*[1] * some, 2) + closed(0) + END
            yield event_case(name, file, data, some + 2)
    for some in (0, 1, 2, *damage.around(last), 40):
        yield event_case(name, schemas.LAST_STATE,
                         opened(0) + leaves(*[1] * some) + closed(0) + END, PLENTY)


# At random.

def checked_case(name, file, data, room, listed):
    """The case, its answer held to the listed documents."""
    walk = walked(judge(file), data, room, None)
    listed.check(data, walk)
    return event_case(name, file, data, room)


def random_cases():
    """Under random schemas valid documents, short buffers, damaged documents."""
    rng = random.Random("event files under random schemas")
    for number in range(220):
        file, judged = schemas.accepted_in_turn(rng, number)
        listed = Listed(judged.meaning)
        for _ in range(3):
            data = random_document(rng, judged.meaning, (), (2, 6, 12, 20, 40), 200)
            most = count_openings(data)
            room = rng.choice((most, most + 1, most + 9, PLENTY))
            yield checked_case("random, valid", file, data, max(room, most), listed)
            yield checked_case("random, buffers", file, data, rng.randrange(most), listed)
            for _ in range(3):
                some = rng.choice(damage.EVENT_DAMAGES)(rng, judged, data)
                room = rng.choice((most, most, most + 1, most + 20, rng.randrange(most + 1)))
                yield checked_case("random, damaged", file, some, room, listed)


def hand_cases():
    """Under the schemas made by hand valid and damaged documents, and any bytes."""
    rng = random.Random("event files by hand")
    for file in FILES:
        judged = judge(file)
        for _ in range(20):
            data = random_document(rng, judged.meaning, (), (10, 40, 80), 400)
            yield event_case("random, valid", file, data, count_openings(data))
            some = rng.choice(damage.EVENT_DAMAGES)(rng, judged, data)
            yield event_case("random, damaged", file, some, count_openings(data) + 1)
            root = opened(judged.meaning.tag(judged.meaning.schema.roots[0]))[:rng.randrange(3)]
            yield event_case("random, any bytes", file, root + damage.any_bytes(rng, judged, data),
                             rng.choice((1, 2, 8)))


CASES = (sample_cases, cut_cases, buffer_cases, after_finish_cases, stray_cases, every_byte_cases,
         every_event_cases, level_cases, no_schema_cases, large_cases, large_schema_cases,
         random_cases, hand_cases)
