"""Cases of what would have been taken where an event file stops (N), by hand: with known answers,
at every place of some files, at every depth, with the widest lists, under refused files and under
values made up."""

from functools import lru_cache

from . import damage, event_lists, expressions, nil, roots, samples, schemas, unused, wall
from .case import expected_case
from .cases_events import STRAY, boots, last_level, most_openings
from .cases_under_nil import flags
from .cases_under_roots import SIX, SIX_PUTS
from .cases_values import puts_of
from .event_file import END, closed, leaves, nested, opened, route
from .expected import held_to_documents
from .judged import judge, read
from .listed import Listed
from .meaning import Wrong
from .reduce import reduced
from .roots import any_of
from .schema_file import Schema, leaf, write
from .tables import (BYTE, CLOSE, DONE, FINISH, MOST_LENGTH, MOST_LEVELS, MOST_ROOTS, MOST_TAGS,
                     OPEN, OPEN_NIL, PROGRAM_TYPES)

# 32 tags of one type each, and of two each that the kind tells apart: 64 openings in the root.
EVERY_TAG = write(Schema(MOST_TAGS, [nil.nillable(any_of(0, *range(MOST_TAGS))),
                                     *(nil.either(tag) for tag in range(1, MOST_TAGS))]))
EVERY_TYPE = write(Schema(MOST_TAGS, [
    any_of(0, *range(2 * MOST_TAGS)), *(leaf(tag) for tag in range(1, MOST_TAGS)),
    *(nil.only_nil(tag) for tag in range(MOST_TAGS))]))
# Eight roots of either kind.
EIGHT_ROOTS = write(Schema(MOST_ROOTS, [nil.either(tag) for tag in range(MOST_ROOTS)],
                           tuple(range(MOST_ROOTS))))
# 64 types of one tag, each in the one before.
LINE = schemas.line_of_types(63, False, [0])


@lru_cache(None)
def documents(file):
    """The listed documents of an accepted file."""
    return Listed(read(file).meaning)


def held_case(name, file, data):
    """The case under an accepted file; its answer is held to documents."""
    held_to_documents(read(file), data, documents(file))
    return expected_case(name, file, data)


def known_line(number, place, *lists):
    """The line of an answer under an accepted file."""
    parts = [f"accepted | {number} at {place} |", *(f"{part} |".strip() for part in lists), "0"]
    return " ".join(parts) + "\n"


# Files, events and the answers: number, place, open types, openings and ends.
KNOWN = [(file, route(words), answer) for file, words, answer in (
    (samples.R, "", (19, 0, "", "o0", "")),
    (samples.R, "/0", (15, 0, "", "o0", "")),
    (samples.R, "f", (18, 0, "", "o0", "")),
    (samples.R, "1", (13, 0, "", "o0", "")),
    (samples.R, "0 /0", (17, 2, "0", "o1 o2", "")),
    (samples.R, "0 3", (12, 2, "0", "o1 o2", "")),
    (samples.R, "0 /1", (16, 2, "0", "o1 o2", "")),
    (samples.R, "0 f", (18, 2, "0", "o1 o2", "")),
    (samples.R, "0 1 1", (13, 4, "0 1", "", "close")),
    (samples.R, "0 1 /1 2 /2 2", (13, 10, "0", "o1", "close")),
    (samples.R, "0 2 /2 1", (19, 8, "0 3", "", "close")),
    (samples.R, "0 2 /2 /0", (19, 8, "", "", "finish")),
    (samples.R, "0 2 /2 /0 0", (13, 8, "", "", "finish")),
    (samples.R, "0 2 /2 /0 f", (0, 9, "", "", "")),
    (samples.R, "0 2 /2 /0 f 0", (11, 9, "", "", "")),
    (samples.NESTED, "0 " * 65, (14, 128, "0 " * 63 + "0", "", "close")),
    (nil.NEEDS_ITSELF, "0 " * 64 + "/0", (17, 128, "0 " * 63 + "0", "", "")),
    (nil.NIL_ROOT, "0", (13, 0, "", "n0", "")),
    (nil.ROOTS_BY_KIND, "1", (13, 0, "", "o0 n0", "")),
    (nil.BY_KIND, "0 n1 1", (13, 4, "0 2", "", "close")),
    (nil.RACKS, "0 2", (13, 2, "0", "o1 n1 n2", "")),
    (nil.RACKS, "0 1 /1", (17, 4, "0 1", "o3", "")),
    (nil.RACKS, "0 n2 /2 n1 3", (13, 8, "0 3", "", "close")),
    (nil.RACKS, "0 n2 /2 n2", (13, 6, "0", "o1 n1", "close")),
    (roots.STOCK_AND_PRICES, "2", (13, 0, "", "o0 o1", "")),
    (roots.EIGHT, "0", (13, 0, "", " ".join(f"o{tag}" for tag in range(24, 32)), "")),
    (EIGHT_ROOTS, "n8", (12, 0, "", " ".join(f"o{tag} n{tag}" for tag in range(8)), "")),
    (EVERY_TAG, "0 f", (18, 2, "0", " ".join(f"o{tag} n{tag}" for tag in range(32)), "close")))]


def known_cases():
    """Each must come out as it says."""
    for file, data, answer in [*KNOWN, (wall.SCHEMA, wall.EVENTS, (13, 4210, "0 1 2", "o3 n3",
                                                                   "close"))]:
        case = held_case("known", file, data)
        if case.text != known_line(*answer):
            raise Wrong(f"{answer} is due: {case.text}")
        yield case
    yield held_case("known", wall.SCHEMA, wall.VALID)


# At every place.

@lru_cache(None)
def routes():
    """Accepted schemas, their unused types dropped, with a valid document each."""
    by_hand = [*event_lists.ROUTES, *(some[:2] for some in roots.ROUTES + nil.ROUTES),
               *((file, route(words)) for file, words in expressions.ROUTES)]
    return list(dict.fromkeys((reduced(file), data) for file, data in by_hand))


def cut_cases():
    """Every length of a valid file."""
    for file, data in routes():
        for some in [*damage.every_cut(data), data]:
            yield held_case("cut", file, some)


# Some of them, with nil elements, several roots and expressions.
SOME = ((samples.R, "0 1 /1 2 /2 1 /1 /0 f"), (roots.STOCK_AND_PRICES, "1 3 /3 2 /2 /1 f"),
        (nil.BY_KIND, "0 1 /1 n1 /1 1 /1 /0 f"), (nil.NEEDS_A_CHILD, "0 1 2 /2 /1 /0 f"),
        (nil.RACKS, "0 1 3 /3 /1 n2 /2 n1 /1 /0 f"), (nil.ROOTS_BELOW_BY_KIND, "0 0 n0 /0 /0 /0 f"),
        (expressions.BOOT_WALL, "0 1 2 /2 3 /3 /1 /0 f"))


def every_event_cases():
    """At every event of a valid file every kind of event put in."""
    for file, words in SOME:
        for _, some in damage.every_event_put_in(route(words), read(file).value):
            yield held_case("every event", file, some)


def stray_cases():
    """At every place of some files a byte put in, changed, left out or given twice."""
    for (file, words), values in zip(SOME, (STRAY, (0, OPEN), (0, OPEN_NIL), (CLOSE, BYTE),
                                            (OPEN_NIL, FINISH), (OPEN, OPEN_NIL), (BYTE,))):
        for _, some in damage.every_byte_strayed(route(words), values):
            yield expected_case("stray bytes", file, some)


def after_finish_cases():
    """Bytes after the finish: an event gets 11, any other byte 19; nothing is listed."""
    for file, words in SOME:
        for tail in (END, opened(0), opened(0, kind=OPEN_NIL), closed(0), opened(BYTE), END * 2,
                     bytes([OPEN]), bytes([CLOSE]), bytes([OPEN_NIL]), b"\0", bytes([DONE, 0]),
                     route(words)):
            yield expected_case("after the finish", file, route(words) + tail)


def after_root_cases():
    """Every event after the root's closing: only the finish is listed."""
    for file, words in SOME:
        data = route(words)[:-1]
        for tag in range(read(file).value.held["tags"] + 1):
            for tail in (opened(tag), opened(tag, kind=OPEN_NIL), closed(tag)):
                yield expected_case("after the root", file, data + tail + END)


# At every depth.

# Schemas whose elements nest without end, with the tags on the way down and the tags that may be
# asked for; then one that ends at 64 levels.
NESTING = ((samples.NESTED, [0], [0, 1]), (schemas.IN_TURN, [0, 1], [0, 1]),
           (schemas.THREE_TYPES, [0], [0, 1]), (nil.NILLABLE_NESTED, [0], [0]),
           (nil.NEEDS_ITSELF, [0], [0]), (nil.ROOTS_BELOW_BY_KIND, [0], [0]),
           (roots.IN_TURN, [1, 0], [0, 1]), (LINE, [0], [0]))


def depth_cases():
    """Every depth, with no event after it and with a finish; near the first and the last level with
    every kind of event."""
    edges = (0, 1, 2, MOST_LEVELS - 2, MOST_LEVELS - 1, MOST_LEVELS)
    for file, tags, asked in NESTING:
        for levels in range(MOST_LEVELS + 1):
            down, up = nested(tags, levels)
            tails = [b"", END] if levels not in edges else [
                b"", END, bytes([OPEN]), b"\0", opened(BYTE), up, up[:2] + opened(0), up + END,
                *(some for tag in asked for some in (opened(tag), opened(tag, kind=OPEN_NIL),
                                                     closed(tag), leaves(tag) + opened(BYTE)))]
            for tail in tails:
                yield expected_case("depths", file, down + tail)


def nil_depth_cases():
    """A nil element at every depth: only its closing is listed."""
    for file in (nil.NILLABLE_NESTED, nil.NEEDS_ITSELF):
        for levels in range(MOST_LEVELS):
            data = nested([0], levels)[0] + opened(0, kind=OPEN_NIL)
            for tail in (b"", opened(0, kind=OPEN_NIL), closed(0)):
                yield expected_case("nil depths", file, data + tail)


# The widest lists.

def wide_cases():
    """Up to 64 openings; 64 types; one tag and 32; eight roots; the longest files."""
    for file in (EVERY_TAG, EVERY_TYPE):
        for tag in (0, 1, MOST_TAGS - 1):
            for kind in (OPEN, OPEN_NIL):
                for tail in (b"", END, closed(tag), closed(tag) + END, opened(tag), opened(BYTE)):
                    yield expected_case("widest", file, opened(0) + opened(tag, kind=kind) + tail)
        for data in (b"", END, opened(0), opened(0, kind=OPEN_NIL), opened(1), leaves(0) + END * 2,
                     nested([0], MOST_LEVELS)[0], nested([0], MOST_LEVELS + 1)[0]):
            yield expected_case("widest", file, data)
    for tag in range(MOST_ROOTS + 1):
        for tail in (b"", opened(0), closed(tag), closed(tag) + opened(tag)):
            for kind in (OPEN, OPEN_NIL):
                yield expected_case("widest", EIGHT_ROOTS, opened(tag, kind=kind) + tail)
    for file in (*unused.LONGEST, nil.longest_file()):
        for data in (b"", opened(0), opened(0, 1), leaves(0)):
            yield expected_case("widest", file, data)


def large_cases():
    """More openings than the program's buffer has types, and as many as 65,535 bytes hold: 64
    levels, of which the last is closed and opened on and on. A long valid file."""
    for openings in (PROGRAM_TYPES + 1, most_openings(MOST_LENGTH)):
        data, tree = last_level(openings)
        for tail in (b"", opened(0)):
            yield expected_case("large", samples.NESTED, data + tail, tree=tree)
    tree, data = boots(12000, 4000)
    yield expected_case("large", samples.R, data + END, tree=tree)
    yield expected_case("large", samples.R, data[:-2] + opened(2), tree=tree)


# Under no schema, and under values made up.

def no_schema_cases():
    """Under a refused file: 19 where the first bytes are no event, else 10 at 0; nothing listed."""
    data = samples.R_EVENTS
    for file in (b"", samples.TWO_B, samples.SIXTH, samples.NO_TREE_AT_ROOT, samples.NO_D,
                 samples.R[:-1], samples.R + bytes([DONE]), samples.TAGS_OUT_OF_RANGE,
                 nil.EITHER[:-1], expressions.TWO_B):
        for events in (b"", data, END, opened(0), opened(0, kind=OPEN_NIL), closed(BYTE),
                       bytes([OPEN]), b"\0", b"\0" + data):
            yield expected_case("no schema", file, events)


def stated(file):
    """The file and no puts; for one that is refused no file and puts that state its schema."""
    judged = read(file)
    return (file, []) if judged.accepted else (b"", puts_of(judged.meaning.schema))


def put_cases(name, file, puts, words):
    """Event files by these words under the schema that a file states, with these puts."""
    by, first = stated(file)
    for some in words:
        yield expected_case(name, by, route(some), [*first, *puts])


def limit_cases():
    """Each limit of a value met and passed, before a document and inside it."""
    for limits, some in (
            (damage.limit_puts, ((samples.R, "0 1 /1 3"), (schemas.TWO_ENDS, "0 1 /1 1 1"),
                                 (nil.NEEDS_A_CHILD, "0 n1 2"), (schemas.LAST_STATE, "0 1 /1 0"))),
            (damage.root_puts, ((SIX, "4 4"), (roots.EIGHT, "31 1 /1 31"),
                                (roots.ALSO_BELOW, "1 0")))):
        for file, words in some:
            for put in limits(judge(file).value):
                yield from put_cases("limits", file, [put], ("", words))


def made_up_cases():
    """Roots and types of one tag, of which the smallest is given, without a tree, or twice; states
    that no longer end; types nillable or not; a competing schema stated by puts."""
    for puts in SIX_PUTS:
        yield from put_cases("made up", SIX, puts, ("", "1", "1 1", "4 /4", "n1"))
    for puts in damage.COMPETITION_PUTS:
        yield from put_cases("made up", schemas.TWO_ENDS, [("tag", 1, 2), *puts],
                             ("", "0 1", "0 1 /1 1", "0 2"))
    for file in (samples.TWO_B, samples.SIXTH, samples.NO_D, samples.NO_TREE_AT_ROOT):
        types = judge(file).meaning.types
        for puts in ([], *([("accepting", 0, a)] for a in types), *(flags(a) for a in types)):
            yield from put_cases("made up", file, puts,
                                 ("", "0", "0 1", "n0", "0 n1 /1", "0 1 /1 2 /2"))
    for file in (nil.BY_KIND, nil.NEEDS_A_CHILD, nil.RACKS):
        for a in range(3):
            for puts in ([("accepting", 0, a)], flags(a, number=0), flags(a, number=BYTE),
                         [("accepting", 0, a), *flags(a, number=0)]):
                yield from put_cases("made up", file, puts,
                                     ("", "0", "n0", "0 1", "0 n1", "0 1 /1", "0 n1 /1"))


CASES = (known_cases, cut_cases, every_event_cases, stray_cases, after_finish_cases,
         after_root_cases)
OTHER_CASES = (depth_cases, nil_depth_cases, wide_cases, large_cases, no_schema_cases, limit_cases,
               made_up_cases)
