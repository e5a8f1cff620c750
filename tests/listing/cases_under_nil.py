"""Cases under schemas with nillable types, by hand and at random: lists of calls (C), event files
(E) and jobs (J); and values made up (C, V), the flags of nillable types among them."""

import random
from itertools import chain, combinations

from . import damage, nil, nil_answers, samples, schemas
from .case import event_case, job_case, value_case
from .cases_calls import inner_puts, starter, walked
from .cases_events import PLENTY
from .cases_under_roots import (cases_of_documents, random_event_files, random_jobs, random_walk,
                                values_at_random)
from .cases_values import ROOM, made_up
from .event_file import (END, calls_of, closed, count_openings, document, leaves, nested, opened,
                         route)
from .judged import judge
from .listed import Listed
from .meaning import Tree, Wrong
from .roots import any_of
from .schema_file import Schema, read, write
from .tables import (BYTE, CLOSE, COMPETITION, EVENT_BYTES, FINISH, MOST_LEVELS, MOST_TYPES,
                     NO_TREE, OPEN_NIL, PROGRAM_TYPES, TAKEN, WORD)
from .value import NONE, START


# By hand.

def document_cases():
    """Documents with nil elements; openings of both kinds among the calls refused on the way."""
    return cases_of_documents("nil", nil.FILES, nil.ROUTES)


def answer_cases():
    """Lists of calls with known answers, which the listed documents give too, and event files and
    jobs of each list as far as its first refusal."""
    start, lists = starter("nil", "answers"), list(nil_answers.LONG_ANSWERS)
    for shown, some in nil_answers.ANSWERS.items():
        if not any([held_to_documents(*one) for one in some]):
            raise Wrong(f"no list is held to all documents: {shown}")
        lists += some
    for file, words, answers in lists:
        yield held_to(start(file).route(words), answers).case()
        yield event_case("nil", file, route(words), PLENTY)
        yield job_case("nil", file, route(words))


def held_to(made, answers):
    """The list of calls, if it has these answers."""
    if " ".join(made.answers) != answers:
        raise Wrong(f"{answers} are due: {made.line()}")
    return made


def held_to_documents(file, words, answers):
    """Compares the answers with the listed documents: what is taken begins one of them, with the
    types that it has, and what is refused none. Gives whether these are all documents."""
    listed, taken = Listed(judge(file).meaning), b""
    for event, answer in zip(calls_of(route(words)), answers.split(), strict=True):
        taken = listed.check_call(taken, event, answer)
        if taken not in listed.beginnings:
            raise Wrong(f"events taken that begin no listed document: {words}")
    return listed.complete


def event_file_cases():
    """Every kind of event at every place of a small document; every cut; every buffer up to one
    byte more than needed."""
    for _, some in damage.every_event_put_in(route("n0 /0 f"), judge(nil.NIL_ROOT).value):
        yield event_case("nil", nil.NIL_ROOT, some, PLENTY)
    for file, data in ((nil.NIL_ROOT, route("n0 /0 f")), (nil.BY_KIND, route("0 1 /1 n1 /1 /0 f"))):
        for some in damage.every_cut(data):
            yield event_case("nil", file, some, count_openings(data))
        for room in range(count_openings(data) + 2):
            yield event_case("nil", file, data, room)
    # 23 without its operand, with others, and bytes beside it; 20 comes last.
    for more in ([OPEN_NIL], [OPEN_NIL, OPEN_NIL], [OPEN_NIL, BYTE], [OPEN_NIL + 1, 1],
                 [OPEN_NIL ^ 0x80, 1], [OPEN_NIL, 0], [OPEN_NIL, 1, OPEN_NIL], [OPEN_NIL, FINISH],
                 [OPEN_NIL, CLOSE]):
        for room in (1, 2):
            yield event_case("nil", nil.BY_KIND, opened(0) + bytes(more), room)
    # Under a refused file.
    start = starter("nil", "no schema")
    for file in (b"", write(nil.BY_HAND[0][0]), write(nil.TREELESS[0]), nil.EITHER[:-1]):
        yield event_case("nil", file, leaves(0, kind=OPEN_NIL) + END, 1)
        yield start(file).route("n0 n255 /0 f").case()


def stray_cases():
    """At every place of some files 23 or the byte after it put in, or in the place of a byte; a
    byte left out or given twice."""
    for file, words in ((nil.NEEDS_A_CHILD, "0 n1 /1 /0 f"), (nil.BY_KIND, "0 1 /1 n1 /1 /0 f"),
                        (nil.RACKS_BY_TEXT, "0 n1 /1 1 3 /3 /1 n2 /2 n1 /1 /0 f")):
        for more, some in damage.every_byte_strayed(route(words), [OPEN_NIL, OPEN_NIL + 1]):
            yield event_case("nil, stray bytes", file, some, count_openings(route(words)) + more)


# Schemas whose plain elements of tag 0 nest without end, with the tag of their nil elements; in the
# last types 0 and 1 stand in type 0, and type 1 is nil alone.
NESTING = ((nil.NILLABLE_NESTED, 0), (nil.NEEDS_ITSELF, 0),
           (write(Schema(2, [any_of(0, 0, 1), nil.only_nil(1)])), 1))


def level_cases():
    """63 and 64 levels, the last one nil, and a 65th opening of either kind, the nil ones by value
    and lent; inside a nil element 13 comes before 14."""
    start, most = starter("nil", "levels"), MOST_LEVELS
    for file, last in NESTING:
        for levels in damage.around(most):
            down, up = nested([0], levels - 1)
            data = down + leaves(last, kind=OPEN_NIL) + up + END
            for room in (levels - 1, levels):
                yield event_case("nil", file, data, room)
            yield job_case("nil", file, data)
        made = start(file).events(nested([0], most)[0]).refused(2).nil_refused()
        made.route(f"/0 n{last}").refused().nil_refused()
        yield made.route(f"/{last} /0 /0 0 n0 n1").case()


def made_up_level_cases():
    """A made-up depth of 64: 14, with no states in the innermost element 13, after a finish 11, at
    a depth of 65 10."""
    start, most = starter("nil made up", "levels"), MOST_LEVELS
    for file, _ in NESTING:
        made = start(file).puts(("depth", most), ("level set", START, most - 1))
        for put in (("level set", NONE, most - 1), ("finished", 1), ("depth", most + 1)):
            made.refused().nil_refused().puts(put)
        yield made.refused().nil_refused().case()


def large_cases():
    """A root with as many nil children as 32,768 bytes hold, as a job and with the types' buffer
    exact and short by one; one child more and no end."""
    count = EVENT_BYTES // 4 - 2
    tree = Tree(0, (Tree(1, (), OPEN_NIL),) * count)
    data = document(judge(nil.ONLY_NIL).meaning, tree)
    more = data[:-3] + opened(1, kind=OPEN_NIL) + closed(1)
    assert len(data) == EVENT_BYTES - 3 and len(more) == EVENT_BYTES - 2
    yield job_case("nil", nil.ONLY_NIL, data, tree)
    for room in (count, count + 1):
        yield event_case("nil", nil.ONLY_NIL, data, room, tree)
    yield event_case("nil", nil.ONLY_NIL, more, PROGRAM_TYPES, tree)


# At random.

def random_event_cases():
    """Event files, valid and damaged, each answer held to the listed documents."""
    rng = random.Random("event files under nillable types")
    for number in range(75):
        yield from random_event_files("nil", rng, *nil.random_accepted(rng, number),
                                      damage.NIL_DAMAGES)


def random_call_cases():
    """Walks, each answer held to the listed documents."""
    start, rng = starter("nil", "at random"), random.Random("walks under nillable types")
    for number in range(150):
        yield random_walk(start, rng, *nil.random_accepted(rng, number))


def random_job_cases():
    """Jobs under random schemas by states and by expressions."""
    return random_jobs("nil", "nillable types", {TAKEN: 100, COMPETITION: 40, NO_TREE: 10},
                       nil.random_schema, nil.is_wanted, damage.NIL_WAYS)


# Values made up.

def made_up_answer_cases():
    """Lists of calls with entries put between them and known answers; and with the sets that the
    root element keeps after each opening of a child."""
    start = starter("nil made up", "answers")
    for file, items, answers in nil_answers.MADE_UP_ANSWERS:
        made = start(file)
        for part in single(items):
            put_or_called(made, part)
        yield held_to(made, answers).case()
    start = starter("nil, kept sets")
    for file, items, sets in nil_answers.KEPT:
        made, kept = start(file), []
        for part in single(items):
            put_or_called(made, part)
            if made.reading.depth() == 2:
                kept.append(made.reading.value.held["level set"][0])
        if kept != sets or any(text[0] == "r" for text in made.answers):
            raise Wrong(f"{sets} are to be kept, not {kept}: {made.line()}")
        yield made.case()


def single(items):
    """The puts among the items, and the words of routes one by one."""
    for item in items:
        yield from item.split() if isinstance(item, str) else [item]


def put_or_called(made, part):
    return made.route(part) if isinstance(part, str) else made.puts(part)


def flag_cases():
    """Document 01's samples with every set of their types nillable."""
    for file in (samples.SIXTH, samples.NO_D, samples.NO_TREE_AT_ROOT, schemas.DEAD_COMPETITOR):
        types = judge(file).meaning.types
        for some in chain.from_iterable(combinations(types, n) for n in range(1, len(types) + 1)):
            by, puts = made_up(file)
            yield value_case("nil made up", by, puts + flags(*some), ROOM)


def flags(*types, number=1):
    return [("nillable", number, a) for a in types]


def value_cases():
    """Flags of other numbers, taken back, of types that are not used and past the table; with other
    entries that matter to them."""
    past = (len(read(nil.BY_KIND).blocks), MOST_TYPES - 1, MOST_TYPES, BYTE + 1, WORD)
    for puts in (flags(0), flags(1), flags(2), flags(1, number=2), flags(1, number=BYTE),
                 flags(2, number=0), flags(0, 1, 2), flags(0, 1, 2, number=0), flags(*past),
                 flags(1) + flags(1, number=0), flags(1) + [("accepting", 0, 1)],
                 [("accepting", 1, 2)], [("accepting", 0, 1)], [("tag", 0, 1)], [("by", 1, 1)],
                 [("accepting", 0, 0)], flags(0) + [("accepting", 0, 0)], [("types", 2, 0)],
                 flags(3) + [("types", 4, 0)], flags(3) + [("types", 4, 0), ("states", 1, 3)],
                 flags(3) + [("types", 4, 0), ("states", 1, 3), ("root", 3, 0)],
                 [("root", 2, 0)], [("root", 1, 1), ("root", 2, 0), ("roots", 2, 0)],
                 flags(1) + [("root", 1, 1), ("root", 2, 0), ("roots", 2, 0)]):
        yield value_case("nil made up", nil.BY_KIND, puts, ROOM)


def inner_cases():
    """Every innermost type with every kind of set, under calls of both kinds."""
    start = starter("nil made up", "innermost")
    for made in inner_puts(start, (nil.NEEDS_A_CHILD, nil.NIL_FIRST, nil.NEEDS_ITSELF)):
        yield made.case()


def random_value_cases():
    """Accepted random schemas, flags and other entries changed at random; readings in which sets
    are emptied and put."""
    rng = random.Random("values of nillable types")
    some = (nil.random_accepted(rng, number) for number in range(150))
    return values_at_random("nil", rng, some, damage.NIL_PUTS, change_reading, short_walk)


def short_walk(rng, made):
    return walked(made, rng, rng.choice((0, 4, 8)), 0.1)


def change_reading(rng, made):
    """Puts a fresh reading, or an innermost type with no states, with state 0 or with any, and
    closes it in half of the cases."""
    held = made.reading.schema_value().held
    if rng.random() < 0.4:
        made.puts(("depth", 0), ("rooted", 0), ("finished", 0))
        return
    depth, a = rng.choice((1, 2, MOST_LEVELS)), rng.randrange(held["types"])
    some = rng.choice((NONE, NONE, START, rng.randrange(1 << held["states"][a])))
    made.puts(("finished", 0), ("depth", depth), ("level type", a, depth - 1),
              ("level set", some, depth - 1))
    if rng.random() < 0.5:
        made.give(CLOSE, held["tag"][a])


CASES = (document_cases, answer_cases, event_file_cases, stray_cases, level_cases, large_cases,
         random_event_cases, random_call_cases, random_job_cases, made_up_answer_cases, flag_cases,
         value_cases, inner_cases, made_up_level_cases, random_value_cases)
