"""Cases of lists of calls (C), on fresh readings and on values made up."""

import random

from . import damage, samples, schemas
from .calls import Calls
from .case import calls_case
from .event_file import calls_of, leaves, opened, route
from .event_lists import FILES, ROUTES, every_event, random_event, walk
from .judged import judge
from .listed import Listed
from .meaning import Wrong
from .schema_file import Block, Schema, leaf, write
from .tables import (BYTE, CLOSE, MOST_LEVELS, MOST_STATES, MOST_STEPS, MOST_TAGS,
                     MOST_TYPES, NO_DOCUMENT, NO_EVENT, OPEN, OPEN_NIL, SET, WORD)


class Script(Calls):
    """A list of calls; runs of them are lent, runs are by value, as `rng` has it."""

    def __init__(self, name, file, rng):
        super().__init__(file)
        self.name, self.rng, self.lent, self.taken = name, rng, rng.random() < 0.5, b""

    def give(self, event, tag=0):
        if self.rng.random() < 0.4:
            self.lent = not self.lent
        self.call(event, tag, self.lent)

    def events(self, data):
        """The calls of a well-formed event file."""
        for event in calls_of(data):
            self.give(*event)
        return self

    def route(self, words):
        return self.events(route(words))

    def puts(self, *puts):
        for field, number, *index in puts:
            self.put(field, number, *index)
        return self

    def refused(self, times=1):
        """Every kind of call that is refused here, so many times."""
        for event in every_event(self.reading.schema_value()):
            if self.reading.refusal(*event) is not None:
                for _ in range(times):
                    self.give(*event)
        return self

    def nil_refused(self):
        """Every nil opening that is refused here, of each tag and of one past the count, by value
        and lent, whether or not some type is nillable."""
        for tag in range(self.reading.schema_value().held["tags"] + 1):
            if self.reading.refusal(OPEN_NIL, tag) is not None:
                for lent in (False, True):
                    self.call(OPEN_NIL, tag, lent)
        return self

    def some(self, tags=(0, 1)):
        """An opening and a closing of each of these tags, and a finish."""
        return self.events(leaves(*tags)).route("f")

    def schema(self):
        return judge(self.file).meaning.schema

    def root_tag(self):
        """The tag of the first root."""
        return self.schema().blocks[self.schema().roots[0]].tag

    def case(self):
        """The case; the events taken so far, if nothing was put, begin a valid document."""
        if self.reading.document:
            self.reading.document.check()
        return calls_case(self.name, self)


def starter(name, part=""):
    """A function that starts a list of this name under a schema file."""
    rng = random.Random(name + part)
    return lambda file: Script(name, file, rng)


# On fresh readings.

def sample_cases():
    """Document 01's samples; each must come out as it says."""
    start = starter("samples")
    for file, events, number, place, types in samples.DOCUMENTS:
        if number == NO_EVENT:
            continue
        made = start(file).events(events[:place + 2] if number else events)
        given = [int(text[1:]) for text in made.answers if text[0] == "t"]
        refused = [text for text in made.answers if text[0] == "r"]
        if given != types or refused != ([f"r{number}"] if number else []):
            raise Wrong(f"a sample of document 01 comes out differently: {made.line()}")
        yield made.case()


def no_schema_cases():
    """Under a refused file every call is outside the limits, until a schema of one leaf is made
    up, the count of its roots with it."""
    start = starter("no schema")
    for counts in ([("types", 1)], [("types", 1), ("roots", 1)]):
        for file in (b"", samples.NO_TREE_AT_ROOT, samples.TWO_B):
            made = start(file).route(f"0 /0 f {BYTE}").puts(("tags", 1)).route("0")
            made.puts(("tag", 0), ("states", 1), ("accepting", 1), ("steps", 0)).route("f")
            yield made.puts(*counts).route("f 0 /0 f").case()


def refusal_cases():
    """Along a document every call that is refused, twice, and then the next event."""
    start = starter("every refusal")
    for file, data in ROUTES[1:]:
        made = start(file)
        for event in calls_of(data):
            made.refused(2).give(*event)
            if made.answers[-1][0] == "r":
                raise Wrong(f"a document that is not valid: {data.hex()}")
        yield made.refused(2).case()


def level_cases():
    """64 levels and the 65th, from all sides: 12 and 13 come before 14."""
    start, most = starter("levels"), MOST_LEVELS
    down, up = "0 " * most, "/0 " * most
    yield (start(samples.NESTED).route(f"{down} 0 0 /0 /0 0 0 0 {up} 0 /0 f f 0").case())
    made = start(schemas.IN_TURN).route("0 1 " * (most // 2)).refused(2)
    yield made.route("/1 0 1 0 1 2 3" + " /1 /0" * (most // 2) + " f").case()
    made = start(schemas.THREE_TYPES).route(f"{down} 0 1 0 /0 1 /1 1 /1 1 /1 0")
    made.route("/0 " * 10 + "1 /1").refused()
    yield made.route("/0 1 /1 " + "/0 " * (most - 4) + "f").case()
    # Leaves at level 64; then an element of 101 children.
    made = start(schemas.THREE_TYPES).route("0 " * (most - 1) + "1 /1 " * 3 + "/0 /0")
    yield made.route("1 /1 " * 100 + "/0 " * (most - 3) + "f").case()
    # Down to each of these levels, two up, and down again over what the levels held.
    made = start(samples.NESTED)
    for level in (3, 5, 30, most - 1, most):
        made.route("0 " * (level - made.reading.depth()) + "/0 /0")
    yield made.route("0 0 0").case()


def large_cases():
    """32 tags, 64 types, 32 states, 1,024 steps."""
    start, last = starter("large"), MOST_TAGS - 1
    for file in (write(schemas.full_steps()), schemas.dense_longest(last=False)):
        made = start(file)
        root = made.root_tag()
        made.route(f"{root} {last} {last + 1} 0 {BYTE} /{last} /0 0 5 /0 /5 f")
        yield made.route(f"0 /0 7 /7 /{root} f {root}").case()
    for m, n, early in ((2, 3, 0), (3, 3, 0), (2, 3, 1), (3, 3, 1), (14, 16, 0), (14, 16, 1)):
        file = schemas.cycles(m, n, early)
        if judge(file).accepted:
            made = start(file).route("0")
            for _ in range(50):
                made.route("1 /1")
                if made.reading.refusal(OPEN, 2) != NO_DOCUMENT:
                    break
            yield made.route("2 /2 1 /1 /0 f").case()
    yield start(schemas.LAST_STATE).route("0 " + "1 /1 " * 40 + "/0 f").case()


def walked(made, rng, calls, stray=0.4, deep=None, listed=None):
    """A walk of so many calls; each answer is held to the listed documents."""
    deep = rng.choice((0.3, 0.5, 0.7, 0.9)) if deep is None else deep
    for event in walk(rng, made.reading, calls, stray, deep):
        made.give(*event)
        if listed:
            made.taken = listed.check_call(made.taken, event, made.answers[-1])
    return made


def random_cases():
    """Walks under random schemas."""
    start, rng = starter("random schemas"), random.Random("walks under random schemas")
    for number in range(330):
        file, judged = schemas.accepted_in_turn(rng, number)
        listed = Listed(judged.meaning)
        yield walked(start(file), rng, rng.choice((10, 20, 40, 60)), listed=listed).case()
        if number % 3 == 0:
            yield walked(start(file), rng, 30, 0.1, listed=listed).case()


def walk_cases():
    """Walks under the schemas made by hand."""
    start, rng = starter("walks"), random.Random("walks by hand")
    for file in FILES:
        for _ in range(4):
            yield walked(start(file), rng, 40).case()


def long_cases():
    """Long walks."""
    start, rng, count = starter("long"), random.Random("long walks"), 0
    while count < 8:
        file, _ = schemas.accepted_in_turn(rng, count % 2)
        made = walked(start(file), rng, 400, 0.25, rng.choice((0.5, 0.97)))
        if len(made.answers) > 250:
            count += 1
            yield made.case()
    for file in (schemas.THREE_TYPES, samples.EXAMPLE_8_20, schemas.IN_TURN):
        yield walked(start(file), rng, 300, 0.2, 0.8).case()


# On readings made up.

def depth_puts():
    """Depths, with every level an element of type 0 in state 0; then rooted, then finished."""
    start, most = starter("readings made up", "depths"), MOST_LEVELS
    for depth in (0, 1, 2, *damage.around(most), most + 2, 2 * most, BYTE):
        for file in (samples.NESTED, schemas.THREE_TYPES):
            made = start(file).puts(("depth", depth))
            made.puts(*(("level set", 1, n) for n in range(most)))
            made.route("/0 0 0").some((0, 1, 2)).puts(("rooted", 1)).some()
            yield made.puts(("finished", 1)).some()
    # Depths past 64 with levels that are all right; then as deep as is right.
    for depth in (most + 1, BYTE):
        made = start(schemas.THREE_TYPES).route("0 " * most).puts(("depth", depth)).some()
        yield made.puts(("depth", most)).some()


def inner_puts(start, files):
    """Each type with each set of one state, none, all; and types and sets past the counts."""
    for file in files:
        schema, value = judge(file).meaning.schema, judge(file).value
        types = len(schema.blocks)
        for a in sorted({*range(types), types, MOST_TYPES, BYTE}):
            made = start(file).puts(("depth", 1), ("rooted", 1), ("level type", a))
            states = schema.blocks[a].states if a < types else 1
            sets = {0, 1, (1 << states) - 1, 1 << states - 1, 1 << states, 1 << MOST_STATES - 1,
                    SET}
            for some in sorted(number for number in sets if number <= SET):
                fresh = ("depth", 1), ("level set", some)
                for tag in range(schema.tags):
                    for event in (*value.kinds(), CLOSE):
                        made.puts(*fresh).give(event, tag)
                made.puts(*fresh).route("f")
            yield made


def outer_puts():
    """An outer level past a count: 10, and not once it is closed."""
    start = starter("readings made up", "outer levels")
    for n in (0, 1, 2, 3, MOST_LEVELS - 1):
        for field, number in (("level type", 4), ("level type", BYTE), ("level set", 4),
                              ("level set", 1 << MOST_STATES - 1), ("level set", 0)):
            made = start(schemas.THREE_TYPES).route("0 0 0")
            old = made.reading.value.held[field][n]
            made.puts((field, number, n)).some()
            made.puts(("depth", n % 4)).route("/0 0").some()
            yield made.puts(("depth", 3), (field, old, n)).some()


def unused_puts():
    """A level above the open ones may hold anything."""
    start = starter("readings made up", "unused levels")
    for file in FILES:
        made = start(file)
        for n in range(MOST_LEVELS):
            made.puts(("level type", BYTE, n), ("level set", SET, n))
        made.refused()
        made.give(OPEN, made.root_tag())
        made.refused().events(opened(*range(made.schema().tags)))
        while made.reading.depth() and made.reading.refusal(
                CLOSE, made.reading.innermost_tag()) is None:
            made.give(CLOSE, made.reading.innermost_tag())
        yield made.route("f")


def flag_puts():
    """Not rooted with levels open, rooted with none, finished with levels open, each with each;
    and types outside that no schema gives, judged by the innermost level alone."""
    start = starter("readings made up", "flags")
    for rooted, finished, depth in [(r, f, d) for r in (0, 1) for f in (0, 1) for d in (0, 1, 2)]:
        for file in (samples.R, samples.NESTED, schemas.THREE_TYPES):
            made = start(file).puts(("depth", depth), ("rooted", rooted), ("finished", finished))
            made.puts(("level set", 1), ("level set", 1, 1), ("level type", 0, 1))
            yield made.route("f /0 1 /1 0 /0 /0 f 0 f")
    made = start(samples.R).puts(("depth", 3), ("level type", 2), ("level type", 3, 1))
    made.puts(("level set", 0), ("level set", 1, 1), ("level set", 1, 2))
    yield made.route("1 /1 1 /1 2 /2 1 /1 /0 /1 /2 1 /2 f")


def made_up_reading_cases():
    inner = inner_puts(starter("readings made up", "innermost"), FILES)
    for lists in (depth_puts(), inner, outer_puts(), unused_puts(), flag_puts()):
        for made in lists:
            yield made.case()


# On schemas made up.

def limit_puts():
    """Each limit met and passed, under an open document, and put back."""
    start = starter("schemas made up", "limits")
    for file, inner in ((samples.R, 2), (schemas.DEAD_STATES, 1), (schemas.LAST_STATE, 1)):
        for field, number, index in damage.limit_puts(judge(file).value):
            made = start(file).route(f"0 {inner} /{inner}")
            old = made.reading.value.schema_value.get(field, index)
            yield made.puts((field, number, index)).some().puts((field, old, index)).some()
    # No state, and so none accepting and no step, in a type that nothing needs and an open one.
    for file, a in ((samples.R, 3), (samples.R, 1), (schemas.NO_TREE_BELOW, 1)):
        made = start(file).route("0 1").puts(("accepting", 0, a)).some()
        yield made.puts(("states", 0, a)).some().puts(("states", 1, a), ("finished", 0)).some()


def type_count_puts():
    """As many types as there may be, and one more; a step to the last."""
    start, last = starter("schemas made up", "types"), MOST_TYPES - 1
    blocks = [leaf(a % MOST_TAGS) for a in range(last)]
    blocks.append(Block(MOST_TAGS - 1, 2, [1], [(0, last - 1, 1)]))
    file = write(Schema(MOST_TAGS, blocks, (last,)))
    for types in (last - 1, *damage.around(MOST_TYPES)):
        for root in (0, last - 2, last - 1, last, MOST_TYPES):
            made = start(file).puts(("types", types), ("root", root))
            yield made.some((MOST_TAGS - 1, MOST_TAGS - 2, 0))


def step_count_puts():
    """The steps' number in all: 1,024, and past it by one or so that a sum of two bytes or four
    comes round."""
    start, last, most = starter("schemas made up", "steps"), MOST_TAGS - 1, MOST_STEPS
    full, tags = write(schemas.full_steps()), (0, last)
    yield start(full).route(f"{last}").puts(("steps", most - 1, last)).some(tags)
    for a, count in ((0, 1), (last - 1, 1), (last, most + 1), (0, WORD), (0, WORD + 1 - most),
                     (last, WORD)):
        made = start(full).route(f"{last}").puts(("steps", count, a)).some(tags)
        if a != last:
            made.puts(("steps", most - min(count, most), last))
        yield made.some(tags)
    row = [(0, 0, q) for q in range(MOST_STATES)]
    wide = write(Schema(MOST_TAGS, [Block(tag, MOST_STATES, [0], row)
                                    for tag in range(MOST_TAGS)], (last,)))
    each, half, none = most // MOST_TAGS, most // 2, [0] * (MOST_TAGS - 2)
    for counts in ([WORD] * MOST_TAGS, [2 * most] * MOST_TAGS, [each] * last + [each + 1],
                   [0] * last + [most], [half, half, *none], [half, half + 1, *none]):
        made = start(wide).puts(*(("steps", count, a) for a, count in enumerate(counts)))
        yield made.some((last, 0))


def competition_puts():
    """Competition, no tree at the root, types that bear none: judged by the smallest type and by
    what is live."""
    start = starter("schemas made up", "competition")
    for puts in damage.COMPETITION_PUTS:
        made = start(schemas.TWO_ENDS).puts(("tag", 1, 2), *puts)
        yield made.route("1 0 /0 1 /1 1 /1 2 /2 /0 f")
    # The schema changes under an open document.
    made = start(schemas.THREE_TYPES).route("0 0 0").puts(("tag", 1, 0)).route("0 1 /0 /1")
    made.puts(("root", 3)).route("1 /1 /0").puts(("accepting", 0, 0)).route("/1")
    made.puts(("states", 1, 0)).route("/1 0").puts(("states", 2, 0), ("accepting", 2, 0))
    yield made.route("/1")


def made_up_schema_cases():
    for lists in (limit_puts(), type_count_puts(), step_count_puts(), competition_puts()):
        for made in lists:
            yield made.case()


# At random.

def inner_open(made, rng):
    """Puts an innermost element of a type with steps, in many states, and opens one in it."""
    held = made.reading.value.schema_value.held
    depth = rng.choice((1, 1, 2, 3, MOST_LEVELS))
    a = rng.choice([a for a in range(held["types"]) if held["steps"][a]])
    all_states = (1 << held["states"][a]) - 1
    made.puts(("finished", 0), ("depth", depth), ("level type", a, depth - 1),
              ("level set", rng.choice((all_states, rng.randint(0, all_states))), depth - 1))
    made.give(OPEN, rng.choice((0, 0, rng.randrange(held["tags"]))))


def random_value_cases():
    """Accepted random schemas and readings, changed at random, so competition and dead ends
    among them."""
    start, rng = starter("random values"), random.Random("values made up")
    for number in range(260):
        file, judged = schemas.accepted_in_turn(rng, number)
        made = walked(start(file), rng, rng.choice((0, 3, 6)), 0.1)
        if number % 2:
            made.puts(*damage.one_tag_puts(rng, len(judged.meaning.types)))
        for _ in range(rng.randint(1, 4)):
            if rng.random() < 0.5:
                inner_open(made, rng)
            else:
                for _ in range(rng.choice((1, 1, 2, 5, 10))):
                    made.puts(damage.random_put(rng, made.reading.value))
            for _ in range(rng.randint(2, 7)):
                made.give(*random_event(rng, judged.value))
        yield made.case()


FRESH_CASES = (sample_cases, no_schema_cases, refusal_cases, level_cases, large_cases,
               random_cases, walk_cases, long_cases)
MADE_UP_CASES = (made_up_reading_cases, made_up_schema_cases, random_value_cases)
