"""Damage: of schema files, of event files, and of values."""

from .event_file import calls_of, event_bytes, events_of
from .event_lists import every_event, random_event, walk_to_refusal
from .reading import Reading, Taken
from .schema_file import commands_of, operand_count
from .tables import (BYTE, CLOSE, DONE, FIELDS, FINISH, IN_BLOCK, KINDS, MOST_LEVELS, MOST_ROOTS,
                     MOST_STATES, MOST_STEPS, MOST_TAGS, MOST_TYPES, OPEN, PLAIN_EVENTS, ROOT,
                     STATE_COMMANDS, STEP, TAGS, TYPE, WORD)

# Bytes at which something begins or ends.
EDGES = sorted({0, 1, 2, 3, 4, 5, MOST_STATES - 1, MOST_STATES, MOST_STATES + 1, MOST_TAGS,
                MOST_TYPES - 1, MOST_TYPES, BYTE})
COMMAND_BYTES = sorted(STATE_COMMANDS)
# Bytes that are no plain event; one of them, beside CLOSE, is that of a nil opening.
NOT_PLAIN = (0, 1, ord("\n"), OPEN - 1, CLOSE + 1, FINISH - 1, FINISH + 1, BYTE)


# Bytes of any file.

def random_bytes(rng, values, most):
    """Fewer than so many bytes of these values."""
    return bytes(rng.choice(values) for _ in range(rng.randrange(most)))


def byte_put(data, at, *values):
    """The data with these bytes in the place of one."""
    return data[:at] + bytes(values) + data[at + 1:]


def every_cut(data):
    """Every beginning but the whole."""
    for length in range(len(data)):
        yield data[:length]


def every_byte_changed(data):
    """Each byte changed to the bytes beside it, the edges and the commands."""
    for at, old in enumerate(data):
        near = {old ^ 1, old + 1 & BYTE, old - 1 & BYTE, old ^ 0x80}
        for new in sorted({*near, *EDGES, *COMMAND_BYTES} - {old}):
            yield byte_put(data, at, new)


def every_byte_strayed(data, values):
    """At every place a byte put in or changed, left out or given twice, each with how many
    bytes more there are."""
    for at in range(len(data) + 1):
        for value in values:
            yield 1, data[:at] + bytes([value]) + data[at:]
            if at < len(data) and value != data[at]:
                yield 0, byte_put(data, at, value)
        if at < len(data):
            yield 0, byte_put(data, at)
            yield 1, byte_put(data, at, data[at], data[at])


def cut(rng, data):
    return data[:rng.randrange(len(data) + 1)]


def byte_left_out(rng, data):
    return byte_put(data, rng.randrange(len(data) + 1))


# Parts, which are commands or events.

def part_left_out(rng, parts):
    return parts_put(parts, rng.randrange(len(parts)), [])


def part_doubled(rng, parts):
    """A part given twice, right after the first or anywhere."""
    at = rng.randrange(len(parts))
    to = rng.randrange(len(parts) + 1) if rng.random() < 0.3 else at
    return parts[:to] + [parts[at]] + parts[to:]


def parts_swapped(rng, parts):
    """Two parts that stand beside each other, or any two, in each other's place."""
    at = rng.randrange(len(parts))
    to = rng.choice([max(at - 1, 0), rng.randrange(len(parts))])
    parts = list(parts)
    parts[at], parts[to] = parts[to], parts[at]
    return parts


def parts_put(parts, at, new):
    """The parts with these in the place of one."""
    return parts[:at] + new + parts[at + 1:]


PART_DAMAGES = [part_left_out, part_doubled, parts_swapped]


# Schema files.

def byte_changed(rng, data):
    if not data:
        return data
    value = rng.choice([*EDGES, *COMMAND_BYTES, rng.randrange(BYTE + 1)])
    return byte_put(data, rng.randrange(len(data)), value)


def byte_added(rng, data):
    at = rng.randrange(len(data) + 1)
    value = rng.choice([0, 1, *COMMAND_BYTES, rng.randrange(BYTE + 1)])
    return data[:at] + bytes([value]) + data[at:]


def commands_damaged(rng, data):
    commands = commands_of(data)
    return b"".join(rng.choice(PART_DAMAGES)(rng, commands)) if commands else data


def command_doubled(rng, data):
    commands = commands_of(data)
    return b"".join(part_doubled(rng, commands)) if commands else data


def operand_changed(rng, data):
    """One operand, often just out of its range."""
    commands = [bytearray(command) for command in commands_of(data)]
    with_operand = [command for command in commands if len(command) > 1]
    if with_operand:
        command = rng.choice(with_operand)
        at = rng.randrange(1, len(command))
        command[at] = rng.choice([command[at] + 1 & BYTE, command[at] + 2 & BYTE, *EDGES])
    return b"".join(commands)


def step_by_ungiven_type(rng, data):
    """STEPs' types changed to ones that may not have been given."""
    commands = [bytearray(command) for command in commands_of(data)]
    for command in commands:
        if len(command) == 1 + operand_count(STEP) and command[0] == STEP and rng.random() < 0.5:
            command[2] = rng.choice([4, 5, 6, 7, 8, MOST_TYPES - 1, MOST_TYPES - 1, MOST_TYPES])
    return b"".join(commands)


def bytes_after(rng, data):
    more = [[0], [DONE], [TAGS, 1], [BYTE], [ROOT, 0, DONE], [rng.randrange(BYTE + 1)]]
    return data + bytes(rng.choice(more))


FILE_DAMAGES = [cut, byte_changed, byte_changed, byte_added, byte_left_out, command_doubled,
                commands_damaged, commands_damaged, commands_damaged, operand_changed,
                operand_changed, step_by_ungiven_type, step_by_ungiven_type, bytes_after]


def damaged_file(rng, data):
    """The schema file with one to three things wrong, or perhaps nothing."""
    for _ in range(rng.choice([1, 1, 1, 2, 3])):
        data = rng.choice(FILE_DAMAGES)(rng, data)
    return data


def random_schema_files(rng, count):
    """Random bytes; after a TAGS; after a TAGS and a TYPE; and whole commands."""
    any_byte, low = range(BYTE + 1), (0, 0, 0, 1, 1, 2)
    for _ in range(count):
        tags = bytes([TAGS, rng.randint(1, MOST_TAGS + 2)])
        yield random_bytes(rng, any_byte, 41)
        yield tags + random_bytes(rng, any_byte, 21)
        yield bytes([TAGS, 2, TYPE, 0, 2]) + random_bytes(rng, (*COMMAND_BYTES, *low), 31)
        yield random_commands(rng, low)


def random_commands(rng, operands):
    """A file of commands in their order with any of these operands."""
    commands = rng.choices(IN_BLOCK, (1, 2, 3), k=rng.randint(1, 12))
    out = bytearray()
    for command in [TAGS, TYPE, *commands, ROOT, DONE]:
        out += bytes([command, *rng.choices(operands, k=operand_count(command))])
    out[1], out[4] = rng.randint(1, 3), rng.randint(1, 3)
    return bytes(out)


# Event files: each way takes a document of the schema.

def events_under(judged):
    """The events that documents of the schema may have."""
    return [*PLAIN_EVENTS, *judged.value.kinds()[1:]]


def whole(rng, judged, doc):
    return doc


def prefix(rng, judged, doc):
    return cut(rng, doc)


def one_byte_changed(rng, judged, doc):
    value = rng.choice([*events_under(judged), 0, 1, judged.value.held["tags"],
                        rng.randrange(BYTE + 1)])
    return byte_put(doc, rng.randrange(len(doc)), value)


def one_event_changed(rng, judged, doc):
    events = events_of(doc)
    new = event_bytes(*random_event(rng, judged.value))
    return b"".join(parts_put(events, rng.randrange(len(events)), [new]))


def one_event_added(rng, judged, doc):
    return event_put_in(doc, rng.randrange(count_of(doc) + 1),
                        event_bytes(*random_event(rng, judged.value)))


def one_tag_changed(rng, judged, doc):
    """The tag of an event changed to another, often out of range."""
    tags, places = judged.value.held["tags"], range(1, len(doc) - 1, 2)
    return byte_put(doc, rng.choice(places), rng.choice([rng.randrange(tags), tags, BYTE]))


def one_event_damaged(rng, judged, doc):
    return b"".join(rng.choice(PART_DAMAGES)(rng, events_of(doc)))


def count_of(doc):
    return len(events_of(doc))


def event_put_in(doc, place, event):
    """The events with one more before so many of them."""
    events = events_of(doc)
    return b"".join(events[:place] + [event] + events[place:])


def every_event_put_in(doc, value):
    """Every kind of event put in at every place: the document before it, and the whole."""
    for place in range(count_of(doc) + 1):
        for event in every_event(value):
            before = b"".join(events_of(doc)[:place])
            yield before, event_put_in(doc, place, event_bytes(*event))


def element_left_out_or_doubled(rng, judged, doc):
    """One element below the root left out or given twice."""
    events = events_of(doc)
    starts = [i for i, event in enumerate(events) if event[0] in KINDS][1:]
    if not starts:
        return doc
    start = end = rng.choice(starts)
    depth = 1
    while depth:
        end += 1
        depth += 1 if events[end][0] in KINDS else -1
    element = events[start:end + 1]
    return b"".join(events[:start] + rng.choice([[], element * 2]) + events[end + 1:])


def after_finish(rng, judged, doc):
    tail = [event_bytes(*random_event(rng, judged.value)), bytes([OPEN]),
            bytes([rng.randrange(BYTE + 1)])]
    return doc + rng.choice(tail)


def stray_byte(rng, judged, doc):
    """A plain event without its operand at the end; or between two events a byte that is none, or
    that of a nil opening, which takes the next event's first byte for its tag."""
    events = events_of(doc)
    keep = rng.randrange(len(events) + 1)
    if rng.random() < 0.5:
        return b"".join(events[:keep]) + bytes([rng.choice([OPEN, CLOSE])])
    return event_put_in(doc, keep, bytes([rng.choice(NOT_PLAIN)]))


def closed_too_early(rng, judged, doc):
    """A closing of the innermost element put in, where there is such a place at one where the
    children so far are no word."""
    taken, places = Taken(judged.meaning), []
    for place, event in enumerate(calls_of(doc)[:-1]):
        taken.take(*event)
        if taken.open:
            places.append((taken.is_complete(0), place + 1, taken.innermost_tag()))
    bad = [found for found in places if not found[0]]
    _, place, tag = rng.choice(bad or places)
    return event_put_in(doc, place, event_bytes(CLOSE, tag))


def finished_too_early(rng, judged, doc):
    return event_put_in(doc, rng.randrange(count_of(doc)), event_bytes(FINISH, 0))


def second_root(rng, judged, doc):
    tag = doc[1]
    more = [doc, event_bytes(CLOSE, tag), event_bytes(OPEN, tag) + event_bytes(FINISH, 0)]
    return doc[:-1] + rng.choice(more)


def root_of_any_tag(rng, judged, doc):
    """The root's opening has another tag, or a second root of any tag follows the first."""
    new = event_bytes(OPEN, rng.randrange(judged.value.held["tags"]))
    return new + doc[2:] if rng.random() < 0.5 else doc[:-1] + new + doc[-1:]


def wrong_closing(rng, judged, doc):
    """A closing's tag changed, or a closing before anything."""
    tags = judged.value.held["tags"]
    if rng.random() < 0.2:
        return event_bytes(CLOSE, rng.randrange(tags)) + doc
    events = events_of(doc)
    at = rng.choice([i for i, event in enumerate(events) if event[0] == CLOSE])
    return b"".join(parts_put(events, at, [event_bytes(CLOSE, (events[at][1] + 1) % (tags + 1))]))


def any_bytes(rng, judged, doc):
    values = [OPEN, *events_under(judged), *range(judged.value.held["tags"])]
    return random_bytes(rng, values, 12)


def straight_walk(rng, judged, doc):
    return walk_to_refusal(rng, Reading(judged), rng.randint(3, 24), 0.0)


def stray_walk(rng, judged, doc):
    return walk_to_refusal(rng, Reading(judged), rng.randint(3, 20), 0.1)


EVENT_DAMAGES = [prefix, one_byte_changed, one_event_changed, one_event_added, one_event_damaged,
                 one_tag_changed, element_left_out_or_doubled, after_finish, stray_byte,
                 closed_too_early, closed_too_early, finished_too_early, second_root,
                 wrong_closing, any_bytes, straight_walk, stray_walk, stray_walk]
WAYS = [whole, whole, whole, *EVENT_DAMAGES]
ROOT_DAMAGES = [root_of_any_tag, *EVENT_DAMAGES]
ROOT_WAYS = [whole, whole, *ROOT_DAMAGES]


def kind_changed(rng, judged, doc):
    """An opening of the other kind."""
    events = events_of(doc)
    at = rng.choice([i for i, event in enumerate(events) if event[0] in KINDS])
    [kind] = set(KINDS) - {events[at][0]}
    return b"".join(parts_put(events, at, [event_bytes(kind, events[at][1])]))


def put_in_nil(rng, judged, doc):
    """An element, or its opening alone, put into a nil element; into any where none is nil."""
    events = events_of(doc)
    of_kind = [[i for i, event in enumerate(events) if event[0] == kind] for kind in KINDS]
    tag, place = rng.randrange(judged.value.held["tags"]), rng.choice(of_kind[1] or of_kind[0])
    new = event_bytes(rng.choice(KINDS), tag) + rng.choice((b"", event_bytes(CLOSE, tag)))
    return event_put_in(doc, place + 1, new)


NIL_DAMAGES = [*[kind_changed] * 3, *[put_in_nil] * 2, *ROOT_DAMAGES]
NIL_WAYS = [*[whole] * 3, *NIL_DAMAGES]


# Values: puts (field, number, index).

def limit_puts(value):
    """Each limit of a schema value met and passed, in the first and the last used entry, and
    entries that are not used."""
    schema = value.meaning.schema
    tags, types, last = schema.tags, len(schema.blocks), len(schema.blocks) - 1
    counts = [("tags", n, 0) for n in (0, 1, tags - 1, tags + 1, *around(MOST_TAGS), 128, BYTE)]
    counts += [("types", n, 0) for n in (0, 1, last, MOST_TYPES + 1, 128, BYTE)]
    counts += [("root", n, 0) for n in (1, last, types, *around(MOST_TYPES)[:2], BYTE)]
    for a in sorted({0, last}):
        counts += type_puts(schema.blocks[a], a, tags)
    total = sum(len(block.steps) for block in schema.blocks)
    for index in (0, total - 1):
        counts += step_puts(schema.blocks[0].states, types, index)
    unused = [("tag", BYTE), ("states", 0), ("accepting", FIELDS["accepting"].most),
              ("steps", WORD)]
    counts += [(field, n, index) for field, n in unused for index in (types, MOST_TYPES - 1)]
    counts += [(field, BYTE, index) for field in ("from", "by", "to")
               for index in (total, MOST_STEPS - 1)]
    return [put for put in counts if 0 <= put[1] <= FIELDS[put[0]].most]


def around(limit):
    return limit - 1, limit, limit + 1


def type_puts(block, a, tags):
    """The limits of one type's entries."""
    past = 1 << block.states
    out = [("tag", n, a) for n in (tags - 1, tags, *around(MOST_TAGS)[:2], BYTE)]
    out += [("states", n, a) for n in (0, 1, block.states - 1, block.states + 1,
                                       *around(MOST_STATES), MOST_TYPES, BYTE)]
    out += [("accepting", n, a) for n in (0, past >> 1, past, 1 << MOST_STATES - 1,
                                          FIELDS["accepting"].most)]
    return out + [("steps", n, a) for n in (len(block.steps) - 1, MOST_STEPS + 1, 2 * MOST_STEPS,
                                            WORD // 2 + 1, WORD)]


def step_puts(states, types, index):
    """The limits of one step's entries."""
    near = (states - 1, states, *around(MOST_STATES)[:2], BYTE)
    out = [(field, n, index) for field in ("from", "to") for n in near]
    return out + [("by", n, index) for n in (types - 1, types, *around(MOST_TYPES)[:2], BYTE)]


def root_puts(value):
    """The limits of the roots: their count; the first and the last used entry; entries that are
    not used, and past the end of the table."""
    schema = value.meaning.schema
    types, used = len(schema.blocks), len(schema.roots)
    counts = {0, 1, used - 1, used + 1, *around(MOST_ROOTS), 128, BYTE}
    puts = [("roots", n, 0) for n in sorted(counts)]
    puts += [("root", n, index) for index in sorted({0, used - 1})
             for n in sorted({0, types - 1, types, MOST_TYPES, BYTE})]
    puts += [("root", n, index) for index in range(used, MOST_ROOTS) for n in (types, BYTE)]
    return puts + [("root", BYTE, index) for index in (MOST_ROOTS, BYTE + 1, WORD)]


# Of schemas.TWO_ENDS, once its types 1 and 2 have one tag.
COMPETITION_PUTS = [
    [], [("accepting", 0, 1)], [("accepting", 0, 2)], [("accepting", 4, 0)],
    [("accepting", 2, 0)], [("accepting", 0, 0)], [("by", 2, 0), ("by", 1, 1)], [("to", 2, 0)],
    [("root", 2, 0)]]


def one_tag_puts(rng, types):
    """Most types get one tag, so that several lead on from a set."""
    return [("tag", 0, a) for a in range(types) if rng.random() < 0.8]


def random_schema_put(rng, value):
    """A random entry of the schema held, mostly inside the limits."""
    held = value.held
    types = max(1, min(held["types"], MOST_TYPES))
    wild, a = rng.random() < 0.04, rng.randrange(types)
    field = rng.choice(("root", "tag", "accepting", "from", "by", "to"))
    index, below = 0 if field == "root" else a, {"root": types, "tag": held["tags"]}.get(field)
    if field == "accepting":
        below = 1 << min(held["states"][a], MOST_STATES)
    elif field in ("from", "by", "to"):
        index, a = random_step(rng, held, types)
        below = types if field == "by" else held["states"][a]
    number = below if wild else rng.randrange(max(below, 1))
    return field, min(number, FIELDS[field].most), index


def random_root_put(rng, value):
    """A random root, or their number, mostly inside the limits."""
    wild = rng.random() < 0.04
    if rng.random() < 0.4:
        return "roots", rng.choice((0, MOST_ROOTS + 1)) if wild else rng.randint(1, MOST_ROOTS), 0
    types = max(1, min(value.held["types"], MOST_TYPES))
    return "root", types if wild else rng.randrange(types), rng.randrange(MOST_ROOTS)


def random_nil_put(rng, value):
    """A random type nillable or not; sometimes one that is not used."""
    types = max(1, min(value.held["types"], MOST_TYPES))
    return "nillable", rng.choice((0, 1, 1, BYTE)), rng.choice((*range(types), types))


ROOT_PUTS = (random_root_put, random_root_put, random_schema_put)
NIL_PUTS = (random_nil_put, random_nil_put, random_nil_put, random_root_put, random_schema_put)


def random_step(rng, held, types):
    """A step's index and whose it is; the first step where there is none."""
    owners = [a for a in range(types) for _ in range(min(held["steps"][a], MOST_STEPS))]
    owners = owners[:MOST_STEPS] or [0]
    index = rng.randrange(len(owners))
    return index, owners[index]


def random_reading_put(rng, value):
    """A random entry of the reading held, mostly inside the limits."""
    schema, n, wild = value.schema_value.held, rng.randrange(4), rng.random() < 0.04
    types = max(1, min(schema["types"], MOST_TYPES))
    field = rng.choice(("depth", "rooted", "finished", "level type", *["level set"] * 3))
    if field == "depth":
        edges = (MOST_LEVELS, MOST_LEVELS + 1, BYTE)
        return field, rng.choice(edges if wild else (0, 1, 1, 2, 2, 3, 4)), 0
    if field == "rooted":
        return field, rng.randrange(2), 0
    if field == "finished":
        return field, int(rng.random() < 0.15), 0
    if field == "level type":
        return field, types if wild else rng.randrange(types), n
    inner = value.held["level type"][n]
    below = 1 << min(schema["states"][inner] if inner < types else 1, MOST_STATES)
    return field, min(below, FIELDS[field].most) if wild else rng.randrange(below), n


def random_put(rng, value):
    """A random entry of the schema or of the reading."""
    if rng.random() < 0.5:
        return random_schema_put(rng, value.schema_value)
    return random_reading_put(rng, value)
