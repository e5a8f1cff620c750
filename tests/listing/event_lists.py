"""Documents: valid ones by hand and at random, and walks that go on with what is taken."""

from . import samples, schemas
from .event_file import document, event_bytes, route
from .meaning import Tree
from .tables import BYTE, CLOSE, EVENTS, FINISH, OPEN, OPEN_NIL

# Accepted schemas with a valid document each.
ROUTES = [(file, route(words)) for file, words in (
    (samples.R, "0 1 /1 2 /2 1 /1 /0 f"),
    (samples.R, "0 1 /1 1 /1 2 /2 1 /1 1 /1 /0 f"),
    (samples.NO_D, "0 1 2 /2 /1 /0 f"),
    (samples.TWO_A, "0 1 /1 2 /2 /0 f"),
    (samples.LAST_BUT_ONE, "0 1 /1 2 /2 1 /1 1 /1 1 /1 2 /2 /0 f"),
    (samples.EXAMPLE_8_20, "0 1 /1 2 /2 3 /3 2 /2 1 /1 3 /3 /0 f"),
    (samples.NESTED, "0 0 /0 0 0 /0 /0 0 /0 /0 f"),
    (schemas.IN_TURN, "0 1 0 1 /1 1 /1 /0 /1 1 /1 /0 f"),
    (schemas.THREE_TYPES, "0 0 1 /1 /0 1 /1 1 /1 /0 f"),
    (schemas.DEAD_STATES, "0 1 /1 1 /1 1 /1 /0 f"),
    (schemas.NO_TREE_BELOW, "0 1 /1 /0 f"),
    (schemas.DEAD_COMPETITOR, "0 1 /1 /0 f"),
    (schemas.LAST_STATE, "0 1 /1 1 /1 1 /1 /0 f"))]
FILES = list(dict.fromkeys(file for file, _ in ROUTES))


# Valid documents.

def random_tree(rng, meaning, a, elements, levels):
    """A random tree typed with a at its root. After about so many elements or levels each word
    is ended and each missing element gets a small tree."""
    if random_kind(rng, meaning, a) == OPEN_NIL:
        return meaning.borne_by[OPEN_NIL][a]
    word, children = (), []
    while elements > 1 and levels > 1:
        types = meaning.next_types(a, word)
        if not types or (meaning.is_word(a, word) and rng.random() < 0.3):
            break
        j = rng.choice(types)
        child = random_tree(rng, meaning, j, elements // 2, levels - 1)
        word, children = word + (j,), children + [child]
        elements -= 1 + len(child.children)
    if not meaning.is_word(a, word):
        children += [meaning.borne[j] for j in meaning.completion(a, word)]
    return Tree(a, tuple(children))


def random_kind(rng, meaning, a):
    """A kind of which type a bears a tree, more often a plain one; nothing is drawn where there is
    only one."""
    kinds = meaning.kinds_of(a)
    return rng.choice((*kinds, OPEN)) if len(kinds) > 1 else kinds[0]


def random_root(rng, meaning):
    """A root type that bears a tree; nothing is drawn where there is only one."""
    roots = meaning.bearing_roots()
    return rng.choice(roots) if len(roots) > 1 else roots[0]


def random_document(rng, meaning, trees=(), sizes=(2, 4, 8, 16), most=100):
    """A document of the listed trees, or a larger random one, mostly of at most so many bytes."""
    if trees and rng.random() < 0.4:
        return document(meaning, rng.choice(trees))
    root = random_root(rng, meaning)
    for _ in range(5):
        tree = random_tree(rng, meaning, root, rng.choice(sizes), rng.randint(2, 6))
        data = document(meaning, tree)
        if len(data) <= most:
            return data
    return document(meaning, meaning.borne[root])


# Walks.

def random_event(rng, value):
    """Any event under this schema value; its tag is sometimes out of range. Where no type is
    nillable nothing opens as nil."""
    tags, kinds = value.held["tags"], value.kinds()
    event = rng.choice((OPEN, OPEN, OPEN, CLOSE, CLOSE, CLOSE, FINISH))
    tag = rng.randrange(tags) if rng.random() < 0.9 else rng.choice((tags, BYTE))
    if event == OPEN and len(kinds) > 1:
        event = rng.choice(kinds)
    return event, tag if EVENTS[event] else 0


def every_event(value):
    """Every kind of event with the tags below the count of this schema value, the count and 255.
    Where no type is nillable nothing opens as nil."""
    tags = value.held["tags"]
    for tag in [*range(tags), tags, BYTE]:
        for event in (*value.kinds(), CLOSE):
            yield event, tag
    yield FINISH, 0


def next_event(rng, reading, deep):
    """An event that is taken here, or None. Where an element can be closed, another is opened
    with the chance `deep`, in the root nearly always."""
    value = reading.schema_value()
    openings = [(kind, tag) for kind in value.kinds() for tag in range(value.held["tags"])
                if reading.refusal(kind, tag) is None]
    inner = reading.innermost_tag()
    closing = inner is not None and reading.refusal(CLOSE, inner) is None
    chance = deep if reading.depth() > 1 else 0.95
    if openings and (not closing or rng.random() < chance):
        return rng.choice(openings)
    if closing:
        return CLOSE, inner
    return (FINISH, 0) if reading.refusal(FINISH, 0) is None else None


def stray_event(rng, reading):
    """Any event, sometimes the innermost element's closing."""
    inner = reading.innermost_tag()
    if inner is not None and rng.random() < 0.15:
        return CLOSE, inner
    return random_event(rng, reading.schema_value())


def walk(rng, reading, events, stray, deep):
    """So many events, for each of which the reading is to be moved on if it takes it. With the
    chance `stray`, and where nothing can be taken, any event comes, sometimes twice; after a
    finish come three."""
    for _ in range(events):
        if reading.is_finished():
            for _ in range(3):
                yield random_event(rng, reading.schema_value())
            return
        event = None if rng.random() < stray else next_event(rng, reading, deep)
        if event is not None:
            yield event
        else:
            event = stray_event(rng, reading)
            yield event
            if rng.random() < 0.1:
                yield event


def walk_to_refusal(rng, reading, events, stray):
    """The bytes of a walk that ends at the first event refused, or a few later."""
    out = b""
    for event in walk(rng, reading, events, stray, rng.choice((0.3, 0.5, 0.7))):
        out += event_bytes(*event)
        if reading.refusal(*event) is not None:
            more = event_bytes(*random_event(rng, reading.schema_value()))
            return out + more * rng.randrange(3)
        reading.take(*event)
        if reading.is_finished() and rng.random() < 0.8:
            break
    return out
