"""What would have been taken where the walk of an event file stops, and the program `whatnext`.

The file is walked with no types' buffer, so without 20. At the place where the walk stops every
event is asked about: each tag opened plainly and as nil, each tag's closing, the finish. Each is
answered as in listing/reading.py: under an accepted schema by whether a valid document begins with
the events taken and this one, of which an opening may open no 65th level; under a value made up by
document 01's words on such values; where both apply both are taken and must agree. So after a
finish, under a refused schema and under a value outside the limits nothing is listed. Beside that
`held_to_documents` completes each event that is listed to a document, which is looked at, and holds
the lists to the listed documents.
"""

from functools import lru_cache
from typing import NamedTuple

from .event_file import event_at, event_bytes, events_of, walked
from .judged import read
from .meaning import Wrong
from .program import TOO_LONG, refused_text
from .reading import Taken
from .tables import (CLOSE, EVENT_BYTES, FINISH, KINDS, MOST_LENGTH, MOST_LEVELS, MOST_TAGS, OPEN,
                     OPEN_NIL, SCHEMA_BYTES, TAKEN)

# Every event, in the order in which they are listed; the finish has no tag, which is written 0.
EVERY_EVENT = [*((kind, tag) for tag in range(MOST_TAGS) for kind in KINDS),
               *((CLOSE, tag) for tag in range(MOST_TAGS)), (FINISH, 0)]
LETTERS, WORDS = {OPEN: "o", OPEN_NIL: "n"}, {OPEN: "open", OPEN_NIL: "open nil"}


class Expected(NamedTuple):
    """Number and place, the types of the open elements from the root down, and the events that
    would have been taken: openings rising by tag, plain before nil, a closing, the finish."""

    number: int
    place: int
    types: tuple
    events: tuple

    def openings(self):
        return [(kind, tag) for kind, tag in self.events if kind in KINDS]

    def ends(self):
        """The words for a closing and the finish, as far as they are listed."""
        events = [event for event, _ in self.events]
        return [word for word, event in (("close", CLOSE), ("finish", FINISH)) if event in events]

    def answers(self):
        """What is counted: the number, and what is listed."""
        kinds = {WORDS[kind] for kind, _ in self.openings()}
        levels = {len(self.types)} & {0, MOST_LEVELS}
        return (self.number, *sorted(kinds), *self.ends(), *(f"depth {n}" for n in levels),
                *(["nothing"] if not self.events else []))


class MadeUp:
    """A schema value made up, in the place of a schema file's answer. The document answers too
    where some root bears a tree and nothing competes."""

    def __init__(self, value):
        self.value, self.meaning = value, value.meaning
        self.accepted = self.meaning is not None and self.meaning.answer()[0] == TAKEN


@lru_cache(8)
def expected(judged, data, tree=None):
    """The answer for an event file; its typed tree may be known, as in event_file.Walk. A tag from
    the schema's count on is not asked about: it gets 12, if no number before that."""
    walk, tags = walked(judged, data, MOST_LENGTH, tree), judged.value.held["tags"]
    reading = walk.reading
    events = [(event, tag) for event, tag in EVERY_EVENT
              if tag < tags and reading.refusal(event, tag) is None]
    return Expected(walk.number, walk.place, tuple(reading.open_types()), tuple(events))


def line(file, found):
    """The line beside the answer to the schema file; at its end stands 0 where every entry past the
    counts is 0, as it must be."""
    openings = (f"{LETTERS[kind]}{tag}" for kind, tag in found.openings())
    return " ".join([read(file).text(), "|", f"{found.number} at {found.place}", "|",
                     *map(str, found.types), "|", *openings, "|", *found.ends(), "| 0"])


# The program.

def text(found):
    """What the program prints under an accepted schema."""
    if found.number == TAKEN:
        return "accepted\n"
    inside = " ".join(map(str, ["inside", *found.types]))
    openings = (f"{WORDS[kind]} {tag}" for kind, tag in found.openings())
    lines = [f"refused {found.number} at {found.place}", inside, *openings, *found.ends()]
    return "".join(f"{one}\n" for one in lines)


def answer(file, events, tree=None):
    """The program's text, and what is counted of it."""
    if len(events) > EVENT_BYTES:
        return f"{TOO_LONG}\n", (TOO_LONG,)
    judged = read(file[:SCHEMA_BYTES])
    if not judged.accepted:
        return refused_text(judged), (judged.number,)
    found = expected(judged, events, tree)
    return text(found), found.answers()


# Held to documents.

def held_to_documents(judged, data, listed):
    """Compares the answer under an accepted schema with documents: each event listed is completed
    to one; each that leads on in a listed document is listed; none other, if all documents are; the
    open elements have the types that listed documents give them."""
    found = expected(judged, data)
    taken = data[:found.place]
    types = types_in(listed, taken)
    if len(types) != len(found.types) or any(a not in (None, b) for a, b in zip(types, found.types)):
        raise Wrong(f"open elements have other types than in a listed document: {found.types}")
    for event in found.events:
        completed(judged.meaning, taken + event_bytes(*event))
    for event in EVERY_EVENT:
        leads_on = taken + event_bytes(*event) in listed.beginnings
        if leads_on > (event in found.events) or (listed.complete and not leads_on
                                                  and event in found.events):
            raise Wrong(f"an event that is listed or not, and a document says otherwise: {event}")


def types_in(listed, events):
    """The types of the elements that these events leave open, None where no listed document begins
    so."""
    types, taken = [], b""
    for event in events_of(events):
        taken += event
        if event[0] in KINDS:
            types.append(listed.beginnings.get(taken))
        elif event[0] == CLOSE:
            types.pop()
    return types


def completed(meaning, events):
    """The events begin a valid document: it is built and looked at."""
    document = Taken(meaning)
    for event in events_of(events):
        document.take(*event_at(event, 0))
    document.check()
