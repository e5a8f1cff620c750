"""The event file: its events, and its answer with the types of the openings taken."""

from functools import cache, lru_cache
from itertools import accumulate

from .judged import read
from .meaning import Wrong, typed_stream
from .reading import Reading
from .tables import (CLOSE, EVENTS, FINISH, KINDS, LAST_QUESTIONS, MOST_LEVELS, NO_EVENT, OPEN,
                     OPEN_NIL, TAKEN)


def event_at(data, at):
    """The event at this place and its tag (0 for a finish), or None if it is no whole event."""
    if at >= len(data) or data[at] not in EVENTS or at + EVENTS[data[at]] >= len(data):
        return None
    return data[at], data[at + 1] if EVENTS[data[at]] else 0


@cache
def event_bytes(event, tag):
    return bytes([event, tag][:1 + EVENTS[event]])


END = event_bytes(FINISH, 0)


def opened(*tags, kind=OPEN):
    return b"".join(event_bytes(kind, tag) for tag in tags)


def closed(*tags):
    return b"".join(event_bytes(CLOSE, tag) for tag in tags)


def leaves(*tags, kind=OPEN):
    """Elements without children."""
    return b"".join(opened(tag, kind=kind) + closed(tag) for tag in tags)


def nested(tags, levels):
    """Elements one in the other, so many levels; the tags come round in turn. The openings and
    the closings."""
    down = [tags[n % len(tags)] for n in range(levels)]
    return opened(*down), closed(*reversed(down))


def route(words):
    """An event list from words: a tag opened, as nil after an n; a tag closed after a slash; f for
    the finish."""
    marks = {"n": OPEN_NIL, "/": CLOSE}
    return b"".join(END if word == "f" else event_bytes(marks.get(word[0], OPEN), tag_in(word))
                    for word in words.split())


def tag_in(word):
    return int(word.lstrip("n/"))


def events_of(data):
    """The events of a well-formed event file, as byte strings."""
    out, at = [], 0
    while at < len(data):
        end = at + 1 + EVENTS[data[at]]
        out.append(data[at:end])
        at = end
    return out


def calls_of(data):
    """The events of a well-formed event file with their tags."""
    return [event_at(event, 0) for event in events_of(data)]


def count_openings(data):
    return sum(event[0] in KINDS for event in events_of(data))


def document(meaning, tree):
    """The bytes of the tree's document."""
    stream = typed_stream(meaning, tree)
    return b"".join(event_bytes(event, tag) for event, tag, _ in stream) + END


def known_events(meaning, tree):
    """The tree's events with their types, the last first, after a look at its typing and its
    levels."""
    stream = typed_stream(meaning, tree)
    levels = accumulate(-1 if event == CLOSE else 1 for event, _, _ in stream)
    if not meaning.is_typing(tree) or max(levels) > MOST_LEVELS:
        raise Wrong("a tree that is said to be valid and is not")
    return stream[::-1]


class Walk:
    """An event file walked up to its first refusal: number, place and the openings taken, each
    (level, tag, type). With a typed tree given, which must be a valid one of at most 64 levels,
    the document alone answers, and the events are not asked about for as long as they are the
    tree's: a valid document begins with them. Under a refused schema a tree says nothing."""

    def __init__(self, judged, data, room, tree=None):
        tree = tree if judged.accepted else None
        self.reading, self.room, self.openings = Reading(judged, tree is None), room, []
        self.known = [] if tree is None else known_events(judged.meaning, tree)
        self.place, self.number = 0, None
        while self.number is None:
            self.next(data)

    def next(self, data):
        """Takes the next event or sets the number."""
        event = event_at(data, self.place)
        if event is None:
            ended = self.place == len(data) and self.reading.is_finished()
            self.number = TAKEN if ended else NO_EVENT
            return
        if not (self.known and self.known[-1][:2] == event):
            self.known = []
            self.number = self.reading.refusal(*event)
        for number, asks in LAST_QUESTIONS[event[0]]:
            if self.number is None and not getattr(self, asks)():
                self.number = number
        if self.number is None:
            self.take(*event)

    def has_room(self):
        return len(self.openings) < self.room

    def take(self, event, tag):
        if self.known:
            a = self.reading.document.take(*self.known.pop())
        else:
            a = self.reading.take(event, tag)
        if event in KINDS:
            self.openings.append((self.reading.depth(), tag, a))
        self.place += len(event_bytes(event, tag))


walked = lru_cache(8)(Walk)


def line(file, data, room, tree=None):
    """The line for an event file under a schema file, and the number."""
    judged = read(file)
    walk = walked(judged, data, room, tree)
    types = [len(walk.openings)] + [a for _, _, a in walk.openings]
    return (f"{judged.text()} | {walk.number} at {walk.place} | {' '.join(map(str, types))} | kept",
            walk.number)
