"""The beside-check: an accepted schema's documents, listed up to some size, against the answers.

One way for every schema: no two listed documents agree through an opening, also in its kind and
also if it is the first, and differ in its type, and no event that leads on in one is refused. For
schemas of finitely many trees, if not too many, the list is whole and answers are held to it both
ways; so are those to schema files in `check_both_ways`.
"""

from .event_file import event_at, event_bytes, events_of
from .meaning import Wrong, listed_trees, typed_stream
from .tables import COMPETITION, FINISH, KINDS, NO_ROOM


def check_both_ways(judged):
    """Compare a schema file's answer with the documents: some is listed with each root that bears a
    tree, of each kind that it bears, and none with another; no two differ under an accepted schema,
    two do under a competing one; as far as they are listed."""
    meaning = judged.meaning
    trees, complete = listed_trees(meaning)
    found = {(tree.type, tree.kind) for tree in trees}
    bearing = {(root, kind) for kind in KINDS for root in meaning.bearing_roots(kind)}
    if not found <= bearing or (complete and found != bearing):
        raise Wrong("other roots bear a tree than documents have")
    if two_differ(meaning, trees) != (judged.number == COMPETITION) and (
            complete or judged.accepted):
        raise Wrong("listed documents differ under an accepted schema, or do not under another")


def two_differ(meaning, trees):
    """Do two of these documents agree through an opening and differ in its type?"""
    types = {}
    for tree in trees:
        taken = b""
        for event, tag, a in typed_stream(meaning, tree):
            taken += event_bytes(event, tag)
            if types.setdefault(taken, a) != a:
                return True
    return False


class Listed:
    """The documents of an accepted schema up to some size, by their event beginnings, and
    whether they are all documents that the schema has."""

    def __init__(self, meaning):
        self.trees, self.complete = listed_trees(meaning)
        self.beginnings = {b"": None}       # with the type of the element opened last
        for tree in self.trees:
            self.enter(meaning, tree)

    def enter(self, meaning, tree):
        """Enters a document; it may not agree through an opening with one that differs in its
        type."""
        taken = b""
        for event, tag, a in typed_stream(meaning, tree):
            taken += event_bytes(event, tag)
            if self.beginnings.setdefault(taken, a) != a:
                raise Wrong("two listed documents differ under an accepted schema")
        self.beginnings[taken + event_bytes(FINISH, 0)] = None

    def check(self, events, walk):
        """Compare an event file's answer with the list: what was refused leads on in no listed
        document; an opening has the type that listed documents give it; if the list is whole,
        what was taken begins one."""
        number, place = walk.number, walk.place
        event, given, taken = event_at(events, place), iter(walk.openings), b""
        for one in events_of(events[:place]):
            taken += one
            if one[0] in KINDS:
                self.check_type(taken, next(given)[-1])
        if number and number != NO_ROOM and event:
            self.check_refused(events[:place], *event)
        if self.complete and events[:place] not in self.beginnings:
            raise Wrong("events taken that begin no document")

    def check_type(self, taken, a):
        if self.beginnings.get(taken, a) != a:
            raise Wrong("an opening has another type than in a listed document")

    def check_refused(self, taken, event, tag):
        if taken + event_bytes(event, tag) in self.beginnings:
            raise Wrong("a refused event leads on in a listed document")

    def check_call(self, taken, event, answer):
        """Compare a call's answer with the list; gives the events taken with this one."""
        if answer[0] == "r":
            self.check_refused(taken, *event)
            return taken
        taken += event_bytes(*event)
        if answer[0] == "t":
            self.check_type(taken, int(answer[1:]))
        if self.complete and taken not in self.beginnings:
            raise Wrong("a call taken that begins no document")
        return taken
