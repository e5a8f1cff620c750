"""A reading, by the document and by what its value holds.

By the document, under an accepted schema from a fresh reading. Question 13, whether some valid
document of any depth begins with the events taken and this opening, is searched straight: the
elements opened so far have types, each of which bears a tree of its element's kind; a nil element
has no children; of the others a closed element's children form a word, and an open element's
children so far, with its open child, must begin a word over tree-bearing types. Each such condition
speaks of one element alone, and a beginning that meets them all is completed by ending the word of
each open element that is not nil and giving every missing element a tree that its type bears. So a
new opening needs a type that bears a tree of its kind, and the conditions on children only of the
innermost element; the others are as they were. The first opening needs a root type that bears a
tree of its kind.

More than one type of the tag may not be possible there: the schema has no competition, so two
would contradict question 9, and the model stops. Hence one typing of the events taken is kept,
and it is the only one.

By the value, as value.py says, also where a schema or a reading is made up.
"""

from .meaning import Tree, Wrong
from .tables import CLOSE, FINISH, MOST_LEVELS, OPEN_NIL
from .value import Asked, ReadingValue


class Taken(Asked):
    """The events taken so far, with their typing; an element's children are a list."""

    def __init__(self, meaning):
        self.meaning, self.root, self.open, self.finished = meaning, None, [], False

    def children(self):
        """The innermost element's type and the types of its children."""
        a, children, _ = self.open[-1]
        return a, tuple(child.type for child in children)

    def in_nil(self):
        """Is the innermost element nil?"""
        return self.open[-1].kind == OPEN_NIL

    def possible_types(self, kind, tag):
        """The types with which an element of this kind and tag may open here."""
        meaning = self.meaning
        if self.open:
            types = [] if self.in_nil() else meaning.next_types(*self.children())
        else:
            types = [] if self.root else meaning.bearing_roots()
        types = [j for j in types if meaning.tag(j) == tag and j in meaning.borne_by[kind]]
        if len(types) > 1:
            raise Wrong("two types possible under an accepted schema")
        return types

    def depth(self):
        return len(self.open)

    def open_types(self):
        return [element.type for element in self.open]

    def innermost_tag(self):
        return self.meaning.tag(self.open[-1].type) if self.open else None

    # The questions.

    def is_inside(self, tag):
        return True

    def is_unfinished(self, tag):
        return not self.finished

    def knows_tag(self, tag):
        return tag < self.meaning.schema.tags

    def may_open_by(self, kind, tag):
        return bool(self.possible_types(kind, tag))

    def has_level(self, tag):
        return self.depth() < MOST_LEVELS

    def has_open(self, tag):
        return bool(self.open)

    def is_innermost(self, tag):
        return self.innermost_tag() == tag

    def is_complete(self, tag):
        return self.meaning.is_content(self.open[-1].kind, *self.children())

    def is_whole(self, tag):
        return self.root is not None and not self.open

    def take(self, event, tag, a=None):
        """The events with this one, which is taken; gives an opening's type, which may be known."""
        if event == FINISH:
            self.finished = True
        elif event == CLOSE:
            self.open.pop()
        else:
            if a is None:
                [a] = self.possible_types(event, tag)
            element = Tree(a, [], event)
            if self.open:
                self.open[-1].children.append(element)
            self.root = self.root or element
            self.open.append(element)
        return a

    def check(self):
        """The events taken begin a valid document: ends it, at which it is held to the
        definition. Nothing can be taken afterwards."""
        if self.root is None:
            return
        while self.open:
            rest = () if self.in_nil() else self.meaning.completion(*self.children())
            self.open.pop().children.extend(self.meaning.borne[j] for j in rest)
        if not self.meaning.is_typing(self.root):
            raise Wrong("events taken that begin no valid document")


class Reading:
    """A fresh reading beside a schema file's answer, moved on by calls. Where both ways of
    answering apply, both are taken and must agree; `by_value=False` leaves the value out."""

    def __init__(self, judged, by_value=True):
        self.document = Taken(judged.meaning) if judged.accepted else None
        self.value = ReadingValue(judged.value) if by_value else None
        self.set_ways()

    def set_ways(self):
        self.ways = [way for way in (self.document, self.value) if way]

    def agreed(self, answers):
        """The answer of every way."""
        if any(answer != answers[0] for answer in answers):
            raise Wrong(f"by the document and by the value: {answers}")
        return answers[0]

    def refusal(self, event, tag):
        """The number with which the call is refused, or None."""
        return self.agreed([way.refusal(event, tag) for way in self.ways])

    def take(self, event, tag):
        """Takes the event and gives an opening's type."""
        return self.agreed([way.take(event, tag) for way in self.ways])

    def depth(self):
        return self.agreed([way.depth() for way in self.ways])

    def open_types(self):
        """The types of the open elements from the root down."""
        return self.agreed([way.open_types() for way in self.ways])

    def is_finished(self):
        return self.agreed([not way.is_unfinished(0) for way in self.ways])

    def innermost_tag(self):
        """The tag of the innermost element, or None."""
        return self.agreed([way.innermost_tag() for way in self.ways])

    def schema_value(self):
        return self.value.schema_value

    def put(self, field, index, number):
        """Puts an entry; from here on only the value answers."""
        self.document = None
        self.set_ways()
        self.value.put(field, index, number)
