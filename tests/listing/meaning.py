"""Trees, words and competition, decided by listing.

An element is opened plainly or as nil; its kind is the event that opens it, and a tree's kind that
of its root. A nil element has a nillable type and no children. A type bears a tree if it bears one
of either kind; where one kind alone is meant it is named. Three facts make the listings whole.

 1. A type that bears a plain tree of h levels has a word over types that bear trees, of either
    kind, of fewer levels. So building trees of one level, then of two and so on comes to every type
    that bears one; the nil ones are there from the beginning. And where some word leads from a
    state to another, a path without any state twice reads one (leave out what lies between), so a
    search that comes to each state once finds it.
 2. A type stands in a word of A over tree-bearing types exactly if a step by it leads from a state
    that such types come to from 0 to one from which they come to an accepting state.
 3. How a beginning of a word can go on depends on the states in which its paths end, and on
    nothing else. So of beginnings whose paths end in the same states one is listed, a shortest:
    two types compete after it if they do after any of the others. And the first listed after which
    two compete is a shortest of all after which two do.

A type is used if some typing of some valid document gives it to an element. A type that bears no
tree is not: below each element of a typing stands a tree of its type. By fact 2 a type that bears
one is used exactly if it is a root, or stands in a word of a used type over tree-bearing types; and
a document that uses it is built from such words and looked at.

Two types of one tag that may follow a beginning compete if both bear a tree of one kind: then the
same event opens the one and the other. Where they share no kind, no event opens both.

The listing of 3 can grow beyond reason: `Meaning` counts the beginnings that it lists and raises
TooMany above a limit, and a schema that does so is never made a case. The listings of whole trees,
which are compared with the answers beside that, end at a limit too.
"""

from functools import cache
from itertools import islice, product
from types import MethodType
from typing import NamedTuple

from .tables import (CLOSE, KINDS, MOST_BEGINNINGS, MOST_ELEMENTS, MOST_FORESTS, MOST_LAYER,
                     MOST_LISTED_TREES, MOST_OF_A_LENGTH, MOST_TREES, MOST_WORD, NO_PARENT, OPEN,
                     OPEN_NIL, STORED_QUESTIONS, TAKEN)


class TooMany(Exception):
    """More beginnings, or trees, than this listing is meant for."""


class Wrong(Exception):
    """The model contradicts itself, or is handed a wrong choice."""


class Tree(NamedTuple):
    """A typed tree: the type of its root element, the trees below it, and the root's kind."""

    type: int
    children: tuple = ()
    kind: int = OPEN


class Remembered:
    """A method that keeps each of its answers, for each object apart."""

    def __init__(self, method):
        self.method = method

    def __get__(self, meaning, owner):
        """The method of one object, from now on in the place of this."""
        kept = cache(MethodType(self.method, meaning))
        meaning.__dict__[self.method.__name__] = kept
        return kept


class Meaning:
    """A schema with what can be listed of it."""

    def __init__(self, schema):
        self.schema, self.left, self.known_ends = schema, MOST_BEGINNINGS, {}
        self.types = range(len(schema.blocks))
        self.steps = [steps_by_type(block) for block in schema.blocks]
        self.leaving = [steps_by_state(block) for block in schema.blocks]
        self.accepting = [frozenset(block.accepting) for block in schema.blocks]
        self.borne_by = self.trees_by_levels()
        self.borne = self.borne_by[OPEN_NIL] | self.borne_by[OPEN]

    def tag(self, a):
        return self.schema.blocks[a].tag

    # Words, by paths of steps.

    def words_from(self, a, p, types):
        """Each state that paths from p by these types come to, with a shortest word that leads
        there, the shorter first."""
        words, todo = {p: ()}, [p]
        for state in todo:
            yield state, words[state]
            for j, q in self.leaving[a].get(state, ()):
                if j in types and q not in words:
                    words[q] = words[state] + (j,)
                    todo.append(q)

    def word_over(self, a, p, types):
        """A shortest word over these types from state p to an accepting one, or None."""
        return next((word for q, word in self.words_from(a, p, types)
                     if q in self.accepting[a]), None)

    def ends(self, a, word):
        """The states in which some path from 0 that reads the word ends."""
        known = self.known_ends
        if (a, word) not in known:
            states, rest = (0,), word
            if word and (a, word[:-1]) in known:
                states, rest = known[a, word[:-1]], word[-1:]
            for j in rest:
                states = tuple(sorted({q for p in states for q in self.steps[a].get((p, j), ())}))
            known[a, word] = states
        return known[a, word]

    @Remembered
    def is_word(self, a, word):
        """Is it a word of a's automaton?"""
        return any(p in self.accepting[a] for p in self.ends(a, word))

    # Trees.

    def trees_by_levels(self):
        """For each kind, a tree of each type that bears one (fact 1)."""
        plain, nil = {}, {a: Tree(a, (), OPEN_NIL) for a in self.types if self.is_nillable(a)}
        while True:
            built, new = nil | plain, {}
            for a in self.types:
                word = None if a in plain else self.word_over(a, 0, built)
                if word is not None:
                    new[a] = Tree(a, tuple(built[j] for j in word))
            if not new:
                return {OPEN: plain, OPEN_NIL: nil}
            plain |= new

    def is_nillable(self, a):
        return self.schema.blocks[a].nillable

    def kinds_of(self, *types):
        """The kinds of which each of these types bears a tree."""
        return tuple(kind for kind in KINDS if all(a in self.borne_by[kind] for a in types))

    def is_typing(self, tree):
        """Is the typed tree's root of a root type, and may each element have its children?"""
        elements = [tree]
        for a, children, kind in elements:
            if not self.is_content(kind, a, tuple(child.type for child in children)):
                return False
            elements.extend(children)
        return tree.type in self.schema.roots

    def is_content(self, kind, a, word):
        """May an element of this kind and of type a have children of these types? They form a word
        of its automaton; of a nil element no word is asked: its type is nillable, and it has
        none."""
        if kind == OPEN_NIL:
            return self.is_nillable(a) and not word
        return self.is_word(a, word)

    @Remembered
    def trees(self, a, size):
        """All trees of so many elements typed with a at their root."""
        plain = [Tree(a, children) for children in self.forests(a, 0, size - 1)]
        return plain + self.nil_trees(a) if size == 1 else plain

    def nil_trees(self, a):
        """The nil tree of type a, if it bears one."""
        return [self.borne_by[OPEN_NIL][a]] if self.is_nillable(a) else []

    @Remembered
    def forests(self, a, p, size):
        """All children, of so many elements in all, that lead from state p to an accepting
        state."""
        if size == 0:
            return [()] if p in self.accepting[a] else []
        found = {}
        for j, q in self.leaving[a].get(p, ()):
            for first in range(1, size + 1):
                rests = self.forests(a, q, size - first)
                for tree in self.trees(j, first) if rests else ():
                    for rest in rests:
                        found[(tree,) + rest] = True
                if len(found) > MOST_FORESTS:
                    raise TooMany
        return list(found)

    # Beginnings of words over types that bear a tree.

    @Remembered
    def ending(self, a, p):
        """A word over tree-bearing types from state p to an accepting one, or None."""
        return self.word_over(a, p, self.borne)

    @Remembered
    def live(self, a):
        """The live states of a."""
        states = range(self.schema.blocks[a].states)
        return frozenset(p for p in states if self.ending(a, p) is not None)

    @Remembered
    def completion(self, a, beginning):
        """Types that make the beginning a word of a over tree-bearing types, or None if it
        begins no such word."""
        if not self.borne.keys() >= set(beginning):
            return None
        endings = (self.ending(a, p) for p in self.ends(a, beginning))
        return next((ending for ending in endings if ending is not None), None)

    def begins(self, a, beginning):
        """Does some word of a over tree-bearing types begin so?"""
        return self.completion(a, beginning) is not None

    @Remembered
    def next_types(self, a, beginning):
        """The types that may follow the beginning, the smallest first."""
        return [j for j in sorted(self.types_in_words(a)) if self.begins(a, beginning + (j,))]

    @Remembered
    def types_in_words(self, a):
        """The types that stand in words of a over tree-bearing types, each with a beginning
        after which it does (fact 2)."""
        found = {}
        for p, word in self.words_from(a, 0, self.borne):
            for j, q in self.leaving[a].get(p, ()):
                if j in self.borne and self.ending(a, q) is not None:
                    found.setdefault(j, word)
        return found

    def beginnings(self, a):
        """Beginnings of words of a over tree-bearing types, the shorter first; for each such
        beginning one whose paths end in the same states (fact 3)."""
        listed, todo = set(), [()] if self.begins(a, ()) else []
        for w in todo:
            ends = self.ends(a, w)
            if ends in listed:
                continue
            listed.add(ends)
            self.left -= 1
            if self.left < 0:
                raise TooMany
            yield w
            todo += self.one_longer(a, [w])

    def one_longer(self, a, beginnings):
        """The beginnings that these and one more type make."""
        return [w + (j,) for w in beginnings for j in self.next_types(a, w)]

    def by_length(self, a):
        """All beginnings of words of a over tree-bearing types, a list for each length; it ends
        before a length that has too many."""
        longest = [()] if self.begins(a, ()) else []
        while longest and len(longest) <= MOST_OF_A_LENGTH:
            yield longest
            longest = self.one_longer(a, longest)

    # Reached types and competition.

    @Remembered
    def bearing_roots(self, kind=None):
        """The root types that bear a tree, of this kind if one is given, the smallest first."""
        borne = self.borne_by.get(kind, self.borne)
        return sorted(borne.keys() & set(self.schema.roots))

    def reached(self):
        """The reached types; each but the roots with the type and the beginning after which it
        stands in a word."""
        found = dict.fromkeys(self.schema.roots)
        todo = list(found)
        for a in todo:
            for j, w in self.types_in_words(a).items():
                if j not in found:
                    found[j] = (a, w)
                    todo.append(j)
        return found

    @Remembered
    def used(self):
        """The used types, each with a valid typed tree that has an element of it."""
        reached, found = self.reached(), {}
        for a in sorted(reached.keys() & self.borne.keys()):
            tree = self.borne[a]
            if reached[a] is not None:
                tree = self.document_tree(reached, *reached[a], tree)
            if not self.is_typing(tree) or a not in types_of(tree):
                raise Wrong("a used type without a document that uses it")
            found[a] = tree
        return found

    def unused(self):
        """The types that no valid document uses, the smallest first."""
        return [a for a in self.types if a not in self.used()]

    def pairs_after(self, a, w):
        """The pairs J < K that compete in a after w."""
        return self.pairs_opened_alike(self.next_types(a, w))

    def competing_roots(self):
        """The pairs J < K of root types that compete."""
        return self.pairs_opened_alike(self.bearing_roots())

    def pairs_opened_alike(self, types):
        """The pairs J < K of these types of which one event may open either: they have one tag and
        share a kind."""
        return [(j, k) for j in types for k in types
                if j < k and self.tag(j) == self.tag(k) and self.kinds_of(j, k)]

    def competition(self, a):
        """Two types that compete in a and a shortest beginning after which two do, or None: each
        tag has one type in a's words, or all beginnings were listed."""
        types = self.types_in_words(a)
        if len({self.tag(j) for j in types}) == len(types):
            return None
        for w in self.beginnings(a):
            for j, k in self.pairs_after(a, w):
                return j, k, w
        return None

    @Remembered
    def first_competition(self):
        """NO_PARENT, two roots that compete and no beginning; where no roots do, the smallest
        reached type in which two compete, two that do and a shortest beginning after which two
        do; None if there is none."""
        of_roots = self.competing_roots()
        for j, k in of_roots:
            self.show_documents(j, k, lambda tree: tree)
        if of_roots:
            return (NO_PARENT, *of_roots[0], ())
        reached = self.reached()
        for a in sorted(reached):
            found = self.competition(a)
            if found:
                j, k, w = found
                self.show_documents(j, k, lambda tree: self.document_tree(reached, a, w, tree))
                self.show_shortest(a, w)
                return (a, *found)
        return None

    def compete_after(self, a, j, k, length):
        """Do J and K compete in a after some beginning of exactly so many types? Of those whose
        paths end in the same states one is listed."""
        layer = [()] if self.begins(a, ()) else []
        for _ in range(length):
            layer = list({self.ends(a, w): w for w in self.one_longer(a, layer)}.values())
            if len(layer) > MOST_LAYER:
                raise Wrong("too many beginnings to confirm a witness")
        return any((j, k) in self.pairs_after(a, w) for w in layer)

    def show_documents(self, j, k, around):
        """Demand 3's two documents for a competition of J and K are looked at, for each kind that
        they share: `around` makes a document of an element's tree. Where no root bears a tree there
        is no document, and nothing competes."""
        for kind in self.kinds_of(j, k):
            one, other = (around(self.borne_by[kind][i]) for i in (j, k))
            if not (self.is_typing(one) and self.is_typing(other)
                    and agree_and_differ(self, one, other)):
                raise Wrong("a competition without two such documents")

    def show_shortest(self, a, w):
        """No two compete in a after a beginning of fewer types: all of these are looked at, as
        long as there are not too many of one length."""
        shorter = islice(self.by_length(a), len(w))
        if len(w) > MOST_WORD or any(self.pairs_after(a, v) for words in shorter for v in words):
            raise Wrong("a competition after a beginning that is not shortest")

    def document_tree(self, reached, a, before, tree):
        """A valid typed tree that has, in an element of type a after children of the types
        `before`, this tree."""
        after = self.completion(a, before + (tree.type,))
        above = Tree(a, (*(self.borne[i] for i in before), tree, *(self.borne[i] for i in after)))
        return above if reached[a] is None else self.document_tree(reached, *reached[a], above)

    # The schema's questions: the place where it is answered no, or None.

    def roots_without_tree(self):
        return None if self.bearing_roots() else 0

    def unused_type_place(self):
        return next((self.schema.places[a] for a in self.unused()), None)

    def competition_place(self):
        return 0 if self.first_competition() else None

    def answer(self, questions=STORED_QUESTIONS):
        """Number and place of the first of these questions answered no; 0 and 0 if there is
        none."""
        for number, asks in questions:
            place = getattr(self, asks)()
            if place is not None:
                return number, place
        return TAKEN, 0


def steps_by_type(block):
    """The states that steps lead to, by the state and type they start with."""
    found = {}
    for p, j, q in block.steps:
        found.setdefault((p, j), []).append(q)
    return found


def steps_by_state(block):
    """The steps by the state they start from, as (type, state)."""
    found = {}
    for p, j, q in block.steps:
        found.setdefault(p, []).append((j, q))
    return found


def types_of(tree):
    """The types that the tree's elements have."""
    elements = [tree]
    for element in elements:
        elements.extend(element.children)
    return {element.type for element in elements}


def typed_stream(meaning, tree):
    """The tree's tag stream without the finish: (event, tag, type) for each event."""
    blocks, out, todo = meaning.schema.blocks, [], [(tree.kind, tree)]
    while todo:
        event, tree = todo.pop()
        a, children, _ = tree
        out.append((event, blocks[a].tag, a))
        if event != CLOSE:
            todo.append((CLOSE, tree))
            if children:
                todo += [(child.kind, child) for child in reversed(children)]
    return out


def agree_and_differ(meaning, one, other):
    """Do the documents agree through some opening, its kind too, and differ in its type?"""
    pairs = zip(typed_stream(meaning, one), typed_stream(meaning, other))
    for (event, tag, a), (event2, tag2, b) in pairs:
        if (event, tag) != (event2, tag2):
            return False
        if event in KINDS and a != b:
            return True
    return False


def listed_trees(meaning):
    """Valid typed trees, and whether they are all."""
    if finitely_many(meaning.schema):
        try:
            return sorted(tree for root in meaning.schema.roots
                          for tree in all_trees(meaning, root)), True
        except TooMany:
            pass
    return small_trees(meaning), False


def small_trees(meaning):
    """The valid typed trees up to a number of elements; it stops at a size with which there are
    too many."""
    found = []
    for size in range(1, MOST_ELEMENTS + 1):
        try:
            found += [tree for root in meaning.schema.roots for tree in meaning.trees(root, size)]
        except TooMany:
            break
        if len(found) > MOST_TREES:
            break
    return found


def all_trees(meaning, a):
    """All trees typed with a at their root, or TooMany. Only for a schema that `finitely_many`
    passes: no path comes to a state twice, and no type stands below itself."""
    found = meaning.nil_trees(a)
    for word in sorted(set(all_words(meaning, a, 0))):
        for children in product(*(all_trees(meaning, j) for j in word)):
            found.append(Tree(a, children))
            if len(found) > MOST_LISTED_TREES:
                raise TooMany
    return found


def all_words(meaning, a, p):
    """The words that paths from state p to an accepting one read, one for each path."""
    if p in meaning.accepting[a]:
        yield ()
    for j, q in meaning.leaving[a].get(p, ()):
        for word in all_words(meaning, a, q):
            yield (j,) + word


def finitely_many(schema):
    """Do all steps lead to later states and name later types? Then there are finitely many
    trees."""
    return all(j > a and q > p for a, block in enumerate(schema.blocks)
               for p, j, q in block.steps)
