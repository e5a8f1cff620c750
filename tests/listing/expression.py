"""Content written as an expression: its text, its words, and the automaton that it becomes.

The text is a list of commands without the one that ends it. By the request's grammar it is a
choice: sequences of factors; a factor is a use of a type, a choice in brackets, or one of these
repeated. The words of a use are its type alone; of a choice those of each sequence; of a sequence
a word of each factor in order, put together; of a repeat any number of its factor's words, put
together, none among them. Uses are numbered in order from 1 on; a word of uses has the number of
the use for its type.

The automaton is made from listed words of uses by the request's wording: a step to a use from each
use that it directly follows in some word, and from 0 if some word begins with it; a use accepts if
some word ends with it, and 0 if the empty word is one. Not all words are listed. Call a word plain
if it can be made with every repeat taken once or not at all. Listed are the plain words and those
made in the same way but for one repeat that is taken twice at one place. They are enough, which is
shown for each part by the parts that it has:

 1. A part has a plain word, made with no repeat taken. If the empty word is one of its words, it is
    a plain one.
 2. A use that begins some word of a part begins a plain one. Of a sequence: it begins the word of
    the first factor whose word is not empty. That factor has such a plain word, those before it
    have the empty word, those after it some plain word. Of a repeat: it begins the first round that
    is not empty, which can be taken alone. In the same way a use that ends some word ends a plain
    one.
 3. A use that directly follows another in some word of a part does so in a listed one. Where both
    stand in the word of one factor, or in one round of a repeat, take a listed word of that, and
    for the other factors plain words. Where they stand in two factors of a sequence, take a plain
    word that ends with the one, the empty word for each factor between, a plain word that begins
    with the other. Where they stand in two rounds of a repeat, take it twice: a plain word that
    ends with the one and a plain word that begins with the other.

An expression that has too many listed words raises TooMany and is no case, but for those of
`expressions.py` whose automata are argued there and entered as known.
"""

from functools import lru_cache
from typing import NamedTuple

from .meaning import TooMany, Wrong
from .tables import (CLOSE_BRACKET, MOST_LISTED_WORDS, MOST_WORDS_COMPARED, NEXT_SEQUENCE,
                     OPEN_BRACKET, REPEAT, USE)


# The text by the grammar.

class Use(NamedTuple):
    number: int
    type: int


class Choice(NamedTuple):
    """Its sequences, each the tuple of its factors."""

    sequences: tuple


class Many(NamedTuple):
    """A factor any number of times."""

    factor: tuple


class Text:
    """The commands of an expression, each (command, operands), read by the grammar."""

    def __init__(self, commands):
        self.commands, self.at, self.uses = commands, 0, 0

    def next(self):
        return self.commands[self.at][0] if self.at < len(self.commands) else None

    def expression(self):
        """The whole text as a choice, or None if it is none."""
        found = self.choice()
        return found if self.at == len(self.commands) else None

    def choice(self):
        """One or more sequences with 33 between them."""
        sequences = [self.sequence()]
        while self.next() == NEXT_SEQUENCE:
            self.at += 1
            sequences.append(self.sequence())
        return Choice(tuple(sequences))

    def sequence(self):
        """Zero or more factors."""
        factors = []
        while self.next() in (USE, OPEN_BRACKET):
            start = self.at
            factor = self.factor()
            if factor is None:
                self.at = start
                break
            factors.append(factor)
        return tuple(factors)

    def factor(self):
        """32 with a type, or 30, a choice and 31; one 34 after it repeats it."""
        command, operands = self.commands[self.at]
        self.at += 1
        if command == USE:
            self.uses += 1
            found = Use(self.uses, *operands)
        else:
            found = self.choice()
            if self.next() != CLOSE_BRACKET:
                return None
            self.at += 1
        if self.next() == REPEAT:
            self.at += 1
            found = Many(found)
        return found


def parsed(commands):
    """The expression that the commands are, or None."""
    return Text(commands).expression()


def begins_expression(commands):
    """Does some expression begin so? Then one ends right after the brackets that are still open."""
    return any(parsed([*commands, *[(CLOSE_BRACKET, ())] * more]) is not None
               for more in range(len(commands) + 1))


def uses_of(part):
    """The uses of a part, in order."""
    if isinstance(part, Use):
        return [part]
    if isinstance(part, Many):
        return uses_of(part.factor)
    return [use for sequence in part.sequences for factor in sequence for use in uses_of(factor)]


# Words.

def joined(words, others, most=None):
    """Each word with each of the others after it, of at most so many letters."""
    if len(words) * len(others) > 10 * MOST_LISTED_WORDS:
        raise TooMany
    if most is None:
        found = {v + w for v in words for w in others}
    else:
        fitting = {length: [w for w in others if length + len(w) <= most]
                   for length in {len(v) for v in words}}
        found = {v + w for v in words for w in fitting[len(v)]}
    if len(found) > MOST_LISTED_WORDS:
        raise TooMany
    return found


def words(part, most, letter):
    """All words of a part of at most so many letters; `letter` says of a use which it is."""
    if isinstance(part, Use):
        return {(letter(part),)} if most else set()
    if isinstance(part, Many):
        once = words(part.factor, most, letter)
        found = new = {()}
        while new:
            new = joined(new, once, most) - found
            found = found | new
        return found
    found = set()
    for sequence in part.sequences:
        of_sequence = {()}
        for factor in sequence:
            of_sequence = joined(of_sequence, words(factor, most, letter), most)
        found |= of_sequence
    return found


def use_words(part):
    """The words of uses of a part: the plain ones, and all that are listed."""
    if isinstance(part, Use):
        return {(part.number,)}, {(part.number,)}
    if isinstance(part, Many):
        plain, listed = use_words(part.factor)
        return plain | {()}, listed | {()} | joined(plain, plain)
    plain, listed = set(), set()
    for sequence in part.sequences:
        plain_so_far, listed_so_far = {()}, {()}
        for factor in sequence:
            of_factor, listed_of_factor = use_words(factor)
            listed_so_far = (joined(plain_so_far, listed_of_factor)
                             | joined(listed_so_far, of_factor))
            plain_so_far = joined(plain_so_far, of_factor)
        plain |= plain_so_far
        listed |= listed_so_far
    return plain, listed


# The automaton.

class Automaton(NamedTuple):
    states: int
    accepting: list
    steps: list         # rising by from, type, to


def by_wording(uses, listed):
    """The automaton that the request words over words of uses."""
    type_of = {use.number: use.type for use in uses}
    pairs = {pair for word in listed for pair in zip((0, *word), word)}
    return Automaton(1 + len(uses), sorted({word[-1] if word else 0 for word in listed}),
                     sorted((p, type_of[q], q) for p, q in pairs))


KNOWN = {}      # automata of expressions that are not listed, by their commands


def enter_known(commands, accepting, steps):
    """Enters the automaton of an expression; one that can be listed must come out the same."""
    uses = uses_of(parsed(commands))
    found = Automaton(1 + len(uses), sorted(accepting), sorted(steps))
    KNOWN[commands] = found
    try:
        if by_wording(uses, use_words(parsed(commands))[1]) != found:
            raise Wrong("an expression is listed with another automaton than is known")
    except TooMany:
        pass


@lru_cache(4000)
def automaton(commands):
    """The automaton of the expression that these commands are."""
    if commands in KNOWN:
        return KNOWN[commands]
    expression = parsed(commands)
    if expression is None:
        raise Wrong("commands that passed the questions and are no expression")
    made = by_wording(uses_of(expression), use_words(expression)[1])
    check_words(expression, made)
    return made


# What is looked at beside that.

def check_words(expression, made):
    """The automaton's words are the expression's, up to a length at which there are not too many;
    and longer words of uses, made in any way, lead to no other automaton."""
    uses = uses_of(expression)
    most, of_uses = longest_compared(expression, len(uses) + 2)
    type_of = {use.number: use.type for use in uses}
    if automaton_words(made, most) != {tuple(type_of[n] for n in word) for word in of_uses}:
        raise Wrong("an automaton has other words than its expression")
    found = by_wording(uses, of_uses)
    if not (set(found.steps) <= set(made.steps)
            and set(found.accepting) <= set(made.accepting)):
        raise Wrong("the listed words of uses are not enough for the wording")


def longest_compared(expression, most):
    """The greatest length, up to this one, at which there are not too many words of uses, and these
    words, the shorter ones among them."""
    length, found = 0, words(expression, 0, lambda use: use.number)
    for more in range(1, most + 1):
        try:
            longer = words(expression, more, lambda use: use.number)
        except TooMany:
            break
        if len(longer) > MOST_WORDS_COMPARED:
            break
        length, found = more, longer
    return length, found


def automaton_words(made, most):
    """All words of at most so many types that lead from state 0 to an accepting state."""
    found, layer = set(), {((), 0)}
    leaving = [[(j, q) for from_, j, q in made.steps if from_ == p] for p in range(made.states)]
    for length in range(most + 1):
        if length:
            layer = {(word + (j,), q) for word, p in layer for j, q in leaving[p]}
        found |= {word for word, p in layer if p in made.accepting}
    return found
