"""Lists of calls under schemas with nillable types, with the answers that each must get by the
request's words: t and the type, r and the number, ok."""

from . import samples, schemas
from .nil import (BELOW_NIL, BY_KIND, EITHER, NEEDS_A_CHILD, NEEDS_ITSELF, NILLABLE_NESTED,
                  NIL_FIRST, NIL_ROOT, ONLY_NIL, RACKS, ROOTS_BY_KIND, all_nillable, either,
                  only_nil)
from .roots import no_tree
from .schema_file import Block, Schema, leaf, once, write
from .tables import BYTE, MOST_STATES, MOST_TAGS, MOST_TYPES, WORD

# One child: nil alone, of either kind, one of two types that the kind tells apart.
NIL_CHILD = write(Schema(2, [once(0, 1), only_nil(1)]))
CHILD_OF_EITHER = write(Schema(2, [once(0, 1), either(1)]))
CHILD_BY_KIND = write(Schema(2, [once(0, 1, 2), leaf(1), only_nil(1)]))
# Type 1 leads to a dead state alone; so do types 2 and 3 of the next, and type 1 of the last.
TO_DEAD_STATE = write(Schema(3, [Block(0, 3, [1], [(0, 1, 2), (0, 2, 1)]), either(1), either(2)]))
NILLABLE_DEAD_STATES, NILLABLE_DEAD_COMPETITOR = map(all_nillable, (
    schemas.DEAD_STATES, schemas.DEAD_COMPETITOR))
# Type 1 leads to two states, from which types 2 and 3 lead on; 003's (a or b)* a (a or b).
TO_TWO_STATES = write(Schema(4, [Block(0, 4, [3], [(0, 1, 1), (0, 1, 2), (1, 2, 3), (2, 3, 3)]),
                                 only_nil(1), only_nil(2), only_nil(3)]))
NILLABLE_LAST_BUT_ONE = all_nillable(samples.LAST_BUT_ONE)
# The last type, of the last tag, needs 31 children of the type before it, a state each.
LAST_ROWS = write(Schema(MOST_TAGS, [
    *[no_tree(0)] * (MOST_TYPES - 2), only_nil(MOST_TAGS - 2),
    Block(MOST_TAGS - 1, MOST_STATES, [MOST_STATES - 1],
          [(p, MOST_TYPES - 2, p + 1) for p in range(MOST_STATES - 1)])], (MOST_TYPES - 1,)))

# By what they show; of each one list at least is under a schema whose documents are all listed.
ANSWERS = {
    "a type that bears a nil tree alone: 21 gets 13, 23 its type, as a child and as a root": [
        (NIL_CHILD, "0 1 n0 n1 1 /1 1 n1 /0 f", "t0 r13 r13 t1 r13 ok r13 r13 ok ok"),
        (ONLY_NIL, "0 1 n1 /1 1 n2 2 /0 f", "t0 r13 t1 ok r13 r13 r13 ok ok"),
        (NIL_ROOT, "0 1 n1 n0 /0 f", "r13 r13 r13 t0 ok ok"),
        (RACKS, "0 2 n2 /2 2 n2 /0 f", "t0 r13 t2 ok r13 r13 ok ok")],
    "nillable, and the start state accepts: both kinds": [
        (CHILD_OF_EITHER, "0 n1 n1 1 /1 /0 f", "t0 t1 r13 r13 ok ok ok"),
        (CHILD_OF_EITHER, "0 1 n1 1 /1 n1 /0 f", "t0 t1 r13 r13 ok r13 ok ok"),
        (EITHER, "0 n1 /1 1 /1 /0 f", "t0 t1 ok t1 ok ok ok"),
        (NILLABLE_NESTED, "0 n0 /0 0 /0 /0 f", "t0 t0 ok t0 ok ok ok")],
    "of one tag, one nil alone and one plain alone: 21 gives one and 23 the other": [
        (CHILD_BY_KIND, "0 n1 1 /1 /0 f", "t0 t2 r13 ok ok ok"),
        (CHILD_BY_KIND, "0 1 n1 /1 /0 f", "t0 t1 r13 ok ok ok"),
        (BY_KIND, "0 n1 /1 1 /1 /0 f", "t0 t2 ok t1 ok ok ok"),
        (NIL_FIRST, "0 n1 /1 1 /1 n2 2 /2 /1 /0 f", "t0 t1 ok t2 r17 r13 t3 ok ok ok ok")],
    "the same as roots": [
        (ROOTS_BY_KIND, "n0 1 /0 f", "t1 r13 ok ok"),
        (ROOTS_BY_KIND, "n1 0 n1 1 /1 /0 f", "r13 t0 r13 t2 ok ok ok")],
    "an opening of either kind inside a nil element, also one that may stand in its content": [
        (NEEDS_A_CHILD, "n0 1 n1 0 n0 2 n2 3 n3 /0 f", "t0 r13 r13 r13 r13 r13 r13 r12 r12 ok ok"),
        (NILLABLE_NESTED, "0 n0 0 n0 /0 0 n0 0 n0 /0 /0 /0 f",
         "t0 t0 r13 r13 ok t0 t0 r13 r13 ok ok ok ok")],
    "closing a nil element; the same type opened plainly": [
        (NEEDS_A_CHILD, "0 n1 /0 /2 /3 f /1 /0 f", "t0 t1 r16 r16 r12 r18 ok ok ok"),
        (NEEDS_A_CHILD, "0 1 /1 /0 2 /2 /1 /0 f", "t0 t1 r17 r16 t2 ok ok ok ok")],
    "a nil root: a finish before its closing, a second root": [
        (NEEDS_A_CHILD, "n0 f /1 /0 0 n0 /0 f 0 n0 f", "t0 r18 r16 ok r13 r13 r15 ok r11 r11 r11")],
    "a second nil element in the place of one": [
        (NEEDS_A_CHILD, "0 n1 /1 n1 1 /0 f", "t0 t1 ok r13 r13 ok ok"),
        (NEEDS_ITSELF, "0 n0 /0 0 n0 /0 f", "t0 t0 ok r13 r13 ok ok")],
    "tags past the count": [
        (CHILD_BY_KIND, "n2 n255 0 n2 n255 n1 n2 /1 /0 f", "r12 r12 t0 r12 r12 t2 r12 ok ok ok"),
        (BY_KIND, "n2 n255 0 n2 n255 n1 n2 /1 /0 f", "r12 r12 t0 r12 r12 t2 r12 ok ok ok")],
    "nil openings that would lead into a dead state alone": [
        (TO_DEAD_STATE, "0 n1 1 n2 /2 /0 f", "t0 r13 r13 t2 ok ok ok"),
        (NILLABLE_DEAD_STATES, "0 n2 n3 n1 /1 n3 n2 n1 /1 /0 f",
         "t0 r13 r13 t1 ok r13 r13 t1 ok ok ok"),
        (NILLABLE_DEAD_COMPETITOR, "0 n1 /1 n1 1 /0 f", "t0 t2 ok r13 r13 ok ok")],
    "nil openings that lead to several states": [
        (TO_TWO_STATES, "0 n1 /1 n2 /2 n3 /0 f", "t0 t1 ok t2 ok r13 ok ok"),
        (TO_TWO_STATES, "0 n1 /1 /0 n3 /3 n2 /0 f", "t0 t1 ok r17 t3 ok r13 ok ok"),
        (NILLABLE_LAST_BUT_ONE, "0 n1 /1 /0 n1 /1 n2 /2 /0 f", "t0 t1 ok r17 t1 ok t2 ok ok ok"),
        (NILLABLE_LAST_BUT_ONE, "0 n1 /1 n2 /2 n2 /2 /0 n1 /1 n1 /1 /0 f",
         "t0 t1 ok t2 ok t2 ok r17 t1 ok t1 ok ok ok")],
}
# The same with documents too large to be listed.
LONG_ANSWERS = [
    (LAST_ROWS, "31 " + "n30 /30 " * 30 + "/31 n31 30 n30 /30 n30 /31 f",
     "t63 " + "t62 ok " * 30 + "r17 r13 r13 t62 ok r13 ok ok"),
]

# The same with entries put between the calls: (field, number, index).
MADE_UP_ANSWERS = [
    # A nillable type with no states: closed, and nothing opens in it. With state 0 it is judged by
    # that.
    (NEEDS_ITSELF, ["0", ("level set", 0, 0), "0 n0 /0 f"], "t0 r13 r13 ok ok"),
    (NEEDS_ITSELF, ["n0", ("level set", 1, 0), "/0 n0 /0 /0 f"], "t0 r17 t0 ok ok ok"),
    (NILLABLE_NESTED, ["n0", ("level set", 1, 0), "0 /0 /0 f"], "t0 t0 ok ok ok"),
    # A type that is not nillable with no states, until it is.
    (samples.NESTED, ["0", ("level set", 0, 0), "0 n0 /0", ("nillable", 1, 0), "0 n0 /0 f"],
     "t0 r13 r13 r17 r13 r13 ok ok"),
    (NEEDS_A_CHILD, ["0 1 2", ("level set", 0, 2), "n2 /2", ("nillable", 1, 2), "/2 /1 /0 f"],
     "t0 t1 t2 r13 r17 ok ok ok ok"),
    # A nil element's type is not nillable any more, and is again.
    (NEEDS_A_CHILD, ["n0", ("nillable", 0, 0), "/0 1", ("nillable", BYTE, 0), "1 /0 f"],
     "t0 r17 r13 r13 ok ok"),
    # Flags put under an open document, on one type after the other; any number but 0 is one.
    (samples.R, ["0 n1", ("nillable", 1, 1), "n1 /1 n2", ("nillable", 2, 2), "n2 /2 n1",
                 ("nillable", 128, 3), "n1 /1", ("nillable", 0, 3), "n1 1 /1 /0 f"],
     "t0 r13 t1 ok r13 t2 ok r13 t3 ok r13 t3 ok ok ok"),
    (samples.NESTED, ["n0", ("nillable", 1, 0), "n0 /0 f"], "r13 t0 ok ok"),
    # Of several types of a tag the smallest that bears a tree of the kind, below and as roots.
    (BY_KIND, ["0", ("nillable", 1, 1), "n1 /1 1 /1", ("accepting", 1, 2), "1 /1",
               ("accepting", 0, 1), "1 /1 n1 /1", ("nillable", 0, 1), "1 /1 n1 /1 /0 f"],
     "t0 t1 ok t1 ok t1 ok t2 ok t1 ok t2 ok t2 ok ok ok"),
    (ROOTS_BY_KIND, [("nillable", 1, 0), "n0 /0 f"], "t0 ok ok"),
    (ROOTS_BY_KIND, [("accepting", 1, 1), "0", ("depth", 0, 0), ("rooted", 0, 0),
                     ("accepting", 0, 0), "0 /0 f"], "t0 t1 ok ok"),
    (write(Schema(1, [only_nil(0)] * MOST_TYPES, (MOST_TYPES - 1,))),
     [("root", 9, 1), ("root", 5, 2), ("root", 7, 3), ("roots", 4, 0), "0 n0 /0 n0",
      ("rooted", 0, 0), ("nillable", 0, 5), "n0 /0", ("rooted", 0, 0), ("accepting", 1, 5), "0 /0",
      ("rooted", 0, 0), ("nillable", 0, 7), "n0 /0", ("rooted", 0, 0), ("roots", 1, 0), "n0 /0 f"],
     "r13 t5 ok r13 t7 ok t5 ok t9 ok t63 ok ok"),
    # Types bear a tree because another is nillable, or no longer do.
    (BELOW_NIL, [("nillable", 0, 2), "0 n0", ("nillable", 1, 2), "0", ("nillable", 0, 2), "1 n1",
                 ("nillable", 1, 1), "1 n1 /1 /0 f"], "r13 r13 t0 r13 r13 r13 t1 ok ok ok"),
    # Entries past the types and past the table.
    (EITHER, [*(("nillable", BYTE, n) for n in (2, MOST_TYPES - 1, MOST_TYPES, BYTE, WORD)),
              "n0 0 n1 /1 1 /1 /0 f"], "r13 t0 t1 ok t1 ok ok ok"),
    # A set of two states: the smallest type that leads on from either.
    (TO_TWO_STATES, ["0", ("level set", 0b110, 0), "n3 /3 /0", ("depth", 1, 0),
                     ("level set", 0b110, 0), "n2 /2 /0", ("depth", 1, 0), ("tag", 2, 3),
                     ("level set", 0b110, 0), "n2 /2", ("level set", 0b100, 0), "n2 /2 /0 f"],
     "t0 t3 ok ok t2 ok ok t2 ok t3 ok ok ok"),
]

# Lists with the sets that the root element keeps after each of its children's openings, as numbers.
KEPT = [
    (TO_TWO_STATES, ["0 n1 /1 n2 /2 /0 f"], [0b0110, 0b1000]),
    (NILLABLE_LAST_BUT_ONE, ["0 n1 /1 n1 /1 n2 /2 1 /1 n2 /2 /0 f"],
     [0b011, 0b111, 0b101, 0b011, 0b101]),
    # Only live states are kept.
    (NILLABLE_DEAD_STATES, ["0 n1 /1 n1 /1 /0 f"], [0b0010, 0b0010]),
    (NILLABLE_DEAD_STATES, ["0", ("level set", 0b1111, 0), "n1 /1 n1 /1 /0 f"], [0b0010, 0b0010]),
    # Of two types the smaller one's.
    (TO_TWO_STATES, ["0", ("tag", 2, 3), ("to", 2, 2), ("level set", 0b110, 0), "n2 /2",
                     ("level set", 0b100, 0), "n2 /2 /0 f"], [0b0100, 0b1000]),
    # 32 states, 1,024 steps.
    (all_nillable(write(schemas.full_steps())), ["31 n0 /0 0 /0 n0 /0 /31 f"],
     [(1 << MOST_STATES) - 1] * 3),
]
