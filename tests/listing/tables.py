"""The numbers of document 01 and of the requests, each at this one place: limits, commands, events,
calls, questions.

A question is (number, name of the method that answers it). The readers of a schema file and of
events ask in the order of these tables, so a new command, event, question or limit is a line here
and a method of its name.
"""

from typing import NamedTuple

# Limits.
MOST_TAGS, MOST_TYPES, MOST_STATES, MOST_STEPS, MOST_LEVELS = 32, 64, 32, 1024, 64
MOST_ROOTS = 8
MOST_USES, MOST_BRACKETS = 31, 16       # of one expression
LONGEST_FILE = 8389         # of the accepted schema files with one ROOT and only STATE_COMMANDS
ORDERED_PAIRS, MOST_PAIRS = 1024, 528   # of states
MOST_WORD, LEAST_WITNESS_ROOM = 527, 532
NO_PARENT = 255         # A of a witness where roots compete
SCHEMA_BYTES, EVENT_BYTES, PROGRAM_TYPES = 16384, 32768, 16384

# How far is listed, and the rooms and lengths that a case has.
MOST_BEGINNINGS = 1500      # of one schema's words
MOST_OF_A_LENGTH = 200      # of one type's words, where all are listed
MOST_ELEMENTS = 7           # of a listed document
MOST_LISTED_WORDS, MOST_WORDS_COMPARED = 4000, 100      # of one expression
MOST_FORESTS, MOST_TREES, MOST_LISTED_TREES, MOST_LAYER = 3000, 250, 400, 20000
MOST_WITNESS_ROOM, MOST_LENGTH = 600, 65535

# Answers: 0, or the number of the first question that is answered no.
TAKEN = 0
SHORT_WITNESS_ROOM = 1
NO_COMMAND = 2
OUT_OF_ORDER = 3
OUT_OF_RANGE = 4
TOO_MANY = 5
REPEATED = 6
TYPE_NOT_GIVEN = 7
NO_TREE = 8
COMPETITION = 9
OUTSIDE_LIMITS = 10
FINISHED = 11
NO_SUCH_TAG = 12
NO_DOCUMENT = 13
TOO_DEEP = 14
NONE_OPEN = 15
OTHER_TAG = 16
NO_WORD = 17
NOT_WHOLE = 18
NO_EVENT = 19
NO_ROOM = 20
CANNOT_FOLLOW = 21
TOO_MANY_USES = 22
TOO_MANY_BRACKETS = 23
UNUSED_TYPE = 24


# The schema file.

class Command(NamedTuple):
    """The kinds of its operands (their ranges stand in schema_file.RANGES), and what it may
    follow: commands, None at the file's beginning, EXPRESSION after a TYPE of state count 0. A NIL
    before it is passed over."""

    operands: tuple
    follows: tuple


TAGS, TYPE, FINAL, STEP, ROOT, NIL, DONE = 0x10, 0x11, 0x12, 0x13, 0x14, 0x15, 0x1F
OPEN_BRACKET, CLOSE_BRACKET, USE, NEXT_SEQUENCE, REPEAT = 0x30, 0x31, 0x32, 0x33, 0x34
END_EXPRESSION, EXPRESSION = 0x3F, "expression"
IN_BLOCK = (TYPE, FINAL, STEP)
IN_EXPRESSION = (EXPRESSION, OPEN_BRACKET, CLOSE_BRACKET, USE, NEXT_SEQUENCE, REPEAT)
STATE_COMMANDS = {
    TAGS: Command(("tag count",), (None,)),
    TYPE: Command(("tag", "state count"), (TAGS, *IN_BLOCK, END_EXPRESSION)),
    FINAL: Command(("state",), IN_BLOCK),
    STEP: Command(("state", "step's type", "state"), IN_BLOCK),
    ROOT: Command(("given type",), (*IN_BLOCK, END_EXPRESSION, ROOT)),
    DONE: Command((), (ROOT,)),
}
EXPRESSION_COMMANDS = {
    OPEN_BRACKET: Command((), IN_EXPRESSION),
    CLOSE_BRACKET: Command((), IN_EXPRESSION),
    USE: Command(("step's type",), IN_EXPRESSION),
    NEXT_SEQUENCE: Command((), IN_EXPRESSION),
    REPEAT: Command((), IN_EXPRESSION),
    END_EXPRESSION: Command((), IN_EXPRESSION),
}
NIL_COMMAND = {NIL: Command((), (*IN_BLOCK, END_EXPRESSION))}
COMMANDS = {**STATE_COMMANDS, **EXPRESSION_COMMANDS, **NIL_COMMAND}
MOST_COMMANDS = {TYPE: MOST_TYPES, STEP: MOST_STEPS, ROOT: MOST_ROOTS}
NOT_TWICE = (FINAL, STEP, ROOT, NIL)    # in a block; ROOTs, which stand together, in the file

# Of each command; the place is the command's.
COMMAND_QUESTIONS = (
    (OUT_OF_ORDER, "is_before_the_end"),
    (NO_COMMAND, "is_whole"),
    (OUT_OF_ORDER, "is_in_order"),
    (OUT_OF_RANGE, "is_in_range"),
    (CANNOT_FOLLOW, "can_follow"),
    (TOO_MANY_USES, "has_use_left"),
    (TOO_MANY_BRACKETS, "has_bracket_left"),
    (TOO_MANY, "is_within_limits"),
    (REPEATED, "is_new"),
)
# After DONE, of the file and then of its schema; the method gives the place, or None for yes.
FILE_QUESTIONS = ((TYPE_NOT_GIVEN, "named_but_not_given"),)
SCHEMA_QUESTIONS = ((NO_TREE, "roots_without_tree"), (UNUSED_TYPE, "unused_type_place"),
                    (COMPETITION, "competition_place"))
# Of a stored file and of a schema value: the same without 24.
STORED_QUESTIONS = tuple(asked for asked in SCHEMA_QUESTIONS if asked[0] != UNUSED_TYPE)


# Events and calls.

OPEN, CLOSE, OPEN_NIL, FINISH = 0x21, 0x22, 0x23, 0x2F
EVENTS = {OPEN: 1, CLOSE: 1, OPEN_NIL: 1, FINISH: 0}    # with the number of their operands
KINDS = (OPEN, OPEN_NIL)                # of openings: plain and nil
PLAIN_EVENTS = (OPEN, CLOSE, FINISH)    # those of documents without nil elements
# By a call's byte: its event, and whether it is lent.
CALLS = (*((event, lent) for lent in (False, True) for event in PLAIN_EVENTS),
         *((OPEN_NIL, lent) for lent in (False, True)))

FIRST_QUESTIONS = ((OUTSIDE_LIMITS, "is_inside"), (FINISHED, "is_unfinished"))
TAG_QUESTIONS = (*FIRST_QUESTIONS, (NO_SUCH_TAG, "knows_tag"))
CALL_QUESTIONS = {
    OPEN: (*TAG_QUESTIONS, (NO_DOCUMENT, "may_open"), (TOO_DEEP, "has_level")),
    OPEN_NIL: (*TAG_QUESTIONS, (NO_DOCUMENT, "may_open_nil"), (TOO_DEEP, "has_level")),
    CLOSE: (*TAG_QUESTIONS, (NONE_OPEN, "has_open"), (OTHER_TAG, "is_innermost"),
            (NO_WORD, "is_complete")),
    FINISH: (*FIRST_QUESTIONS, (NOT_WHOLE, "is_whole")),
}
# Of an event file: 19 before the call's questions, and these after them.
LAST_QUESTIONS = {**dict.fromkeys(KINDS, ((NO_ROOM, "has_room"),)), CLOSE: (), FINISH: ()}


# Values.

class Field(NamedTuple):
    """A field's byte in a case, its entries (0: it is one number, no table), its greatest value
    and, of a reading, the letter that it is printed by."""

    byte: int
    entries: int
    most: int
    letter: str = ""


BYTE, WORD, SET = (1 << 8) - 1, (1 << 16) - 1, (1 << MOST_STATES) - 1
SCHEMA_FIELDS = {
    "tags": Field(0x10, 0, BYTE),
    "types": Field(0x11, 0, BYTE),
    "root": Field(0x12, MOST_ROOTS, BYTE),
    "tag": Field(0x13, MOST_TYPES, BYTE),
    "states": Field(0x14, MOST_TYPES, BYTE),
    "accepting": Field(0x15, MOST_TYPES, SET),
    "steps": Field(0x16, MOST_TYPES, WORD),
    "from": Field(0x17, MOST_STEPS, BYTE),
    "by": Field(0x18, MOST_STEPS, BYTE),
    "to": Field(0x19, MOST_STEPS, BYTE),
    "roots": Field(0x1A, 0, BYTE),          # how many entries of "root" are used
    "nillable": Field(0x1B, MOST_TYPES, BYTE),      # 0 for no, any other number for yes
}
READING_FIELDS = {
    "depth": Field(0x20, 0, BYTE, "d"),
    "rooted": Field(0x21, 0, 1, "r"),
    "finished": Field(0x22, 0, 1, "f"),
    "level type": Field(0x23, MOST_LEVELS, BYTE, "t"),
    "level set": Field(0x24, MOST_LEVELS, SET, "s"),
}
FIELDS = {**SCHEMA_FIELDS, **READING_FIELDS}
FIELD_NAMES = {field.byte: name for name, field in FIELDS.items()}
