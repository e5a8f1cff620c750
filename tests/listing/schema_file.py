"""The schema file's questions 2 to 7 and 21 to 23, command by command, and the writer of schema
files."""

from collections import Counter
from dataclasses import dataclass, field

from .expression import automaton
from .tables import (CLOSE_BRACKET, COMMAND_QUESTIONS, COMMANDS, DONE, END_EXPRESSION, EXPRESSION,
                     EXPRESSION_COMMANDS, FILE_QUESTIONS, FINAL, MOST_BRACKETS, MOST_COMMANDS,
                     MOST_STATES, MOST_STEPS, MOST_TAGS, MOST_TYPES, MOST_USES, NIL, NO_COMMAND,
                     NOT_TWICE, OPEN_BRACKET, REPEAT, ROOT, STEP, TAGS, TYPE, USE)


class Refused(Exception):
    """A refusal's number and place."""

    def __init__(self, number, place):
        super().__init__(number, place)
        self.number, self.place = number, place


@dataclass
class Block:
    """A type: its tag and its content automaton; a step is (from, type, to)."""

    tag: int
    states: int
    accepting: list = field(default_factory=list)
    steps: list = field(default_factory=list)
    nillable: bool = False


@dataclass
class Content:
    """A type whose content is written as an expression, the bytes without those around it."""

    tag: int
    text: bytes
    nillable: bool = False


@dataclass
class Schema:
    """What a schema file states; a type's number is its place in `blocks`; the root types are in
    the order of the file. Where a file was read, the place of each TYPE."""

    tags: int = 0
    blocks: list = field(default_factory=list)
    roots: tuple = (0,)
    places: list = field(default_factory=list, compare=False)


RANGES = {
    "tag count": lambda schema: range(1, MOST_TAGS + 1),
    "tag": lambda schema: range(schema.tags),
    "state count": lambda schema: range(MOST_STATES + 1),       # 0: an expression follows
    "state": lambda schema: range(schema.blocks[-1].states),
    "step's type": lambda schema: range(MOST_TYPES),
    "given type": lambda schema: range(len(schema.blocks)),
}


class Reader:
    """A schema file as far as it is read: the command at `at` is in question."""

    def __init__(self, data):
        self.data, self.at, self.last = data, 0, None   # the last command that is no NIL
        self.schema, self.counts, self.given = Schema(roots=()), Counter(), set()
        self.text, self.in_text = [], Counter()     # of the expression, as far as it is read
        self.named = []         # the types that STEPs and uses name, each with the place

    def read(self):
        """The schema that the file states, or Refused."""
        questions = [(number, getattr(self, asks)) for number, asks in COMMAND_QUESTIONS]
        while self.at < len(self.data):
            self.command = self.data[self.at]
            count = operand_count(self.command)
            self.operands = tuple(self.data[self.at + 1:self.at + 1 + count])
            for number, is_yes in questions:
                if not is_yes():
                    raise Refused(number, self.at)
            self.enter()
        if self.last != DONE:
            raise Refused(NO_COMMAND, self.at)
        for number, asks in FILE_QUESTIONS:
            place = getattr(self, asks)()
            if place is not None:
                raise Refused(number, place)
        return self.schema

    def is_before_the_end(self):
        return self.last != DONE

    def is_whole(self):
        return (self.command in COMMANDS
                and len(self.operands) == operand_count(self.command))

    def is_in_order(self):
        return self.last in COMMANDS[self.command].follows

    def is_in_range(self):
        for kind, operand in zip(COMMANDS[self.command].operands, self.operands):
            if operand not in RANGES[kind](self.schema):
                return False
        return True

    def can_follow(self):
        """May this command of an expression stand here? A bracket is closed that is open, a factor
        repeated right after it and once, the end comes with no bracket open."""
        if self.command == CLOSE_BRACKET:
            return self.brackets() > 0
        if self.command == REPEAT:
            return self.last in (USE, CLOSE_BRACKET)
        return self.command != END_EXPRESSION or self.brackets() == 0

    def has_use_left(self):
        return self.command != USE or self.in_text[USE] < MOST_USES

    def has_bracket_left(self):
        return self.command != OPEN_BRACKET or self.brackets() < MOST_BRACKETS

    def brackets(self):
        """How many are open."""
        return self.in_text[OPEN_BRACKET] - self.in_text[CLOSE_BRACKET]

    def is_within_limits(self):
        if self.command == END_EXPRESSION:
            return self.counts[STEP] + len(automaton(tuple(self.text)).steps) <= MOST_STEPS
        most = MOST_COMMANDS.get(self.command)
        return most is None or self.counts[self.command] < most

    def key(self):
        """The command in its block."""
        return len(self.schema.blocks), self.command, self.operands

    def is_new(self):
        return self.command not in NOT_TWICE or self.key() not in self.given

    def named_but_not_given(self):
        """The place of the first STEP or use that names a type not given, or None."""
        return next((place for by, place in self.named if by >= len(self.schema.blocks)), None)

    def enter(self):
        """Enters the command's part of the schema and goes on to the next."""
        schema, operands = self.schema, self.operands
        self.counts[self.command] += 1
        self.given.add(self.key())
        if self.command == TAGS:
            [schema.tags] = operands
        elif self.command == TYPE:
            schema.blocks.append(Block(*operands))
            schema.places.append(self.at)
            self.text, self.in_text = [], Counter()
        elif self.command == FINAL:
            schema.blocks[-1].accepting.append(operands[0])
        elif self.command == STEP:
            schema.blocks[-1].steps.append(operands)
            self.named.append((operands[1], self.at))
        elif self.command == ROOT:
            schema.roots += operands
        elif self.command == NIL:
            schema.blocks[-1].nillable = True
        elif self.command == END_EXPRESSION:
            self.enter_content(*automaton(tuple(self.text)))
        elif self.command in EXPRESSION_COMMANDS:
            self.text.append((self.command, operands))
            self.in_text[self.command] += 1
            self.named += [(by, self.at) for by in operands]
        self.at += 1 + len(operands)
        if self.command != NIL:
            begun = self.command == TYPE and operands[1] == 0
            self.last = EXPRESSION if begun else self.command

    def enter_content(self, states, accepting, steps):
        """The automaton that the expression becomes is the content of the last type."""
        block = self.schema.blocks[-1]
        block.states, block.accepting, block.steps = states, list(accepting), list(steps)
        self.counts[STEP] += len(steps)


def operand_count(command):
    """How many operands a command has; 0 for a byte that is none."""
    return len(COMMANDS[command].operands) if command in COMMANDS else 0


def read(data):
    return Reader(data).read()


def commands_of(data):
    """The file's commands as byte strings; a byte that is none stands alone."""
    out, at = [], 0
    while at < len(data):
        end = at + 1 + operand_count(data[at])
        out.append(data[at:end])
        at = end
    return out


def write(schema, shuffle=lambda commands: None):
    """A file that states the schema; `shuffle` may reorder a block's commands."""
    out = bytearray([TAGS, schema.tags])
    for block in schema.blocks:
        nil = [[NIL]] if block.nillable else []
        if isinstance(block, Content):
            out += bytes([TYPE, block.tag, 0, *block.text, END_EXPRESSION, *sum(nil, [])])
            continue
        out += bytes([TYPE, block.tag, block.states])
        commands = [[FINAL, state] for state in block.accepting]
        commands += [[STEP, *step] for step in block.steps] + nil
        shuffle(commands)
        for command in commands:
            out += bytes(command)
    return bytes(out) + end_of_file(*schema.roots)


def end_of_file(*roots):
    """The ROOTs of these types and DONE."""
    return b"".join(bytes([ROOT, root]) for root in roots) + bytes([DONE])


def without_end(file):
    """A whole file of one root without its last two commands."""
    return file[:-len(end_of_file(0))]


def leaf(tag):
    """A type whose elements have no children."""
    return Block(tag, 1, [0])


def once(tag, *types):
    """A type whose elements have exactly one child, of one of these types."""
    return Block(tag, 2, [1], [(0, j, 1) for j in types])
