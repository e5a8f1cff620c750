"""The writer of request 06: a schema file without the types that no valid document uses.

It goes over the file's commands. A block of an unused type goes, with all in it; so do the STEPs by
such a type, and its ROOT. The types that are kept are numbered anew in their order, in STEP, ROOT
and the uses of expressions; every other command stays as it is and where it is. An expression that
uses a dropped type is replaced by the automaton that it becomes: TYPE with its states, a FINAL for
each that accepts, rising, and its STEPs by kept types, rising by from, type, to. States keep their
numbers, also where no step leads to them any more.

Of each file written the request's sentences are looked at: it states the same schema without those
types, the reader accepts it, writing it again changes no byte, and the documents listed up to some
size are the same, with the same typings but for the numbers.
"""

from functools import lru_cache

from .expression import KNOWN, automaton, enter_known
from .judged import judge, read
from .meaning import TooMany, Tree, Wrong
from .schema_file import Block, Schema, commands_of
from .tables import (COMPETITION, DONE, END_EXPRESSION, FINAL, MOST_ELEMENTS, MOST_TREES, NO_ROOM,
                     ROOT, STEP, TAKEN, TYPE, USE)


# The file written.

@lru_cache(2000)
def reduced(file):
    """The file without the unused types: of a file that has passed all questions but 9."""
    number = new_numbers(judge(file).meaning)
    tags, *rest = commands_of(file)
    out, block, a = tags, [], -1
    for command in rest:
        if block and command[0] in (TYPE, ROOT):
            out += block_without(block, number) if a in number else b""
            block = []
        if command[0] == TYPE:
            a += 1
        if command[0] in (ROOT, DONE):
            out += renumbered(command, number)
        else:
            block.append(command)
    check(file, out, number)
    return out


def new_numbers(meaning):
    """The new number of each used type."""
    return {a: number for number, a in enumerate(sorted(meaning.used()))}


OPERAND = {STEP: 2, ROOT: 1, USE: 1}        # where a command names a type


def renumbered(command, number):
    """The command with the new number of the type that it names; none if that is dropped."""
    at = OPERAND.get(command[0])
    if at is None:
        return command
    if command[at] not in number:
        return b""
    return command[:at] + bytes([number[command[at]]]) + command[at + 1:]


def block_without(block, number):
    """A kept type's block."""
    start, text, rest = parts_of(block)
    if all(renumbered(command, number) for command in text):
        return b"".join(renumbered(command, number) for command in block)
    made = automaton(tuple((command[0], tuple(command[1:])) for command in text))
    commands = [[TYPE, start[1], made.states]]
    commands += [[FINAL, state] for state in sorted(made.accepting)]
    commands += [[STEP, p, number[j], q] for p, j, q in sorted(made.steps) if j in number]
    return b"".join(map(bytes, commands)) + b"".join(rest)


def parts_of(block):
    """A block's TYPE, the commands of its expression, and what stands after the expression's
    end."""
    ends = [at for at, command in enumerate(block) if command[0] == END_EXPRESSION]
    return block[0], block[1:ends[0]] if ends else [], block[ends[0] + 1:] if ends else []


# The writer's answer.

def answer(file, room):
    """The writer's number for a file and an output of so many bytes, and what it writes."""
    judged = judge(file)
    if not judged.accepted:
        return judged.number, b""
    data = reduced(file)
    return (TAKEN, data) if len(data) <= room else (NO_ROOM, b"")


def line(file, room):
    """The line for a file and an output of so many bytes, and the number: the length and the bytes of
    what is written; every other byte of the output is as it was."""
    number, data = answer(file, room)
    return " ".join([f"{number} |", str(len(data)), *map(str, data), "| kept"]), number


# What is looked at.

def check(file, out, number):
    """The request's sentences on the file written."""
    enter_renumbered(file, number)
    old, new = judge(file), read(out)
    if not new.meaning or new.meaning.schema != without_types(old.meaning.schema, number):
        raise Wrong(f"another schema is written: {file.hex(' ')}, {out.hex(' ')}")
    if new.number != old.number or new.number not in (TAKEN, COMPETITION):
        raise Wrong(f"{new.text()} for a file written: {out.hex(' ')}")
    if len(number) < len(old.meaning.types):
        if reduced(out) != out:
            raise Wrong(f"a second pass changes a file: {out.hex(' ')}")
        check_documents(old.meaning, new.meaning, number)
    elif out != file:
        raise Wrong(f"a file without unused types is changed: {file.hex(' ')}")


def enter_renumbered(file, number):
    """Where the automaton of an expression is known and not listed, so is that of the expression
    renumbered."""
    text = None
    for command in commands_of(file):
        if command[0] == TYPE:
            text = []
        elif command[0] == END_EXPRESSION:
            enter_if_known(tuple(text), number)
        elif text is not None:
            text.append((command[0], tuple(command[1:])))


def enter_if_known(commands, number):
    if commands in KNOWN and all(j in number for _, operands in commands for j in operands):
        made = KNOWN[commands]
        renamed = tuple((command, tuple(number[j] for j in operands))
                        for command, operands in commands)
        enter_known(renamed, made.accepting, [(p, number[j], q) for p, j, q in made.steps])


def without_types(schema, number):
    """The schema without the dropped types and the steps by them."""
    blocks = [Block(block.tag, block.states, block.accepting,
                    [(p, number[j], q) for p, j, q in block.steps if j in number], block.nillable)
              for a, block in enumerate(schema.blocks) if a in number]
    return Schema(schema.tags, blocks, tuple(number[r] for r in schema.roots if r in number))


def check_documents(old, new, number):
    """The typed trees of the two schemas are the same but for the types' numbers, size by size as
    far as they are listed; none has an unused type."""
    count, known = 0, {}
    for size in range(1, MOST_ELEMENTS + 1):
        try:
            before, after = ([tree for root in meaning.schema.roots
                              for tree in meaning.trees(root, size)] for meaning in (old, new))
        except TooMany:
            return
        if {with_numbers(tree, number, known) for tree in before} != set(after):
            raise Wrong("a file written has other documents or typings")
        count += len(after)
        if count > MOST_TREES:
            return


def with_numbers(tree, number, known=None):
    """The typed tree with the new numbers; a dropped type has none. Listed trees share those below
    them: `known` has what was made, by the identity of trees that are kept."""
    known = {} if known is None else known
    if id(tree) not in known:
        children = tuple([with_numbers(child, number, known) for child in tree.children])
        known[id(tree)] = Tree(number.get(tree.type, "dropped"), children, tree.kind)
    return known[id(tree)]
