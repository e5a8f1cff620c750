"""Cases of content written as expressions: schema files (S), and some of the samples as other
kinds."""

import random

from . import damage, expressions, samples, schemas
from .case import due_case, event_case, job_case, schema_case, value_case
from .cases_calls import starter
from .cases_events import PLENTY
from .cases_jobs import ONE_ELEMENT
from .cases_schema import listed_case
from .cases_values import made_up_cases
from .expressions import (LEAVES, any_words, content, each, leaves_below, never_falling,
                          over_leaves, rising, schema, schema_of, text)
from .judged import judge, read
from .meaning import Wrong
from .schema_file import (Block, Content, Schema, commands_of, end_of_file, leaf, without_end,
                          write)
from .tables import (BYTE, CANNOT_FOLLOW, CLOSE_BRACKET, COMPETITION, DONE, END_EXPRESSION,
                     EXPRESSION_COMMANDS, FINAL, LEAST_WITNESS_ROOM, MOST_BRACKETS, MOST_LENGTH,
                     MOST_STATES, MOST_STEPS, MOST_TAGS, MOST_TYPES, MOST_USES, MOST_WITNESS_ROOM,
                     NEXT_SEQUENCE, NO_COMMAND, NO_TREE, OPEN_BRACKET, OUT_OF_ORDER, OUT_OF_RANGE,
                     REPEAT, ROOT, STEP, TAGS, TAKEN, TOO_MANY, TOO_MANY_BRACKETS, TOO_MANY_USES,
                     TYPE, TYPE_NOT_GIVEN, USE)

ROOM = MOST_WITNESS_ROOM
FILES = [file for file, _ in expressions.ROUTES]


def s_case(part, file):
    return schema_case(f"expressions, {part}", file, LEAST_WITNESS_ROOM)


def due(part, file, number, place):
    return due_case(f"expressions, {part}", file, number, place, LEAST_WITNESS_ROOM)


def taken(part, file):
    return due(part, file, TAKEN, 0)


# Samples.

def sample_cases():
    """Document 01's samples written as expressions have the answers of the samples."""
    for by_states, file in expressions.SAMPLES.items():
        if (judge(by_states).text() != judge(file).text()
                or read(by_states).number != read(file).number):
            raise Wrong("a sample written as an expression comes out differently")
        yield schema_case("expressions, samples", file, ROOM)
        yield from made_up_cases("expressions", file, ROOM)
        yield job_case("expressions", file, b"")
    for by_states, events, number, place, types in samples.DOCUMENTS:
        file = expressions.SAMPLES[by_states]
        case = event_case("expressions", file, events, PLENTY)
        if case.text != samples.event_line(read(file).text(), number, place, types):
            raise Wrong(f"a sample by an expression comes out differently: {case.text}")
        yield case
        yield job_case("expressions", file, events)
    text_of_r = job_case("expressions", expressions.R, samples.R_EVENTS).text
    if text_of_r != samples.R_TEXT + "--\n":
        raise Wrong("document 01's example by expressions comes out differently")


def hand_cases():
    """Schemas by hand, the same by states, competition with the shortest word, no tree."""
    for file in FILES:
        yield taken("by hand", file)
        yield taken("by hand", expressions.by_states(file))
        if judge(file).value.text() != judge(expressions.by_states(file)).value.text():
            raise Wrong("an expression states another schema than its states")
        yield value_case("expressions", file, [], ROOM)
    for tags, written, n in expressions.COMPETING:
        file = over_leaves(written, *tags)
        a, _, _, w = judge(file).meaning.first_competition()
        if (a, len(w)) != (0, n):
            raise Wrong(f"another competition in {written}")
        yield due("competition", file, COMPETITION, 0)
        yield from made_up_cases("expressions", file, ROOM)
        yield job_case("expressions", file, ONE_ELEMENT)
    for tags, written in expressions.NOT_COMPETING:
        yield taken("competition", over_leaves(written, *tags))
    # Competition in a type below, and in one that is not reached; by a type that bears no tree.
    below = (1, "2 | 3"), (2, ""), (2, "")
    yield due("competition", schema(3, (0, "1*"), *below), COMPETITION, 0)
    yield taken("competition", schema(3, (0, ""), *below))
    yield taken("competition", schema(3, (0, "1*"), *below[:2], (2, "3")))
    for blocks in ([(0, "0")], [(0, "0 0* | 0")], [(0, "1"), (0, "0")], [(0, "1 (2 |)"), (0, "1")],
                   [(0, "(1) |"), (0, "1")], [(0, "1* 0"), (0, "")]):
        file = schema(1, *blocks, (0, ""))
        yield s_case("no tree", file)
        yield job_case("expressions", file, ONE_ELEMENT)
    for root, number in ((0, TAKEN), (1, NO_TREE)):
        yield due("no tree", schema(1, (0, "(1) |"), (0, "1"), roots=(root,)), number, 0)


def buffer_cases():
    """1 comes before all else."""
    for file in (expressions.R, expressions.TWO_B, schema_of(text("(1")), schema_of(text("1")[:1]),
                 schema_of(text("1 " * (MOST_USES + 1)))):
        for room in (0, *damage.around(LEAST_WITNESS_ROOM)):
            yield schema_case("expressions, buffers", file, room)


# The order of commands.

BEFORE = [text(""), text("("), text("()"), text("1"), text("1 |"), text("1*")]
BESIDE = (OPEN_BRACKET - 1, REPEAT + 1, END_EXPRESSION - 1, END_EXPRESSION + 1)
OTHERS = ([TAGS, 1], [TYPE, 0, 1], [TYPE, 0, 0], [FINAL, 0], [STEP, 0, 0, 0], [ROOT, 0], [DONE],
          [TYPE, 0], [STEP, 0, 0], [FINAL], [0], [BYTE], *([byte] for byte in BESIDE),
          [OPEN_BRACKET ^ 0x80])


def rest_of(data):
    """What ends an expression that begins so, and a file of one more type."""
    more = data.count(OPEN_BRACKET) - data.count(CLOSE_BRACKET)
    return bytes([CLOSE_BRACKET] * max(more, 0) + [END_EXPRESSION, TYPE, 0, 0, END_EXPRESSION])


def order_cases():
    """Each command after each, with no bracket open and with one or two."""
    head = bytes([TAGS, 1, TYPE, 0, 0])
    for start in (b"", text("("), text("(1 | (")):
        for before in BEFORE:
            data = start + before
            for sign in (*EXPRESSION_COMMANDS, None):
                command = bytes([] if sign is None else [USE, 1] if sign == USE else [sign])
                rest = rest_of(data + command)
                if sign == END_EXPRESSION:
                    rest = bytes([TYPE, 0, 0, END_EXPRESSION])
                yield s_case("order", head + data + command + rest + end_of_file(0))
            for other in OTHERS:
                yield s_case("order", head + data + bytes(other) + rest_of(data) + end_of_file(0))
            yield s_case("order", head + data)
            yield s_case("order", head + data + bytes([USE]))


def every_text_cases():
    """Every list of up to four commands of an expression, and its end; of five those that are
    expressions."""
    for length in range(5):
        for data in expressions.every_text(length, (0, 1)):
            number = judge(schema_of(data)).number
            if (number == CANNOT_FOLLOW) == expressions.is_text(data):
                raise Wrong(f"a text is taken and is no expression, or the reverse: {data.hex()}")
            if not expressions.may_begin(data) and number != CANNOT_FOLLOW:
                raise Wrong(f"no expression begins so: {data.hex()}")
            yield s_case("every text", schema_of(data))
    for data in expressions.every_text(5, (1, 0)):
        if expressions.is_text(data):
            yield s_case("every text", schema_of(data))


def outside_cases():
    """Commands of expressions outside of them, and what may stand after an expression."""
    commands = [[USE, 0] if sign == USE else [sign] for sign in EXPRESSION_COMMANDS]
    file, at = samples.R, 0
    for command in commands_of(file):
        for sign in commands:
            yield due("outside", file[:at] + bytes(sign) + file[at:], OUT_OF_ORDER, at)
        yield due("outside", file[:at] + bytes([USE]), NO_COMMAND, at)
        at += len(command)
    for sign in commands:
        yield due("outside", file + bytes(sign), OUT_OF_ORDER, at)
    head = bytes([TAGS, 1, TYPE, 0, 0]) + text("0*") + bytes([END_EXPRESSION])
    for other in ([FINAL, 0], [FINAL, 1], [FINAL, BYTE], [STEP, 0, 0, 1], [STEP, 0, 0, 0],
                  [STEP, BYTE, BYTE, BYTE], [TAGS, 1], [DONE], *commands):
        yield due("outside", head + bytes(other) + end_of_file(0), OUT_OF_ORDER, len(head))
    for other in ([FINAL], [STEP, 0, 0], [USE], [0], [BYTE]):
        yield due("outside", head + bytes(other), NO_COMMAND, len(head))
    for other in ([], [TYPE, 0, 1], [TYPE, 0, 0, END_EXPRESSION], [TYPE, 0, 1, FINAL, 0]):
        yield taken("outside", head + bytes(other) + end_of_file(0))
    # A block by states before the expression does not let FINAL follow it, nor the reverse.
    states = bytes([TYPE, 0, 2, FINAL, 1, STEP, 0, 0, 1])
    for file in (head[:2] + states + head[2:], head + states):
        for other in ([FINAL, 0], [STEP, 1, 0, 1], [OPEN_BRACKET], [END_EXPRESSION]):
            yield s_case("outside", file + bytes(other) + end_of_file(0))


# Limits.

def type_cases():
    """The range of a use's type; of TYPE's tag and of ROOT beside a state count of 0."""
    for by in (0, 1, 2, MOST_TYPES - 1, MOST_TYPES, MOST_TYPES + 1, OPEN_BRACKET, END_EXPRESSION,
               BYTE):
        for written in ("{}", "({}", "1 | {}*", "1 1 {}"):
            yield s_case("types", schema_of(text(written.format(by))))
    for tag in (1, 2, BYTE):
        yield s_case("types", bytes([TAGS, 2, TYPE, tag, 0, END_EXPRESSION]) + end_of_file(0))
    for root in (0, 1, 2, MOST_TYPES - 1, BYTE):
        yield s_case("types", write(Schema(2, [content(0, "1"), content(1, "")], (root,))))
    for count in damage.around(MOST_TYPES):
        blocks = [Content(a % MOST_TAGS, text(f"{(a + 1) % count}") if a % 2 else b"")
                  for a in range(count)]
        yield s_case("types", write(Schema(MOST_TAGS, blocks, (count - 1,))))
    full = without_end(schemas.leaves_only(MOST_TYPES))
    for more in ([TYPE, 0, 0], [TYPE, MOST_TAGS, 0], [TYPE, 0, 0, END_EXPRESSION], [TYPE, 0],
                 [OPEN_BRACKET], [END_EXPRESSION]):
        yield s_case("types", full + bytes(more))


def bracket_cases():
    """15 to 18 brackets deep; as deep again after they are closed, and in another expression."""
    for deep in (*damage.around(MOST_BRACKETS), MOST_BRACKETS + 2):
        for inner in ("", "1", "1*", "|", "1 | 1 |"):
            for after in (")", ")*", " 1)", "| 1)*", ")* 1 |"):
                written = "(" * deep + inner + after * deep
                if deep > MOST_BRACKETS:
                    data = text(written)
                    yield due("brackets", schema_of(data), TOO_MANY_BRACKETS, 5 + MOST_BRACKETS)
                else:
                    yield from listed_case("expressions, brackets", schema_of(text(written)), ROOM)
    most = MOST_BRACKETS
    deep = "(" * most + ")" * most
    for written in (deep + deep, f"{deep} (1) {deep}* 1", "(" * most + ")" * (most - 1) + "()" * 40,
                    f"({'(' * (most - 1)}{')' * (most - 1)})* | {deep}"):
        file = over_leaves(written, 1)
        yield s_case("brackets", file)
        yield s_case("brackets", without_end(file) + file[2:])      # its types twice
    # One too deep after others, at its own place; and other numbers at the 17th bracket.
    for start in (deep, deep + "1", f"{deep}*", f"{deep} |", "(" * (most - 1) + ")" + "("):
        rest = "(" * (most + 1) if start[-1] != "(" else "(("
        data = text(start + rest)
        place = 5 + len(text(start)) + len(rest) - 1
        yield due("brackets", schema_of(data)[:-3], TOO_MANY_BRACKETS, place)
    head = bytes([TAGS, 1, TYPE, 0, 0]) + text("(" * most)
    for more in ([], [USE], [BYTE], [REPEAT], [END_EXPRESSION], [USE, MOST_TYPES], [TYPE, 0, 0],
                 [OPEN_BRACKET], [OPEN_BRACKET, OPEN_BRACKET], [CLOSE_BRACKET, OPEN_BRACKET],
                 [CLOSE_BRACKET, OPEN_BRACKET, OPEN_BRACKET]):
        yield s_case("brackets", head + bytes(more))


def use_cases():
    """30 to 33 uses: in a row, one of them, any of them, across brackets; and what comes first at
    the 32nd."""
    for uses in (*damage.around(MOST_USES), MOST_USES + 2):
        for written in (" ".join(str(1 + q % MOST_USES) for q in range(uses)),
                        " | ".join(["1"] * uses), "1* " * uses, "(1) " * uses, "(1 |) " * uses,
                        f"(1 ({'1 ' * (uses - 2)}))* 1", f"1 | ({'1 | ' * (uses - 1)})*"):
            data = text(written)
            file = leaves_below(data)
            if uses > MOST_USES:
                places = [at for at, command in placed(data) if command[0] == USE]
                yield due("uses", file, TOO_MANY_USES, 5 + places[MOST_USES])
            else:
                yield from listed_case("expressions, uses", file, ROOM)
    # Each expression has its own uses.
    row = each(MOST_USES, "{} ")
    yield taken("uses", write(Schema(MOST_TAGS, [content(0, row)] + [leaf(a) for a in LEAVES]
                                     + [content(0, row), content(0, "1")])))
    yield due("uses", bytes([TAGS, 1]) + bytes([TYPE, 0, 0]) + text(row)
              + bytes([END_EXPRESSION, TYPE, 0, 0]) + text(row + "0 0"), TOO_MANY_USES,
              2 + 3 + 2 * MOST_USES + 1 + 3 + 2 * MOST_USES)
    head = bytes([TAGS, 1, TYPE, 0, 0]) + text(row)
    for more, number in (([USE], NO_COMMAND), ([USE, 0], TOO_MANY_USES),
                         ([USE, MOST_TYPES - 1], TOO_MANY_USES), ([USE, MOST_TYPES], OUT_OF_RANGE),
                         ([USE, BYTE], OUT_OF_RANGE), ([], NO_COMMAND), ([BYTE], NO_COMMAND),
                         ([CLOSE_BRACKET], CANNOT_FOLLOW), ([STEP, 0, 0, 0], OUT_OF_ORDER)):
        yield due("uses", head + bytes(more), number, len(head))
    for more in ([OPEN_BRACKET], [REPEAT], [NEXT_SEQUENCE]):
        yield due("uses", head + bytes([*more, USE, 0]), TOO_MANY_USES, len(head) + 1)
    # Many brackets, and uses in the innermost.
    deep = text("(" * MOST_BRACKETS)
    yield due("uses", head[:5] + deep + text("1 " * (MOST_USES + 1)), TOO_MANY_USES,
              5 + MOST_BRACKETS + 2 * MOST_USES)


def placed(data):
    """The commands with their places."""
    at = 0
    for command in commands_of(data):
        yield at, command
        at += len(command)


FULL = text(any_words(MOST_USES))
SPARE = MOST_STEPS - MOST_USES * (MOST_USES + 1)        # of 1,024 steps those that FULL leaves


def steps_at_end():
    """FULL with so many STEPs or other expressions that 1,023 to 1,026 steps are reached: files
    with the place of the command at which they are too many, if they are."""
    some_leaves = [leaf(a) for a in LEAVES]
    steps = [(p, 0, q) for p in (0, 1) for q in range(MOST_STATES)]
    for count in (*damage.around(SPARE), SPARE + 2):
        block, full = Block(0, MOST_STATES, [0], steps[:count]), Content(0, FULL)
        # At the end of FULL, and at a STEP after it.
        before = write(Schema(MOST_TAGS, [block, full, *some_leaves], (1,)))
        end = len(without_end(write(Schema(MOST_TAGS, [block, full])))) - 1
        yield count, before, end
        after = write(Schema(MOST_TAGS, [full, *some_leaves, block]))
        yield count, after, after.index(bytes([FINAL, 0, STEP])) + 2 + 4 * SPARE
    for count in (*damage.around(SPARE), SPARE + 2):
        # A row has as many steps as uses; 31 uses at the most, so in two expressions.
        file = leaves_below(FULL, text("1 " * (count // 2)), text("1 " * (count - count // 2)))
        yield count, file, len(without_end(file)) - 1


def after_all_steps():
    """What may stand after 1,024 steps, and what comes before 5: commands, a number and the
    command's place from there."""
    end, block = END_EXPRESSION, [TYPE, 0, 0]
    yield [*block, end], TAKEN, None
    yield [*block, *text("()*"), end], TAKEN, None
    yield [*block, *text("0"), end], TOO_MANY, 5
    yield [*block, *text("0*"), end], TOO_MANY, 6
    yield [*block, *text("0 |"), end], TOO_MANY, 6
    yield [TYPE, 0, 1, STEP, 0, 0, 0], TOO_MANY, 3
    yield [TYPE, 0, 1, STEP, 0, MOST_TYPES, 0], OUT_OF_RANGE, 3
    yield [*block, *text("(0"), end], CANNOT_FOLLOW, 6
    yield [*block, *text("0)"), end], CANNOT_FOLLOW, 5
    yield [*block, *text("0"), STEP, 0, 0, 0], OUT_OF_ORDER, 5
    yield [*block, *text("0"), BYTE], NO_COMMAND, 5
    yield [*block, USE, MOST_TYPES], OUT_OF_RANGE, 3
    yield [*block, *text("0 " * (MOST_USES + 1))], TOO_MANY_USES, 3 + 2 * MOST_USES
    yield [*block, *text("(" * (MOST_BRACKETS + 1))], TOO_MANY_BRACKETS, 3 + MOST_BRACKETS


def step_cases():
    """1,024 steps met and passed, at the end of an expression and after it."""
    for count, file, place in steps_at_end():
        fits = count <= SPARE
        yield due("steps", file, TAKEN if fits else TOO_MANY, 0 if fits else place)
    head = without_end(leaves_below(FULL, text("1 " * MOST_USES), text("1")))
    for more, number, place in after_all_steps():
        yield due("steps", head + bytes(more) + end_of_file(0), number,
                  0 if place is None else len(head) + place)
    # Twice 506 steps, and 12 or more; 527 and others.
    half = text(any_words(22))
    for written in ("1 2 3", "(1 | 2 | 3)*", "(1 | 2 | 3)* 1 ", "(1 | 2 | 3)* | 1"):
        yield s_case("steps", leaves_below(half, half, text(written)))
    falls = never_falling(MOST_USES)
    for data in (falls, rising(MOST_USES), text(any_words(21)), half,
                 text(f"{any_words(21)} 22"), text(f"{any_words(21)} 22* 23* 24*")):
        yield s_case("steps", leaves_below(falls, data))
    # Far too many, and an open bracket before them.
    for file, number in ((leaves_below(FULL, FULL), TOO_MANY),
                         (leaves_below(FULL, FULL + text("(")), CANNOT_FOLLOW),
                         (leaves_below(FULL, text("(") + FULL), CANNOT_FOLLOW)):
        yield due("steps", file, number, len(without_end(file)) - 1)
    yield s_case("steps", leaves_below(FULL, FULL, FULL))


def large_cases():
    """Expressions of known words, each as the content of a root over 31 leaves; rows, choices and
    repeats of 31 uses, their types rising, falling, in turn and all one."""
    for data in expressions.KNOWN_TEXTS:
        yield taken("large", leaves_below(data))
    orders = [LEAVES, LEAVES[::-1], [1 + q * 3 % 7 for q in LEAVES], [1] * MOST_USES]
    for order in [list(map(str, types)) for types in orders]:
        for written in (" ".join(order), " | ".join(order), f"({' | '.join(order)})*",
                        f"({' '.join(order)})*"):
            yield taken("large", leaves_below(text(written)))
    for written in (any_words(MOST_USES), each(MOST_USES, "{} "),
                    each(MOST_USES - 1, "{} ") + f"{MOST_USES}*", "1 " * MOST_USES,
                    "1* " + "1 " * (MOST_USES - 1), "1 " * (MOST_USES - 1) + "1*"):
        file = leaves_below(text(written))
        yield taken("large", file)
        yield value_case("expressions", file, [], ROOM)
    for depth in (1, 2, 5, 10, 15):
        yield taken("large", leaves_below(expressions.nested_rows(depth)))


def empty_parts(most):
    """Expressions of no use, or of few, with so many bytes of empty sequences and brackets."""
    for part in ("|", "()", "()*", "(|)", "(()|)*"):
        data = text(part)
        yield data * (most // len(data))
    yield text("1") + text("|") * (most - 4) + text("1")
    yield text("()") * (most // 2 - 2) + text("1*")
    yield text("(1 |") + text("()|") * (most // 3 - 3) + text("1)*")
    yield text("1*") + text("(()())") * (most // 6 - 2) + text("2")


def empty_cases():
    """Empty sequences and brackets, a few and thousands; a use before and after them."""
    for written in ("", "|", "||", "()", "()*", "(|)", "(|)*", "(()|)*", "((()*)*)*", "| ()* |",
                    "1 |", "| 1", "1 () 2", "() 1 ()", "(() 1)*", "(1 | |)* |", "1* 1*", "(1*)*",
                    "((1*)* 2)*", "((1 2)*)*", "(1* 2*)*", "((1|) (2|))*", "((1|)(2|)) 1",
                    "((1* |)* 2 (|1))*", "1 (2 | 1)* 2 | (1 | 2* |)", "(1)", "((1))", "((1)*)*"):
        for tags in ((1, 2), (1, 1)):
            yield from listed_case("expressions, empty", over_leaves(written, *tags), ROOM)
        yield job_case("expressions", over_leaves(written, 1, 2), samples.row(1, 2, 1))
    for most in (60, 3000):
        for data in empty_parts(most):
            yield taken("empty", over_bytes(data))
            yield job_case("expressions", over_bytes(data), samples.row())
    for data in list(empty_parts(MOST_LENGTH - 40))[::3]:
        yield taken("empty", over_bytes(data))
    # Under a long one: 1* 2 with empty brackets between them.
    *_, data = empty_parts(3000)
    file, start = over_bytes(data), starter("expressions", "a long one")
    yield value_case("expressions", file, [], ROOM)
    for children in ((2,), (1, 1, 2), (1,), (2, 1)):
        yield event_case("expressions", file, samples.row(*children), PLENTY)
        yield start(file).events(samples.row(*children)).refused().case()


def over_bytes(data):
    """Type 0 by this text, and types 1 and 2, leaves."""
    return write(Schema(3, [Content(0, data), content(1, ""), content(2, "")]))


def not_given_cases():
    """Uses and STEPs that name types not given: the first in the file counts, not the first of the
    table's steps."""
    step = bytes([TYPE, 0, 2, FINAL, 1, STEP, 0, 9, 1])
    given = bytes([TYPE, 0, 2, FINAL, 1, STEP, 0, 0, 1])
    for written in ("9", "(9", "0 9", "9 | 8", "0 | 9 | 8", "(0 | 9)* 8", "9* 8* 9*",
                    "0* (7 | 9) 8", "63", "1 2 0", "0 1 2", "2 1", "1", "(1 | 2) 0",
                    "0 (2 |) 1"):
        data = bytes([TYPE, 0, 0]) + text(written) + bytes([END_EXPRESSION])
        for blocks in (data, step + data, data + step, given + data, data + given,
                       given + data + data, data + step + data, step + data + step):
            yield s_case("not given", bytes([TAGS, 1]) + blocks + end_of_file(0))
    # Types that are given later, and 7 after the bytes that come first.
    data = bytes([TAGS, 1, TYPE, 0, 0]) + text("1 | 2*") + bytes([END_EXPRESSION])
    leaf_ = bytes([TYPE, 0, 0, END_EXPRESSION])
    for blocks in (b"", leaf_, leaf_ * 2, leaf_ * 3):
        yield s_case("not given", data + blocks + end_of_file(0))
        yield s_case("not given", data + blocks + end_of_file(0) + b"\0")
        yield s_case("not given", data + blocks + bytes([STEP, 0, 9, 0]) + end_of_file(0))
    # Far on in the file.
    long_ = bytes([TAGS, 1, TYPE, 0, 0]) + text("|") * 60000 + text("0 | 5 | 4")
    yield due("not given", long_ + bytes([END_EXPRESSION]) + end_of_file(0), TYPE_NOT_GIVEN,
              5 + 60000 + 3)


# Damage.

SIGNS = (*EXPRESSION_COMMANDS, *BESIDE)


def cut_cases():
    """Every length of some files, alone and with the file's end after it."""
    for file in (expressions.R, expressions.EXAMPLE_8_20, expressions.BOOT_WALL, expressions.MIXED,
                 over_leaves("((1 | 2)* (2 |))* 1", 1, 2)):
        for some in damage.every_cut(file):
            if judge(some).number != NO_COMMAND:
                raise Wrong("a file that is cut and not refused with 2")
            yield s_case("cut", some)
    for file in (expressions.R, expressions.EXAMPLE_8_20):
        for some in damage.every_cut(file):
            yield from listed_case("expressions, cut", some + end_of_file(0), ROOM)


def damaged_cases():
    """Every byte of some files changed, left out, given twice, and bytes put in."""
    for file, values in ((expressions.R, (0, 4, *EXPRESSION_COMMANDS, TYPE, STEP, DONE, BYTE)),
                         (expressions.EXAMPLE_8_20, (END_EXPRESSION, BYTE)),
                         (over_leaves("((1 | 2)* (2 |))* 1", 1, 2), EXPRESSION_COMMANDS)):
        for _, some in damage.every_byte_strayed(file, values):
            yield from listed_case("expressions, damaged", some, ROOM)
    rng = random.Random("damaged expressions")
    for _ in range(600):
        made = expressions.random_schema(rng)
        if made:
            yield from listed_case("expressions, damaged", damaged(rng, made[0]), ROOM)


def damaged(rng, file):
    """The file with one to three things wrong, or perhaps nothing."""
    for _ in range(rng.choice((1, 1, 1, 2, 3))):
        if rng.random() < 0.5:
            at = rng.randrange(len(file))
            sign = rng.choice([*SIGNS, rng.randrange(BYTE + 1)])
            file = rng.choice((damage.byte_put(file, at, sign), damage.byte_put(file, at),
                               file[:at] + bytes([sign]) + file[at:]))
        else:
            file = rng.choice(damage.FILE_DAMAGES)(rng, file)
        file = file or b"\0"
    return file


CASES = (sample_cases, hand_cases, buffer_cases, order_cases, every_text_cases, outside_cases,
         type_cases, bracket_cases, use_cases, step_cases, large_cases, empty_cases,
         not_given_cases, cut_cases, damaged_cases)
