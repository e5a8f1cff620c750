"""A case of the test program: its bytes, and the text that the program must print for it."""

from typing import NamedTuple

from . import calls, event_file, expected, judged, program, reduce
from .meaning import Wrong

HEAD = 7        # a case's letter and three lengths of two bytes; so many bytes 00 end the cases


class Case(NamedTuple):
    """The letter, the name under which it is counted, the bytes and what must be printed, and the
    answers that are counted."""

    letter: str
    name: str
    room: int
    first: bytes
    second: bytes
    text: str
    answers: tuple

    def framed(self):
        lengths = (self.room, len(self.first), len(self.second))
        head = self.letter.encode() + b"".join(n.to_bytes(2, "little") for n in lengths)
        return head + self.first + self.second


def schema_case(name, file, room):
    text, number = judged.schema_line(file, room)
    return Case("S", f"S {name}", room, file, b"", text + "\n", (number,))


def due_case(name, file, number, place, room):
    """The case of a schema file of which number and place are known as a stored file's."""
    found = judged.judge(file)
    if (found.number, found.place) != (number, place):
        raise Wrong(f"{number} at {place} is due, not {found.text()}: {file.hex(' ')}")
    return schema_case(name, file, room)


def calls_case(name, made):
    """The case of a list of calls; the lent ones and the nil openings are counted besides, the
    latter by value and lent apart, and where they are refused by number."""
    made = calls.answered(made)
    answers = ["type" if text[0] == "t" else text.removeprefix("r") for text in made.answers]
    answers += ["lent" if text[0] in "to" else "lent refused" for text in made.lent_answers]
    for way, texts in (("nil", made.nil_answers), ("nil lent", made.nil_lent_answers)):
        answers += [way if text[0] == "t" else f"{way} {text.removeprefix('r')}" for text in texts]
    return Case("C", f"C {name}", 0, made.file, bytes(made.items), made.line() + "\n",
                tuple(answers))


def event_case(name, file, data, room, tree=None):
    text, number = event_file.line(file, data, room, tree)
    return Case("E", f"E {name}", room, file, data, text + "\n", (number,))


def job_case(name, file, events, tree=None):
    text, number = program.answer(file, events, tree)
    return Case("J", f"J {name}", 0, file, events, text + "--\n", (number,))


def value_case(name, file, puts, room):
    """A schema value made up by puts (field, number, index)."""
    value, items = made_up(file, puts)
    text, numbers = judged.value_line(value, room)
    return Case("V", f"V {name}", room, file, items, text + "\n", numbers)


def made_up(file, puts):
    """The value beside the file's answer with these puts, and their bytes."""
    value, items = judged.read(file).value, b""
    for field, number, index in puts:
        value = value.with_entry(field, index, number)
        items += calls.put_bytes(field, index, number)
    return value, items


def writer_case(name, file, room):
    """The writer's case of a schema file and an output of so many bytes."""
    text, number = reduce.line(file, room)
    return Case("W", f"W {name}", room, file, b"", text + "\n", (number,))


def expected_case(name, file, data, puts=(), tree=None):
    """What would have been taken where the event file stops, under the file's schema or under a
    value made up by puts."""
    value, items = made_up(file, puts)
    found = expected.expected(expected.MadeUp(value) if puts else judged.read(file), data, tree)
    return Case("N", f"N {name}", len(items), file, items + data,
                expected.line(file, found) + "\n", found.answers())


def next_case(name, file, events, tree=None):
    """A whole job of the program `whatnext`."""
    text, answers = expected.answer(file, events, tree)
    return Case("X", f"X {name}", 0, file, events, text + "--\n", answers)
