"""Lists of calls on a reading, by value and lent, and of values put."""

import struct

from .judged import judge, read
from .reading import Reading
from .tables import CALLS, FIELD_NAMES, FIELDS, KINDS, OPEN_NIL

PUT = struct.Struct("<BHI")     # field, index and number of a value put
CALL = struct.Struct("<BB")


def put_bytes(field, index, number):
    return PUT.pack(FIELDS[field].byte, index, number)


def items_of(data):
    """The items of a list: calls (event, tag, lent) and puts (field, index, number)."""
    at = 0
    while at < len(data):
        if data[at] in FIELD_NAMES:
            byte, index, number = PUT.unpack_from(data, at)
            yield FIELD_NAMES[byte], index, number
            at += PUT.size
        else:
            call, tag = CALL.unpack_from(data, at)
            event, lent = CALLS[call]
            yield event, tag, lent
            at += CALL.size


class Calls:
    """A list of calls on a fresh reading beside a schema file's answer, as far as it goes. Lists
    are made beside the answer to a stored file, and then answered beside the reader's."""

    def __init__(self, file, judged=None):
        judged = judged or judge(file)
        self.file, self.reading = file, Reading(judged)
        self.items, self.texts, self.answers = bytearray(), [judged.text()], []
        self.lent_answers, self.nil_answers, self.nil_lent_answers = [], [], []

    def call(self, event, tag=0, lent=False):
        """Calls; a lent call is answered like one by value."""
        number = self.reading.refusal(event, tag)
        text, changed = f"r{number}", ""
        if number is None:
            a = self.reading.take(event, tag)
            text, changed = f"t{a}" if event in KINDS else "ok", self.reading.value.changed
        self.items += CALL.pack(CALLS.index((event, lent)), tag)
        self.answers.append(text)
        if lent:
            self.lent_answers.append(text)
        if event == OPEN_NIL:
            (self.nil_lent_answers if lent else self.nil_answers).append(text)
        self.texts.append(text + changed)

    def put(self, field, number, index=0):
        self.reading.put(field, index, number)
        self.items += put_bytes(field, index, number)
        self.texts.append("put" + self.reading.value.changed)

    def line(self):
        return " ".join(self.texts)


def given(made, items):
    """The list of calls with these items after it."""
    for name, *rest in items:
        if name in FIELDS:
            made.put(name, rest[1], rest[0])
        else:
            made.call(name, *rest)
    return made


def answered(made):
    """The list of calls beside the reader's answer."""
    judged = read(made.file)
    if judged is judge(made.file):
        return made
    return given(Calls(made.file, judged), items_of(made.items))
