"""The program's choice of a witness, taken over if listing confirms it.

The schema fixes A and n, so these are compared. J, K and w are free, w among the shortest words.
"""

import re

from .calls import items_of
from .judged import confirm_witness, read
from .meaning import Wrong
from .program import confirm_text
from .tables import COMPETITION

JOBS = ("J", "X")       # whole jobs of a program, each a text of its own
WITNESS = re.compile(r"(?<=kept \| )(\d+) \d+ \d+ (\d+)(?: \d+)*")


def taken_over(case, text):
    """The text to be printed for the case: the committed one, if it differs from the model's
    only in a choice that is confirmed."""
    if text == case.text:
        return text
    if case.letter in JOBS and case.answers == (COMPETITION,):
        confirm_text(case.first, text.removesuffix("--\n"))
        return text
    if case.letter not in MEANINGS or without_choice(text) != without_choice(case.text):
        raise Wrong(f"committed for a case of {case.name}: {text!r}, not {case.text!r}")
    for witness in WITNESS.finditer(text):
        numbers = [int(word) for word in witness[0].split()]
        confirm_witness(MEANINGS[case.letter](case), numbers)
    return text


def without_choice(text):
    return WITNESS.sub(r"\1 J K \2 w", text)


def with_witness(case, witness):
    """The case's text with A J K n and w of another witness, as far as it states them."""
    if case.letter == "J" and case.answers == (COMPETITION,):
        line = "type {} gives {} or {} after {}\n--\n".format(*witness.split())
        return case.text.split("\n")[0] + "\n" + line
    return WITNESS.sub(witness, case.text)


def schema_meaning(case):
    return read(case.first).meaning


def value_meaning(case):
    value = read(case.first).value
    for field, index, number in items_of(case.second):
        value = value.with_entry(field, index, number)
    return value.meaning


MEANINGS = {"S": schema_meaning, "V": value_meaning}
