"""Cases of files that passed until now and are refused with 24, made anew so that they still show
what they showed.

A schema file, an event file, a job and a list of calls come under the file that the writer makes of
it, with the same events and calls; of a competing file that is what the writer would make of it but
for 9. The answers must be the old ones with the types renumbered. A schema value, and a list that
puts entries, whose numbers would mean others there, state the old schema by puts.
"""

from collections import Counter

from . import calls
from .calls import Calls, items_of
from .case import calls_case, event_case, job_case, schema_case, value_case
from .event_file import walked
from .judged import judge, read
from .meaning import Wrong
from .reduce import new_numbers, reduced
from .tables import FIELDS, PROGRAM_TYPES, SCHEMA_BYTES, TAKEN, UNUSED_TYPE
from .value import entries_of

NAME = "reduced"
ONE_IN = {"E": 4, "J": 4}       # of so many event files and jobs one is made anew; of others all


def renewed(cases):
    """The cases made anew of these, each once."""
    found, lost = {}, Counter()
    for case in cases:
        if case.letter in WAYS and is_lost(case):
            lost[case.letter] += 1
            if lost[case.letter] % ONE_IN.get(case.letter, 1) == 0:
                for new in WAYS[case.letter](case):
                    found.setdefault(new[2:5] + (new.letter,), new)
    return list(found.values())


def is_lost(case):
    """Does it ask of a file that is refused with 24 now?"""
    return len(case.first) <= SCHEMA_BYTES and read(case.first).number == UNUSED_TYPE


def schema_again(case):
    return [schema_case(NAME, reduced(case.first), case.room)]


def events_again(case):
    """The event file under the file written; under a competing one there is nothing to show."""
    if judge(case.first).number != TAKEN:
        return []
    check_walk(case.first, case.second, case.room)
    return [event_case(NAME, reduced(case.first), case.second, case.room)]


def job_again(case):
    if judge(case.first).number == TAKEN:
        check_walk(case.first, case.second, PROGRAM_TYPES)
    return [job_case(NAME, reduced(case.first), case.second)]


def check_walk(file, data, room):
    """The event file is answered as under the stored file, with the types renumbered."""
    number = new_numbers(judge(file).meaning)
    old, new = (walked(judged, data, room, None) for judged in (judge(file), read(reduced(file))))
    openings = [(level, tag, number[a]) for level, tag, a in old.openings]
    if (old.number, old.place, openings) != (new.number, new.place, new.openings):
        raise Wrong(f"other answers under a file written: {file.hex(' ')}, {data.hex(' ')}")


def list_again(case):
    """The list of calls; one that puts entries under the old schema stated by puts."""
    if judge(case.first).number != TAKEN:
        return []
    items = list(items_of(case.second))
    if any(name in FIELDS for name, *_ in items):
        made = Calls(b"")
        for field, index, number in entries_of(judge(case.first).meaning.schema):
            made.put(field, number, index)
        return [calls_case(NAME, calls.given(made, items))]
    old, new = (calls.given(Calls(file), items) for file in (case.first, reduced(case.first)))
    number = new_numbers(judge(case.first).meaning)
    if [with_number(text, number) for text in old.answers] != new.answers:
        raise Wrong(f"other answers under a file written: {old.line()}, {new.line()}")
    return [calls_case(NAME, new)]


def with_number(text, number):
    """The answer to a call, an opening's with the type's new number."""
    return f"t{number[int(text[1:])]}" if text[0] == "t" else text


def value_again(case):
    """The value by puts alone, those that state the old schema first."""
    stated = entries_of(judge(case.first).meaning.schema)
    puts = [(field, number, index) for field, index, number in [*stated, *items_of(case.second)]]
    return [value_case(NAME, b"", puts, case.room)]


WAYS = {"S": schema_again, "E": events_again, "J": job_again, "C": list_again, "V": value_again}
