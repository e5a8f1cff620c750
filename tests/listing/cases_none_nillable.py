"""Cases of nil openings under schemas without a nillable type: lists of calls (C), event files (E)
and jobs (J). All are refused: with 13, past the count of tags with 12, after the finish with 11."""

from . import damage, samples, schemas
from .case import event_case, job_case
from .cases_calls import starter
from .cases_events import PLENTY
from .event_file import calls_of, event_bytes, nested
from .event_lists import ROUTES
from .judged import judge, read
from .meaning import Wrong
from .tables import FINISHED, MOST_LEVELS, NO_DOCUMENT, NO_SUCH_TAG, OPEN_NIL

NAME = "nil, none nillable"


def call_cases():
    """Along documents, by value and lent; at 64 levels, where 13 comes before 14."""
    start = starter(NAME)
    for file, data in ROUTES:
        made = start(file)
        for event in calls_of(data):
            made.nil_refused().give(*event)
        yield made.nil_refused().case()
    for file, tags in ((samples.NESTED, [0]), (schemas.IN_TURN, [0, 1])):
        yield start(file).events(nested(tags, MOST_LEVELS)[0]).nil_refused().case()


def put_in():
    """Documents with a nil opening of each tag and of one past the count put in before each event
    and after the finish, each with the number that is due."""
    for file, data in ROUTES:
        tags, last = judge(file).value.held["tags"], damage.count_of(data)
        for place in range(last + 1):
            for tag in range(tags + 1):
                due = NO_SUCH_TAG if tag == tags else NO_DOCUMENT
                yield (file, damage.event_put_in(data, place, event_bytes(OPEN_NIL, tag)),
                       FINISHED if place == last else due)


def event_cases():
    """Event files, and every eighth of them as a job."""
    for number, (file, data, due) in enumerate(put_in()):
        cases = [event_case(NAME, file, data, PLENTY)]
        if number % 8 == 0:
            cases.append(job_case(NAME, file, data))
        if read(file).accepted and any(case.answers != (due,) for case in cases):
            raise Wrong(f"{due} is due: {cases[0].text}")
        yield from cases


CASES = (call_cases, event_cases)
