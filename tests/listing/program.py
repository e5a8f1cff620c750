"""What the program `typestock` prints for a schema file and an event file."""

from .event_file import walked
from .judged import confirm_length, read
from .meaning import Wrong
from .tables import COMPETITION, EVENT_BYTES, PROGRAM_TYPES, SCHEMA_BYTES

TOO_LONG = "too long"


def answer(file, events, tree=None):
    """The program's text, and the answer's number or TOO_LONG."""
    if len(events) > EVENT_BYTES:
        return f"{TOO_LONG}\n", TOO_LONG
    judged = read(file[:SCHEMA_BYTES])
    if not judged.accepted:
        return refused_text(judged), judged.number
    walk = walked(judged, events, PROGRAM_TYPES, tree)
    last = f"refused {walk.number} at {walk.place}" if walk.number else None
    return events_text(walk.openings, last), walk.number


def events_text(openings, refused=None):
    """The text under an accepted schema; the last line is that of a refusal or the count."""
    lines = ["depth tag type"] + [f"{level} {tag} {a}" for level, tag, a in openings]
    return "\n".join(lines + [refused or f"accepted {len(openings)}"]) + "\n"


def refused_text(judged):
    text = f"schema {judged.text()}\n"
    if judged.number == COMPETITION:
        a, j, k, w = judged.meaning.first_competition()
        text += f"type {a} gives {j} or {k} after {len(w)}\n"
    return text


def confirm_text(file, text):
    """Is it the right text for a schema refused with 9, whichever J and K it states?"""
    judged = read(file[:SCHEMA_BYTES])
    numbers = [int(word) for word in text.split() if word.isascii() and word.isdigit()]
    a, j, k, n = numbers[-4:] if len(numbers) == 6 else [None] * 4
    stated = f"schema {judged.text()}\ntype {a} gives {j} or {k} after {n}\n"
    if judged.number != COMPETITION or text != stated:
        raise Wrong(f"no text of a competition: {text!r}")
    confirm_length(judged.meaning, a, j, k, n)
