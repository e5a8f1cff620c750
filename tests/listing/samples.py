"""Document 01's samples, in its own words and numbers: what each must come out as."""

from .event_file import END, closed, leaves, opened
from .schema_file import Block, Schema, leaf, once, write
from .tables import OUTSIDE_LIMITS

R = bytes.fromhex(
    "10 03 11 00 02 12 01 13 00 01 00 13 00 02 01 13 01 03 01 11 01 01 12 00"
    "11 02 01 12 00 11 01 01 12 00 14 00 1F")
R_EVENTS = bytes.fromhex("21 00 21 01 22 01 21 02 22 02 21 01 22 01 22 00 2F")
R_TEXT = "depth tag type\n1 0 0\n2 1 1\n2 2 2\n2 1 3\naccepted 4\n"

# 000: a -> b1 or b2, b1 -> c, b2 -> d; tags a b c d.
TWO_B = write(Schema(4, [once(0, 1, 2), once(1, 3), once(1, 4), leaf(2), leaf(3)]))
NO_D = write(Schema(4, [once(0, 1, 2), once(1, 3), once(1, 4), leaf(2), Block(3, 1)]))
# Steps 0-1-1, 0-1-2, 1-2-3, 2-3-3, accepting 3.
SIXTH = write(Schema(3, [
    Block(0, 4, [3], [(0, 1, 1), (0, 1, 2), (1, 2, 3), (2, 3, 3)]),
    leaf(1), leaf(2), leaf(2)]))
# 003: a root with content a1 (a2 or b1); a1 is type 1, a2 type 2, b1 type 3.
TWO_A = write(Schema(3, [
    Block(0, 3, [2], [(0, 1, 1), (1, 2, 2), (1, 3, 2)]), leaf(1), leaf(1), leaf(2)]))
# 003: (a or b)* a (a or b), one type a tag.
LAST_BUT_ONE = write(Schema(3, [
    Block(0, 3, [2], [(0, 1, 0), (0, 2, 0), (0, 1, 1), (1, 1, 2), (1, 2, 2)]),
    leaf(1), leaf(2)]))
# 003: a1? b1 (b1 or c1)* a2 c1; types a1 1, b1 2, c1 3, a2 4; tags a 1, b 2, c 3.
EXAMPLE_8_20 = write(Schema(4, [
    Block(0, 5, [4], [(0, 1, 1), (0, 2, 2), (1, 2, 2), (2, 2, 2), (2, 3, 2),
                      (2, 4, 3), (3, 3, 4)]),
    leaf(1), leaf(2), leaf(3), leaf(1)]))
NO_TREE_AT_ROOT = write(Schema(1, [Block(0, 2, [1], [(0, 0, 1)])]))
NESTED = write(Schema(1, [Block(0, 1, [0], [(0, 0, 0)])]))
FITS_SO_FAR, TAGS_OUT_OF_RANGE = bytes.fromhex("10 20"), bytes.fromhex("10 21")

# Schema files with number, place and, for 9, A J K n and w.
SCHEMAS = [
    (R, 0, 0, ""),
    (TWO_B, 9, 0, "0 1 2 0"),
    (NO_D, 24, 24, ""),         # at b2's TYPE
    (SIXTH, 9, 0, "0 2 3 1 1"),
    (TWO_A, 0, 0, ""),
    (LAST_BUT_ONE, 0, 0, ""),
    (EXAMPLE_8_20, 0, 0, ""),
    (NO_TREE_AT_ROOT, 8, 0, ""),
    (NESTED, 0, 0, ""),
    (FITS_SO_FAR, 2, 2, ""),
    (TAGS_OUT_OF_RANGE, 4, 0, ""),
]
FILES = [file for file, *_ in SCHEMAS]
ACCEPTED = "accepted"
ANSWERS = {file: f"refused {number} at {place}" if number else ACCEPTED
           for file, number, place, _ in SCHEMAS}

# Pairs of states with their numbers.
PAIRS = [(0, 0, 0), (3, 1, 7), (31, 31, 527)]


def row(*tags):
    """The document of a root of tag 0 with leaves of these tags."""
    return opened(0) + leaves(*tags) + closed(0) + END


# Schemas with events, number, place and the types of the openings taken; under one that is refused
# now they are those that it gave until now.
DOCUMENTS = [
    (R, R_EVENTS, 0, 17, [0, 1, 2, 3]),
    (R, bytes.fromhex("21 00 22 00"), 17, 2, [0]),
    (R, opened(0) + leaves(2) + opened(2), 13, 6, [0, 2]),
    (R, opened(0) + leaves(1, 2) + opened(2), 13, 10, [0, 1, 2]),
    (R, opened(0, 2, 2), 13, 4, [0, 2]),
    (NO_D, opened(0, 1, 2) + closed(2, 1, 0) + END, 0, 13, [0, 1, 3]),
    (NO_D, opened(0, 1, 3), 13, 4, [0, 1]),
    (TWO_A, row(1, 1), 0, 13, [0, 1, 2]),
    (TWO_A, row(1, 2), 0, 13, [0, 1, 3]),
    (TWO_A, opened(0) + leaves(1, 2) + opened(2), 13, 10, [0, 1, 3]),
    (LAST_BUT_ONE, row(1), 17, 6, [0, 1]),
    (LAST_BUT_ONE, row(2, 1, 1), 0, 17, [0, 2, 1, 1]),
    (LAST_BUT_ONE, row(1, 2, 2), 17, 14, [0, 1, 2, 2]),
    (EXAMPLE_8_20, row(2, 2, 3, 2, 1, 3), 0, 29, [0, 2, 2, 3, 2, 4, 3]),
    (NESTED, opened(*[0] * 64) + closed(*[0] * 64) + END, 0, 257, [0] * 64),
    (NESTED, opened(*[0] * 65), 14, 128, [0] * 64),
    (R, b"", 19, 0, []),
    (R, R_EVENTS[:-1], 19, 16, [0, 1, 2, 3]),
    (R, R_EVENTS + END, 11, 17, [0, 1, 2, 3]),
    (R, R_EVENTS + b"\0", 19, 17, [0, 1, 2, 3]),
]
# The same with the length of the types' buffer.
BUFFERS = [(R, R_EVENTS, 3, 20, 10, [0, 1, 2]), (R, R_EVENTS, 4, 0, 17, [0, 1, 2, 3])]


def event_line(schema, number, place, types):
    """The line of an event file's case beside this answer to the schema file."""
    if schema != ACCEPTED:
        number, place, types = OUTSIDE_LIMITS, 0, []
    listed = " ".join(map(str, [len(types), *types]))
    return f"{schema} | {number} at {place} | {listed} | kept\n"
