"""Cases of nillable types: schema files (S), and by hand and at random the same as values (V) and
jobs (J)."""

from . import cases_roots, damage, expressions, nil, roots, samples, schemas
from .case import due_case, value_case
from .cases_expressions import BEFORE, placed
from .cases_roots import (cases_at_random, cases_by_hand, cases_of_buffers, damaged_at_random,
                          three_cases)
from .cases_schema import ROOM, listed_case
from .expressions import text
from .judged import judge
from .meaning import Wrong
from .schema_file import Schema, end_of_file, leaf, without_end, write
from .tables import (COMPETITION, DONE, END_EXPRESSION, FINAL, KINDS, LEAST_WITNESS_ROOM,
                     MOST_TYPES, MOST_WORD, NIL, NO_COMMAND, NO_TREE, OPEN, OPEN_NIL, OUT_OF_ORDER,
                     REPEATED, ROOT, STEP, TAGS, TAKEN, TOO_MANY, TYPE, TYPE_NOT_GIVEN)

ONE_NIL = bytes([NIL])


def due(part, file, number=TAKEN, place=0):
    return due_case(f"nil, {part}", file, number, place, LEAST_WITNESS_ROOM)


# Where a NIL may stand.

def places(file):
    """Every place between commands, and before and after all, each with the type in whose block a
    NIL may stand there, or None: it may in a block, but not inside an expression."""
    block, in_block, in_text = -1, False, False
    for at, (command, *operands) in placed(file):
        yield at, block if in_block and not in_text else None
        if command == TYPE:
            block, in_block, in_text = block + 1, True, operands[1] == 0
        elif command == END_EXPRESSION:
            in_text = False
        elif command == ROOT:
            in_block = False
    yield len(file), None


def with_nil_at(file, *some):
    """The file with a NIL at each of these places, given in order."""
    for at in reversed(some):
        file = file[:at] + ONE_NIL + file[at:]
    return file


def nillable_types(file):
    """The types that an accepted file makes nillable."""
    return [a for a in judge(file).meaning.types if judge(file).meaning.is_nillable(a)]


def place_cases():
    """A NIL at every place: it makes the type of its block nillable, or gets 3."""
    for file in (samples.R, roots.ALSO_BELOW, expressions.R, expressions.MIXED):
        for at, block in places(file):
            some = with_nil_at(file, at)
            if block is None:
                yield due("places", some, OUT_OF_ORDER, at)
                continue
            if nillable_types(some) != [block]:
                raise Wrong(f"a NIL at {at} makes another type nillable: {some.hex(' ')}")
            yield due("places", some)
            if file[at] in (TYPE, ROOT):
                yield value_case("nil", some, [], ROOM)


def twice_cases():
    """Two NILs at any two places: in one block the second gets 6, wherever they stand in it."""
    for file, most in ((samples.R, 2), (expressions.R, 2), (expressions.MIXED, 4)):
        found = [(at, block) for at, block in places(file) if block is not None and block < most]
        for number, (at, block) in enumerate(found):
            for at2, block2 in found[number:]:
                some = with_nil_at(file, at, at2)
                if block == block2:
                    yield due("twice", some, REPEATED, at2 + 1)
                    continue
                if nillable_types(some) != [block, block2]:
                    raise Wrong(f"two NILs make other types nillable: {some.hex(' ')}")
                yield due("twice", some)


TAILS = [*(bytes(other) + end_of_file(0) for other in (*cases_roots.OTHERS, [], [ROOT, 1])),
         *map(bytes, cases_roots.CUT)]


def after_cases():
    """After a NIL the same may follow as before it: a command gets the number that it gets without
    the NIL. The root bears a tree."""
    start = bytes([TAGS, 2, TYPE, 0, 2])
    for head, every in ((start, 1), (start + bytes([FINAL, 1]), 4),
                        (start + bytes([STEP, 0, 0, 1]), 4),
                        (start[:-1] + bytes([0]) + text("0*") + bytes([END_EXPRESSION]), 1)):
        for tail in TAILS[::every]:
            without = judge(head + tail)
            refused = without.number not in (TAKEN, NO_TREE)
            yield due("after", head + ONE_NIL + tail, without.number if refused else TAKEN,
                      without.place + 1 if refused else 0)


def inside_cases():
    """Inside an expression a NIL gets 3 whatever stands before it; after one it may stand, once."""
    head = bytes([TAGS, 1, TYPE, 0, 0])
    for start in (b"", text("(1 | (")):
        for before in BEFORE:
            yield due("inside", head + start + before + ONE_NIL, OUT_OF_ORDER,
                      len(head + start + before))
    after = head + text("0*") + bytes([END_EXPRESSION, NIL])
    for more, number in (([], NO_COMMAND), ([NIL], REPEATED), ([NIL, NIL], REPEATED),
                         ([END_EXPRESSION], OUT_OF_ORDER), ([FINAL, 0], OUT_OF_ORDER),
                         ([STEP, 0, 0, 1], OUT_OF_ORDER), ([TYPE], NO_COMMAND)):
        yield due("inside", after + bytes(more), number, len(after))
    # A block by states after it, and the reverse.
    states = bytes([TYPE, 0, 1, NIL, FINAL, 0])
    yield due("inside", after + states + end_of_file(0))
    yield due("inside", head[:2] + states + after[2:] + end_of_file(1))
    yield due("inside", after + states + ONE_NIL + end_of_file(0), REPEATED, len(after + states))


def first_number_cases():
    """3 comes before 6; 6 before 7, 8 and 9; the file's end after a NIL gets 2."""
    head = bytes([TAGS, 1, TYPE, 0, 1])
    for start, more, number in (
            (b"", [NIL], OUT_OF_ORDER), (head[:2], [NIL, NIL], OUT_OF_ORDER),
            (head + bytes([NIL, ROOT, 0]), [NIL], OUT_OF_ORDER),
            (head + bytes([NIL, ROOT, 0]), [NIL, DONE], OUT_OF_ORDER),
            (head + bytes([NIL, ROOT, 0, DONE]), [NIL], OUT_OF_ORDER),
            (head + bytes([NIL, STEP, 0, 9, 0]), [NIL, ROOT, 0, DONE], REPEATED),
            (head + bytes([NIL]), [NIL, STEP, 0, 9, 0, ROOT, 0, DONE], REPEATED),
            (head + bytes([TYPE, 0, 1, NIL]), [NIL, ROOT, 0, DONE], REPEATED),
            (head + bytes([NIL, TYPE, 0, 1, NIL]), [NIL, ROOT, 0, ROOT, 1, DONE], REPEATED),
            (head + bytes([NIL]), [NIL], REPEATED), (head + bytes([NIL]), [], NO_COMMAND),
            (head + bytes([NIL]), [NIL ^ 0x80], NO_COMMAND), (head, [NIL + 1], NO_COMMAND),
            (head + bytes([NIL, TYPE, 0, 1, NIL, TYPE, 0, 1]), [], NO_COMMAND)):
        yield due("first number", start + bytes(more), number, len(start))
    step = head + bytes([NIL, STEP, 0, 9, 0]) + end_of_file(0)
    yield due("first number", step, TYPE_NOT_GIVEN, len(head) + 1)


def limit_cases():
    """The longest file; 64 nillable types; 1,024 steps; a NIL too many in each."""
    full = schemas.full_steps()
    full.blocks[-1].nillable = True
    for file in (nil.longest_file(), nil.all_nillable(schemas.leaves_only(MOST_TYPES)),
                 write(full), nil.NILLABLE_EIGHT):
        yield due("limits", file)
        end = len(end_of_file(*judge(file).meaning.schema.roots))
        yield due("limits", with_nil_at(file, len(file) - end), REPEATED, len(file) - end)
    many = without_end(nil.all_nillable(schemas.leaves_only(MOST_TYPES)))
    yield due("limits", many + bytes([TYPE, 0, 1, NIL]) + end_of_file(0), TOO_MANY, len(many))


# By hand.

def hand_cases():
    return cases_by_hand("nil", nil)


def long_cases():
    """A shortest word of 527 types after which two nil types compete, and where the kind tells the
    two apart."""
    file = nil.long_way(nil.only_nil, nil.only_nil)
    if len(judge(file).meaning.first_competition()[-1]) != MOST_WORD:
        raise Wrong("another length than that of the longest word")
    yield from three_cases("nil", "long", file, LEAST_WITNESS_ROOM)
    file = nil.long_way(leaf, nil.only_nil)
    yield due("long", file)
    yield value_case("nil", file, [], ROOM)


def no_tree_cases():
    """8 where no root bears a tree of either kind; with a nil one it is accepted."""
    for schema in nil.TREELESS:
        if judge(write(schema)).number != NO_TREE:
            raise Wrong("a root bears a tree")
        yield from three_cases("nil", "no tree", write(schema), ROOM)
        first, *others = schema.blocks
        file = write(Schema(schema.tags, [nil.nillable(first), *others], schema.roots))
        yield due("no tree", file)
        yield value_case("nil", file, [], ROOM)


def buffer_cases():
    return cases_of_buffers("nil", nil)


# Damage.

SMALL_FILES = (nil.NIL_ROOT, nil.NEEDS_A_CHILD, nil.RACKS_BY_TEXT)


def cut_cases():
    """Every cut of small files, by states and by expressions: 2 at the command that is cut or, if
    none is, at the end."""
    for file in SMALL_FILES:
        starts = [at for at, _ in placed(file)]
        for some in damage.every_cut(file):
            yield due("cut", some, NO_COMMAND, max(at for at in starts if at <= len(some)))


def stray_cases():
    """The small files with a NIL put in at every place or in the place of a byte, and with a byte
    left out or given twice."""
    for file in SMALL_FILES:
        for _, some in damage.every_byte_strayed(file, [NIL]):
            yield from listed_case("nil, stray bytes", some, ROOM)


def damaged_cases():
    """Random files with something wrong."""
    return damaged_at_random("nil", "damaged files with nillable types", 250, nil.random_schema,
                             damaged)


def damaged(rng, file, _):
    """The file with one thing wrong or a few; in half of the cases a NIL more, anywhere or between
    commands, or one left out."""
    if rng.random() < 0.5:
        return damage.damaged_file(rng, file)
    given = [at for at, command in placed(file) if command[0] == NIL]
    if given and rng.random() < 0.2:
        return damage.byte_put(file, rng.choice(given))
    at = rng.choice([rng.randrange(len(file)), *(at for at, _ in placed(file))])
    return with_nil_at(file, at)


# At random.

def random_cases():
    """Random schemas: competition by the kinds that the two share, accepted ones by whether the
    kind alone tells two types apart."""
    left = {(COMPETITION, (OPEN_NIL,)): 60, (COMPETITION, (OPEN,)): 30, (COMPETITION, KINDS): 30,
            (TAKEN, True): 80, (TAKEN, False): 40, (NO_TREE, False): 15}
    return cases_at_random("nil", "random files with nillable types", left, nil.random_schema,
                           nil.is_wanted, sort_of)


def sort_of(judged):
    """Of a competition the kinds that its two types share; of another schema whether it is accepted
    and the kind alone tells two types apart."""
    meaning = judged.meaning
    if judged.number == COMPETITION:
        _, j, k, _ = meaning.first_competition()
        return meaning.kinds_of(j, k)
    return judged.accepted and nil.told_apart(meaning.schema)


CASES = (place_cases, twice_cases, after_cases, inside_cases, first_number_cases, limit_cases,
         hand_cases, long_cases, no_tree_cases, buffer_cases, cut_cases, stray_cases,
         damaged_cases)
RANDOM_CASES = (random_cases,)
