"""Numbers of pairs of states by document 01's sentence, and request 03's table of them."""

from . import samples
from .meaning import Wrong
from .tables import MOST_PAIRS, MOST_STATES, ORDERED_PAIRS


def pair_number(p, q):
    """"For p ≥ q the pair has number p(p+1)/2 + q", whichever state comes first."""
    high, low = max(p, q), min(p, q)
    return high * (high + 1) // 2 + low


def table():
    """A number for each ordered pair of states, "rising by first state, then second". Held to
    document 01's samples and to the 528 pairs counted one by one: each number is met, and no other."""
    for p, q, number in samples.PAIRS:
        if pair_number(p, q) != number:
            raise Wrong(f"a pair of document 01 comes out differently: {p} {q}")
    counted = [(p, q) for p in range(MOST_STATES) for q in range(p + 1)]
    if [pair_number(p, q) for p, q in counted] != list(range(MOST_PAIRS)):
        raise Wrong("the pairs are not numbered 0 to 527")
    numbers = [pair_number(p, q) for p in range(MOST_STATES) for q in range(MOST_STATES)]
    if len(numbers) != ORDERED_PAIRS or set(numbers) != set(range(MOST_PAIRS)):
        raise Wrong("the table has not 1,024 numbers with each of 0 to 527 among them")
    return numbers


def table_text():
    """What the program `pairtable` prints."""
    return "".join(f"{number}\n" for number in table())
