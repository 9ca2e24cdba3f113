"""How late elements were given: the moment at which one was given, minus its expiry."""
from __future__ import annotations

from array import array
from heapq import merge
from typing import NamedTuple, Sequence

from rb_broker_formats.history import History

PART = 100_000  # numbers that are sorted at a time

# What is told of all, by the share of them that were no later.
RANKS = {"median": 0.5, "90th percentile": 0.9, "99th percentile": 0.99, "99.9th percentile": 0.999, "greatest": 1.0}


def in_rising_order(values: array[int]) -> array[int]:
    """A column with the same numbers in rising order. They are sorted by parts, which are merged: to sort them all at
    once takes five times the memory of the column."""
    parts = [array(values.typecode, sorted(values[at:at + PART])) for at in range(0, len(values), PART)]
    return array(values.typecode, merge(*parts))


class Given(NamedTuple):
    """The rows of the elements that a poll, a take, a timed poll or a drain gave, in rising order, and how late each was.
    """

    rows: array[int]
    late: array[int]


def given_in(history: History) -> Given:
    given = Given(array("i"), array("Q"))
    for row, _, late in history.gifts():
        given.rows.append(row)
        given.late.append(late)
    return given


def rank(values: Sequence[int], share: float) -> int:
    """The value of a rising series at which this share of all is reached: of ten values the median is the fifth."""
    place = -int(-share * len(values) // 1)  # rounded up
    return values[max(0, place - 1)]


def ranks(rising: Sequence[int]) -> dict[str, int]:
    """What is told of how late elements were, if any was given."""
    return {name: rank(rising, share) for name, share in RANKS.items()} if rising else {}
