"""When the leases of other gateways are over, without any clock of a node: one that is set, or differs, ends none."""
from __future__ import annotations

from collections.abc import Sequence
from typing import NamedTuple

ENDED = b"0"
"""The score of a gateway whose sessions are ended. Each renewal of a lease gives it another score."""


class Seen(NamedTuple):
    """A gateway, as it was seen at the last look."""

    score: bytes
    lease: float
    looks: int
    """How many looks before this one found the same score."""


class Leases:
    """Follows the scores of the other gateways of a queue, by looks that are at least `interval` microseconds apart.

    A lease is over if as many looks as it takes have found one score. Looks are counted, and no time is read: if all
    stood still, as the Redis or a whole machine may, the others have as many looks left to renew their leases.
    """

    def __init__(self, interval: float) -> None:
        self._interval = interval
        self._seen: dict[bytes, Seen] = {}

    def forget(self) -> None:
        """Begins anew."""
        self._seen.clear()

    def look(self, others: Sequence[bytes]) -> None:
        """Takes number, score and lease of each other gateway."""
        self._take(others, 1)

    def update(self, others: Sequence[bytes]) -> None:
        """The same, right behind a look."""
        self._take(others, 0)

    def late(self) -> tuple[bytes, bytes] | tuple[()]:
        """Number and score of a gateway whose lease is over, if there is one."""
        for number, it in self._seen.items():
            if it.score == ENDED or it.looks * self._interval >= it.lease:
                return number, it.score
        return ()

    def _take(self, others: Sequence[bytes], looks: int) -> None:
        words = iter(others)
        before, self._seen = self._seen, {}
        for number, score, lease in zip(words, words, words):
            known = before.get(number)
            if known and known.score == score:
                self._seen[number] = known._replace(looks=known.looks + looks)
            else:
                self._seen[number] = Seen(score, float(lease), 0)
