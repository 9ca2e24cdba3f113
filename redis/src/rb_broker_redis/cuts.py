"""Where a history may be cut in two.

`replay --chains` looks for the event that gave a job before it accepts the job's return, in the same file. So no job may
have been given in front of a cut and come back behind it. A job that is in hand now may still come back. A job that was
done does not, so with few failures most cuts are good.
"""
from __future__ import annotations

from array import array
from collections.abc import Iterable
from dataclasses import dataclass

from rb_broker_formats.grammar import MOST_OPENING_ELEMENTS
from rb_broker_formats.queue import FollowedQueue


@dataclass(frozen=True)
class Cut:
    """A place for a cut."""

    count: int
    """The number of events in front of it; with 0 there is no place."""
    crossed: int
    """How many jobs come back behind it that were given in front of it."""
    is_too_large: bool = False
    """Whether the queue has more elements there than `replay` lets a file begin with."""


class Cuts:
    """Follows events, from where the last cut was made."""

    def __init__(self, queue: FollowedQueue) -> None:
        self._queue = queue
        self._given: dict[bytes, int] = {}  # which event gave a job last, by the job's origin
        # By the number of events in front of a cut: how many more jobs cross it than cross the one before.
        self._crossings = array("i", [0])
        self._too_large: set[int] = set()  # the cuts at which the queue has more elements than a file can begin with

    def follow(self, line: bytes) -> None:
        """Takes the next event. Raises a `Wrong`."""
        queue, event = self._queue, len(self._crossings) - 1
        self._crossings.append(0)
        queue.follow(line)
        for words in queue.gave:
            self._given[words.split(b" ", 3)[2]] = event
        if queue.offered is not None:
            _, _, origin, _, attempt, _ = queue.offered.split(b" ")
            if attempt != b"1" and origin in self._given:
                self._crossings[self._given.pop(origin) + 1] += 1
                self._crossings[event + 1] -= 1
        if len(queue.elements) > MOST_OPENING_ELEMENTS:
            self._too_large.add(event + 1)

    def best(self, in_hand: Iterable[bytes], most: int, settled: int, must_cut: bool = False) -> Cut:
        """The last good place behind at most so many events, and no more than are settled: the jobs of these origins
        were in hand behind those.

        If there is none, but twice as many events or `must_cut`, it is the last of the places that the fewest jobs
        cross.
        """
        for origin in in_hand:
            if origin in self._given:
                self._crossings[self._given.pop(origin) + 1] += 1
        last, must_cut = min(most, settled), must_cut or len(self._crossings) > 2 * most
        best = self._best(last, must_cut, self._too_large)
        if best.count or not self._too_large.issuperset(range(1, last + 1)):
            return best
        return self._best(last, must_cut, set())

    def _best(self, last: int, must_cut: bool, passed_over: set[int]) -> Cut:
        """The same, with the last place that there may be, and without some."""
        best, crossed = Cut(0, len(self._crossings)), 0
        for count, more in enumerate(self._crossings[:last + 1]):
            crossed += more
            if count and crossed <= best.crossed and count not in passed_over:
                best = Cut(count, crossed, count in self._too_large)
        return best if best.crossed == 0 or must_cut and best.count else Cut(0, 0)
