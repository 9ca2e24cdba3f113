"""Who waits, and when to try for whom: the schedule of a gateway's waits, without clocks or connections.

The gateway asks a queue for an element only when there may be one: when the earliest that it knows of expires, or when
it hears of an earlier one. It asks for the first who wait; those who came first get the first elements. Where several
queues are shards of one, it asks the one whose earliest element expires first.
"""
from __future__ import annotations

from collections.abc import Hashable
from typing import Generic, NamedTuple, TypeVar

Waiter = TypeVar("Waiter", bound=Hashable)

MOST_TRIED = 256
"""For how many the gateway tries at once, at most."""


class Due(NamedTuple):
    """When the earliest known element of a queue expires."""

    moment: int
    queue: int


class Waiting(Generic[Waiter]):
    """All moments are nanoseconds of the gateway's own clock."""

    def __init__(self) -> None:
        self.order: dict[Waiter, None] = {}
        """Who waits, first come first."""
        self._dues: dict[int, int] = {}
        """When the earliest known element of each queue expires, for those of which one is known."""
        self._tried_queue: int | None = None
        self._width = 1

    def __len__(self) -> int:
        return len(self.order)

    @property
    def next_due(self) -> Due | None:
        """When to try again, and at which queue, unless an earlier element is heard of. None while nobody waits, while
        tries are under way, and where no element is known."""
        if not self.order or not self._dues or self._tried_queue is not None:
            return None
        return min(Due(moment, queue) for queue, moment in self._dues.items())

    def add(self, waiter: Waiter) -> None:
        """Lets it wait behind all others."""
        self.order[waiter] = None

    def remove(self, waiter: Waiter) -> None:
        """It waits no more. A try for it may be under way, and is answered all the same."""
        self.order.pop(waiter, None)

    def hear(self, moment: int, queue: int = 0) -> None:
        """An element of this queue expires at this moment, and may be the earliest."""
        self._dues[queue] = min(moment, self._dues.get(queue, moment))

    def forget(self, queue: int) -> None:
        """No element of this queue is known any more."""
        self._dues.pop(queue, None)

    def start_tries(self, now: int) -> list[Waiter]:
        """For whom to try now, in this order, at the queue that is due. `end_tries` has to follow."""
        due = self.next_due
        if due is None or due.moment > now:
            return []
        self._tried_queue = due.queue
        del self._dues[due.queue]
        return [waiter for waiter, _ in zip(self.order, range(self._width))]

    @property
    def tried_queue(self) -> int:
        """The queue at which tries are under way."""
        assert self._tried_queue is not None
        return self._tried_queue

    def end_tries(self, now: int, found_all: bool) -> None:
        """The tries are answered. If each found an element there may be more, for twice as many who wait; if not,
        `hear` has been told when the next one expires."""
        queue, self._tried_queue = self.tried_queue, None
        self._width = min(2 * self._width, MOST_TRIED) if found_all else 1
        if found_all:
            self.hear(now, queue)
