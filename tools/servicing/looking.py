"""Looks at a server again and again, and keeps what only several looks together show."""
import time
from typing import Sequence

from servicing.connections import MOMENT, SHORTEST, Connection, look_at
from servicing.session import OwnSession, Told
from servicing.state import Queue, Run

ASK = 5.0  # seconds from one question to the server to the next
UNSURE = 0.05  # a share of a run's calls; if so many more may be used than the server told of, it is asked at once
STUCK = 200  # milliseconds; a free worker takes who has waited for so long


class Looks:
    """What was seen of one run, whose server is at this port."""

    def __init__(self, own: OwnSession, record: Run, workers: int) -> None:
        self.own, self._record, self._workers = own, record, workers
        self._asked = 0.0
        self.clients: tuple[Connection, ...] | None = None  # at the last look, the longest silent first
        self._stuck: set[int] = set()  # who waited then, though a worker was free
        self.is_closed = False  # whether one of these did already at the look before: no session is left
        self._surely_used = 0  # calls, by what the server has told
        self._made: dict[int, Connection] = {}  # each client when it was last seen
        self._seen_at, self.rate = time.monotonic(), 0.0  # calls a second, between the last two looks
        self.queue: Queue | None = None
        self.moment: int | None = None
        self.offered = self.left = 0  # elements of this run; a job that came back is offered again

    def look(self) -> None:
        """Looks at the connections, and asks the server now and then. Raises an `Unwatchable`."""
        self.watch()
        is_unsure = self._used_calls - self._surely_used > UNSURE * self._record.calls
        if time.monotonic() - self._asked >= ASK or self.own.waits or is_unsure:
            self._asked = time.monotonic()
            told = self.own.look()
            if told is not None:
                self.hear(told)

    def watch(self) -> None:
        """Looks at the connections alone. Raises an `Unwatchable`."""
        self.see(look_at(self.own.port))

    def see(self, found: Sequence[Connection]) -> None:
        now, used = time.monotonic(), self._used_calls
        clients = (it for it in found if it.port not in self.own.ports and not it.has_given_up)
        self.clients = tuple(sorted(clients, key=lambda it: -it.heard))
        self._made |= {it.key: it for it in self.clients}
        self.rate, self._seen_at = (self._used_calls - used) / max(now - self._seen_at, 0.001), now
        is_free = sum(it.is_served for it in found) < self._workers
        stuck = {it.key for it in found if is_free and not it.is_served and it.told >= STUCK}
        self.is_closed, self._stuck = bool(stuck & self._stuck), stuck

    def hear(self, told: Told) -> None:
        record, own = self._record, self.own
        self.queue, self.moment = told.queue, told.moment
        ids = told.next_id - record.next_id
        self.offered = ids - own.probes
        self.left = max(self.offered - told.queue.elements + record.opening, 0)
        # One call for each id, one for each element that has left, and the looks; that of a probe was counted twice.
        self._surely_used = max(self._surely_used, ids + self.left + own.calls - own.probes)

    @property
    def _used_calls(self) -> int:
        """How many calls can be used. The server tells of those that gave or took an element. Of others there are no
        more than clients have sent pieces, and than there is room for among their replies."""
        record, sent = self._record, sum(it.calls for it in self._made.values())
        digits = len(f"{record.next_id}{record.moment}")
        known = (len("OFFERED  .") + digits) * self.offered + (len("ITEM   1 a.") + digits) * self.left
        others = max(sum(it.replied for it in self._made.values()) - known, 0) // SHORTEST
        used = max(self._surely_used, min(sent + self.own.calls, self._surely_used + others))
        return min(used, record.calls)

    @property
    def calls(self) -> int:
        return self._record.calls if self.own.is_full else self._used_calls

    def due(self, longest: float, shortest: float) -> float:
        """In how many seconds the next look is due: before half of the calls that are left can be used."""
        left = self._record.calls - self._used_calls
        return max(min(longest, left / 2 / self.rate if self.rate else longest), shortest)

    # The clients that a worker serves; for how many seconds somebody waits for one, the service itself included; and
    # how many clients have done so for more than a moment.
    served = property(lambda self: [it for it in self.clients or () if it.is_served])
    waits = property(lambda self: max(self.own.waits, *(it.told / 1000 for it in self._waiting), 0.0))
    waiting_long = property(lambda self: sum(it.told >= MOMENT for it in self._waiting))
    _waiting = property(lambda self: [it for it in self.clients or () if not it.is_served])
