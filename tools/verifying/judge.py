"""Judges a run by its history and the records of its clients."""
from collections import Counter
from typing import Iterable, Sequence

from verifying.account import Rules, Strange
from verifying.calls import NEVER, Calls
from verifying.endings import follow_ends
from verifying.faults import Faults
from rb_broker_formats.element import NONE
from verifying.history import NOWHERE, History
from verifying.loose import place_loose
from verifying.placing import place_named
from verifying.record import Exchange
from verifying.shards import parts_of
from rb_broker_redis.watching.units import counted

Exchanges = Iterable[tuple[str, Exchange]]


class Verdict:
    """What was found, and over how much."""

    def __init__(
        self, histories: Sequence[History], exchanges: Exchanges, is_whole: bool, has_leases: bool = False
    ) -> None:
        """Compares the history of a queue, or those of its shards, with the exchanges of its clients, each with the
        path of its record. If the records are those of all clients, an event of none of them is a fault."""
        self.faults, self._is_whole = Faults(), is_whole
        self._queues = [Calls(history, self.faults, Rules(has_leases, len(histories) > 1)) for history in histories]
        self._sessions: set[tuple[str, str]] = set()
        self._counts: Counter[str] = Counter()
        for path, exchange in exchanges:
            self._read(path, exchange)
        for calls in self._queues:
            self._compare(calls)

    def _read(self, path: str, exchange: Exchange) -> None:
        """Takes a line of the record at this path."""
        queues = self._queues
        self._counts["requests"] += 1
        self._counts["without reply"] += exchange.received is None
        self._sessions.add((path, exchange.session))
        try:
            for queue, part in ((0, exchange),) if len(queues) == 1 else parts_of(exchange, len(queues)):
                queues[queue].read(path, part)
        except Strange:
            self.faults.add_strange(path, exchange)

    def _compare(self, calls: Calls) -> None:
        """Compares the calls at a queue with its events."""
        self._counts["calls"] += len(calls)
        place_loose(calls, place_named(calls))
        self._counts += follow_ends(calls)
        check_real_time(calls)
        for event, call in enumerate(calls.claims):
            if call == NONE and calls.history.places[event] != NOWHERE:
                self._counts["unrecorded"] += 1
                if self._is_whole:
                    told = f"{calls.history.told(event)} is the call of no record"
                    self.faults.add("unrecorded", f"event {event}", told)

    def lines(self) -> list[str]:
        """The lines that are printed: faults, what was compared, and each sentence with the number of its faults."""
        counts, histories = self._counts, [queue.history for queue in self._queues]
        events, seats = sum(map(len, histories)), sum(len(history.rows) for history in histories)
        return [
            *self.faults.lines(),
            f"{counted(events, 'event')} at {counted(seats, 'seat')}; "
            f"{counted(counts['requests'], 'request')} of {counted(len(self._sessions), 'session')}",
            f"{counted(counts['calls'], 'reply', 'replies')} to calls; "
            f"{counted(counts['without reply'], 'request')} without a reply, {counts['unheard']:,} of them carried out",
            f"{counted(counts['returned'], 'job')} came back at the end of a session; {counts['gone']:,} did not, "
            f"after the last attempt or in a full run; {counted(counts['unrecorded'], 'event')} in no record",
            *self.faults.sentences(self._is_whole),
        ]


def check_real_time(calls: Calls) -> None:
    """Adds a fault for each call that was sent after the reply of another had come, and comes before it.

    From the last event to the first: none of those behind may have been answered before this one was sent, so it is
    compared with the one among them that was answered first.
    """
    earliest, answered = NEVER, NONE  # the reply that came first of those behind, and its event
    for event in range(len(calls.claims) - 1, -1, -1):
        call = calls.claims[event]
        if call == NONE:
            continue
        if calls.sent[call] > earliest:
            before, behind = calls.history.told(event), calls.history.told(answered)
            calls.tell("time", call, (
                f"{before} was asked for {calls.sent[call] - earliest} ns after the reply of {behind} had come, "
                f"to {calls.where(calls.claims[answered])}, and comes before it"))
        if calls.received[call] < earliest:
            earliest, answered = calls.received[call], event
