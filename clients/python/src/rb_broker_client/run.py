"""What a client has seen of its server: whether it is there, and still has its run."""

import logging
from collections.abc import Callable
from threading import Thread
from typing import Any

from rb_broker_formats.protocol import GREATEST_NUMBER

from .answers import Greeting, LostRun

SHARDS = 64  # queues that a broker on Redis may have under one name, by whose number ids count
PIECE, MOST_PIECES = 1_024, 4_096  # ids of one number, of each a bit, and how many of these are kept

_ALL = LostRun(0, GREATEST_NUMBER)


class Run:
    """The run of a server. It is logged, and `on_lost_run` is called, when the server has lost it. One that greets says
    so; another one then gives ids again, or its clock goes back. That it is away, or serves again, is logged once."""

    def __init__(self, log: logging.Logger, place: str, on_lost_run: Callable[[LostRun], object] | None = None) -> None:
        """`place` is what the log calls the server."""
        self._log, self.place, self._is_away, self._on_lost_run = log, place, False, on_lost_run
        self.on_greeting: Callable[[Greeting], object] | None = None  # called with the first one of each run
        self._greeting: Greeting | None = None  # the last one
        self._offers: dict[int, tuple[int, int]] = {}  # of each queue: its last id and moment
        self._given: dict[int, int] = {}  # bits of ids, in pieces
        self._returned: dict[int, int] = {}

    def away(self, text: str, fault: OSError) -> None:
        """There is no session. The text says so of a place and a reason."""
        self._log.log(logging.DEBUG if self._is_away else logging.WARNING, text, self.place, fault)
        self._is_away = True

    def served(self, greeting: Greeting | None) -> None:
        """There is a session, and the server serves it, and has greeted it if it is one that does."""
        if self._is_away:
            self._log.info("served again at %s", self.place)
        self._is_away, last = False, self._greeting
        if greeting is None or greeting == last:
            return
        self._greeting = greeting
        self._tell(self.on_greeting, greeting)
        if last is not None and (greeting.lost != last.lost or greeting.run < last.run):
            is_same = greeting.run > last.run and greeting.at_ns >= last.at_ns  # or else another service
            lost = LostRun(last.at_ns, greeting.at_ns) if is_same else _ALL
            self._lost(lost, self._log.warning, "the server at %s has lost a run: what it accepted in the %.1f seconds "
                       "before its run %d is in doubt", (lost.until_ns - lost.since_ns) / 1e9, greeting.run)

    def offered(self, id: int, moment: int) -> None:
        """An offer was accepted under this id, at this moment."""
        last_id, last_moment = self._offers.get(id % SHARDS, (-1, 0))
        if id <= last_id or moment < last_moment:
            self._show(f"gave id {id} to a new job")
        self._offers[id % SHARDS] = id, moment

    def given(self, id: int) -> None:
        """A job of this id was given, as each is once."""
        self._see(self._given, id, "gave a job of id {} for the second time")

    def came_back(self, id: int) -> None:
        """A job that failed has this new id."""
        self._see(self._returned, id, "gave id {} to a second job that failed")

    def _see(self, seen: dict[int, int], id: int, sign: str) -> None:
        # What was seen long ago is forgotten.
        piece, bit = id // PIECE, 1 << id % PIECE
        if seen.get(piece, 0) & bit:
            self._show(sign.format(id))
        seen[piece] = seen.get(piece, 0) | bit
        if len(seen) > MOST_PIECES:
            del seen[next(iter(seen))]

    def _show(self, sign: str) -> None:
        self._lost(_ALL, self._log.error, "the server at %s has lost its run: it %s. What stood in its queue is gone, "
                   "and ids of that run name other jobs now", sign)

    def _lost(self, lost: LostRun, log: Callable[..., None], text: str, *words: object) -> None:
        log(text, self.place, *words)
        self._offers.clear()
        self._given.clear()
        self._returned.clear()
        self._tell(self._on_lost_run, lost)

    def _tell(self, function: Callable[[Any], object] | None, told: object) -> None:
        if function is not None:  # in a thread of its own, so that it holds up no loop and no offer
            Thread(target=self._call, args=[function, told], name="rb_broker_client-tells", daemon=True).start()

    def _call(self, function: Callable[[Any], object], told: object) -> None:
        try:
            function(told)
        except Exception:
            self._log.exception("%r failed, which was told of a run", function)
