"""The run that goes on: it is watched until it has to end, and brought to that end in good order."""
from __future__ import annotations

import contextlib
import time
from typing import Callable

from servicing.clock import elapsed, read_clock
from servicing.connections import Connection, Unwatchable
from servicing.deciding import is_to_cut, why_to_end
from servicing.looking import Looks
from servicing.parts import Parts
from servicing.saying import notify, say
from servicing.server import Server
from servicing.session import OwnSession
from servicing.state import CUT, END, Phase, Reason, Run
from rb_broker_redis.watching.metrics import span_of
from rb_broker_redis.watching.units import SECOND

LOOK, LAST_LOOK, SOONEST = 0.5, 0.05, 0.02  # seconds between two looks, while the run ends, and at least
TELL = 10.0  # seconds after which it is said again who is waited for
MOST_NAMED = 5


class Current:
    """The run that goes on, or that has just ended."""

    def __init__(
        self, parts: Parts, record: Run, server: Server, first_aside: int = 0, own: OwnSession | None = None
    ) -> None:
        """`first_aside` is the moment at which the first element aside expires. `own` may wait for a worker already."""
        self._parts, self._settings, self._signals = parts, parts.settings, parts.signals
        self.record, self.server, self._first_aside = record, server, first_aside
        self.looks = Looks(own or OwnSession(self._settings.port), record, self._settings.workers)
        self.next_own = OwnSession(self._settings.port, self.looks.own)  # of the next run
        self.why = Reason.UNKNOWN  # it ends
        # Since when it serves, or a little earlier if a service before this has started it.
        self._since = read_clock() if server.process else record.began
        self.closed = 0.0  # since when nobody else is let in, by the monotonic clock
        self.cut = 0  # sessions

    def go_on(self) -> None:
        """Watches the server until its run has to end, and brings it to its end if it has not ended by itself."""
        why = self._watched()
        self.closed = time.monotonic()
        if why is not None:
            self.server.drain()
            self.why = why
            if why is Reason.ASKED:
                notify(STOPPING=1)
            self._begin_next()  # in front of those who have to come again
            self._parts.publisher.enter(Phase.ENDING, why, clients=len(self.looks.served))
            self._end()
        self._begin_next()

    def _begin_next(self) -> None:
        with contextlib.suppress(OSError):
            self.next_own.begin()
        self.looks.own.drop()

    def _watched(self) -> Reason | None:
        """Watches the server until its run has to end, and returns why. None if it has ended by itself."""
        while not self.server.has_ended:
            self._see(self.looks.look)
            age = elapsed(self._since, read_clock())  # whatever the machine's date is set to
            why = Reason.ASKED if self._signals.count else self._wanted() or why_to_end(
                self.looks, self.record, self._settings, age, self._first_aside)
            if why is not None:
                return why
            self._signals.wait(self.looks.due(LOOK, SOONEST), self.server.input)
        return None

    def _see(self, look: Callable[[], None]) -> None:
        """Looks, and shows what is seen."""
        try:
            look()
            self._parts.publisher.lower_alert("not-watching")
        except Unwatchable as fault:
            self._parts.publisher.raise_alert("not-watching", str(fault))
        self._parts.publisher.show()

    def _wanted(self) -> Reason | None:
        """Why the run has to end if somebody asks for that on the page, or if it was begun by a service with another
        policy. Its history is checked by that."""
        if self._parts.publisher.is_asked(END):
            return Reason.PAGE
        run, was, now = self.record.number, self.record.policy, self._settings.policy
        if was == now:
            return None
        say("warning", "settings", run=run, was=" ".join(was), now=" ".join(now),
            text=f"run {run} ends now, and the next one has the new settings")
        return Reason.SETTINGS

    def _end(self) -> None:
        """Waits for clients that hold jobs, and ends their sessions if that takes too long, or too many calls."""
        told, within, is_cut = self.closed, self._settings.stop_within / SECOND, False
        while not self.server.has_ended:
            now = time.monotonic()
            passed = now - self.closed
            if passed >= LAST_LOOK:
                self._see(self.looks.watch)
            is_over = passed >= within or self._signals.count > 1 or self._parts.publisher.is_asked(CUT)
            if not is_cut and (is_over or is_to_cut(self.looks, self.record, 2 * LAST_LOOK)):
                is_cut = True
                self._cut()
            if now - told >= TELL:
                told = now
                self._tell(passed)
            self._signals.wait(LAST_LOOK, self.server.input)

    def _cut(self) -> None:
        self._see(self.looks.watch)
        self.cut = len(self.looks.served)
        self.server.cut()
        say("warning", "cut", run=self.server.run, sessions=self.cut, clients=_names(self.looks.served) or None)

    def _tell(self, seconds: float) -> None:
        served = self.looks.served
        self._parts.publisher.waits_for = tuple(f"{it.name}, for {span_of(seconds)}" for it in served) or ("the server",)
        self._parts.publisher.show()
        say("info", "waiting", run=self.server.run, seconds=round(seconds), clients=_names(served) or "the server")


def _names(clients: list[Connection]) -> str:
    more = len(clients) - MOST_NAMED
    return "; ".join([*(it.name for it in clients[:MOST_NAMED]), *([f"{more} more"] if more > 0 else [])])
