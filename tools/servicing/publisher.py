"""What the service shows of itself: its phase, what it has seen, and what has become of its runs."""
import time
from collections import deque
from dataclasses import replace
from typing import Iterator, Sequence

from common.words import as_called
from rb_broker_formats.grammar import MOST_OPENING_ELEMENTS
from servicing.looking import Looks
from servicing.page import add_mark
from servicing.runs import Runs
from servicing.saying import notify, say
from servicing.settings import Settings
from servicing.texts import headline
from servicing.state import ACKNOWLEDGE, CUT, END, LOST_JOBS, LOST_RUN, Alert, Board, Mark, Phase, Reason, Run, Traffic
from rb_broker_redis.watching.metrics import span_of
from rb_broker_redis.watching.units import counted

MANY_ELEMENTS = 900_000
NO_TURN, OVERDUE = 60.0, 10.0  # seconds without a turn of the service's own session, and of lateness, that are an alert
MORE_TIME = 300_000_000  # microseconds that systemd is asked for while nothing is served


class Publisher:
    """Puts a new state on the board whenever something has changed."""

    def __init__(self, settings: Settings, runs: Runs, board: Board) -> None:
        self._board, self._history = board, runs
        self._known = as_called(f"tools/service --acknowledge --folder {runs.folder.path} ends this alert")
        self._state = replace(board.state, workers=settings.workers, id=runs.folder.id)
        self.run: Run | None = None
        self.looks: Looks | None = None
        self.waits_for: tuple[str, ...] = ()
        self.unwritten = 0
        self._raised: dict[str, Alert] = {}  # alerts that the service has raised
        self._counted = Traffic()  # in runs that have ended
        self._hour: deque[Mark] = deque()

    def enter(self, phase: Phase, why: Reason | None = None, **told: object) -> None:
        now = time.time()
        self._board.asked -= {CUT, END}  # which were of the phase before
        closed = None if phase in (Phase.SERVING, Phase.STOPPED) else self._state.closed_since or now
        self._state, self.waits_for = replace(self._state, phase=phase, why=why, since=now, closed_since=closed), ()
        say("info", phase.value.replace(" ", "-"), run=self.run.number if self.run else None,
            why=why.value if why else None, **told)
        self.show()

    def raise_alert(self, name: str, text: str, level: str = "warning", **told: object) -> None:
        """Raises an alert, or says another text of one. A line says it each time that the text is new."""
        before = self._raised.get(name)
        if before is None or before.text != text:
            say(level, name, **(told or {"text": text}))
        self._raised[name] = Alert(name, text, before.since if before else time.time())

    def lower_alert(self, name: str) -> None:
        if self._raised.pop(name, None):
            say("info", f"{name}-over")

    def is_asked(self, what: str) -> bool:
        """Whether somebody has asked for something since this was asked last."""
        is_asked = what in self._board.asked
        self._board.asked.discard(what)
        return is_asked

    def count(self, offered: int, left: int, failed: int) -> None:
        """Adds what is known of a run that has ended, in the place of what was seen of it."""
        self.looks, it = None, self._counted
        self._counted = Traffic(it.offered + offered, it.left + left, it.failed + failed)

    def show(self) -> None:
        """Puts the present state on the board, and tells systemd its line."""
        if self.is_asked(ACKNOWLEDGE):
            self._acknowledge()
        now, looks, runs, (lost_runs, lost_jobs) = time.time(), self.looks, self._history.past(), self._history.lost
        offered, left, failed = self._counted
        if looks:
            offered, left = offered + looks.offered, left + looks.left
        # No counter falls, not even if the end of a run corrects it: that would look like a reset.
        traffic = Traffic(*(max(it) for it in zip((offered, left, failed), self._state.traffic)))
        seen = {it: getattr(looks, it, None) for it in ("queue", "clients", "calls")}
        add_mark(self._hour, Mark(now, traffic, seen["queue"]))
        self._state = state = replace(
            self._state, at=now, hour=(*self._hour,), waits_for=self.waits_for, run=self.run, traffic=traffic,
            runs=runs, lost_runs=lost_runs, lost_jobs=lost_jobs, alerts=(*self._raised.values(), *self._alerts(runs)),
            unwritten=self.unwritten, **seen)
        self._board.put(state)
        # An end takes as long as --stop-within says, and an opening of many elements its time.
        longer = {} if state.phase is Phase.SERVING else {"EXTEND_TIMEOUT_USEC": MORE_TIME}
        notify(STATUS=headline(state), **longer)

    def _acknowledge(self) -> None:
        try:
            self._history.acknowledge()
            say("info", "acknowledged", lost_runs=self._history.lost[0], lost_jobs=self._history.lost[1])
        except OSError:  # a full disk
            self._board.asked.add(ACKNOWLEDGE)

    def _alerts(self, runs: Sequence[Run]) -> Iterator[Alert]:
        lost_runs, lost_jobs = self._history.unacknowledged
        ended = [(it, it.end) for it in runs if it.end]
        for run, end in [it for it in ended if lost_runs and it[0].is_lost][:1]:
            yield Alert(LOST_RUN, f"{lost_text(run)}; {self._known}", end.date)
        if lost_jobs:
            text = f"{counted(lost_jobs, 'job')} failed in a full run, could not come back, and are lost; {self._known}"
            yield Alert(LOST_JOBS, text, next((end.date for _, end in ended if end.lost_jobs), time.time()))
        if self.looks:
            yield from _held_up(self.looks, self._state.workers)
        if self.run:
            aside, queue = self.run.aside, self.looks.queue if self.looks else None
            elements = (queue.elements if queue else self.run.opening) + aside
            if elements >= MANY_ELEMENTS:
                more = f", of which {aside:,} wait in a file" if aside else ""
                text = f"{elements:,} elements wait{more}; a run can begin with {MOST_OPENING_ELEMENTS:,}"
                yield Alert("many-elements", text, self.run.date)


def _held_up(looks: Looks, workers: int) -> Iterator[Alert]:
    now, queue, served = time.time(), looks.queue, looks.served
    if looks.own.waits > NO_TURN:
        text = f"no worker has served this service for {NO_TURN:g} seconds: what it says of the queue is old"
        yield Alert("no-turn", text, now - looks.own.waits)
    late = queue.late + now - queue.at if queue is not None and queue.elements else 0.0
    who = "others wait" if looks.waiting_long else "a job is overdue" if late > OVERDUE else ""
    if who and len(served) >= workers and all(it.silence or it.is_unread or it.has_hung_up for it in served):
        text = f"all {workers} workers have clients that say nothing or do not read, while {who}"
        yield Alert("all-silent", text, now - min((it.silence for it in served if it.silence), default=0.0))


def lost_text(run: Run) -> str:
    """What the loss of a run means."""
    return (f"run {run.number} was lost after {span_of(run.lasted)}: what was offered, taken and done in it is gone, "
            f"and the next one begins with the same {counted(run.opening, 'element')}")
