"""Places sessions of which no reply names an element: polls that found nothing, sizes, peeks.

Several rows of events may be what such a session was answered, and the first of them may be another's. So each session
is put at a row that keeps the order of real time, and others are put elsewhere if they are in its way.
"""
import re
from array import array
from bisect import bisect_left, bisect_right, insort
from itertools import accumulate, islice
from typing import Container, Iterator, Sequence

from verifying.calls import NEVER, Calls, Session
from rb_broker_formats.element import NONE
from verifying.history import ANY
from verifying.placing import Alignment

SLACK = 1_000_000  # nanoseconds by which a moment may lie outside of what is known of the clocks
LOOKS = 10_000  # calls by which the clocks are compared
TRIES = 500  # rows that are looked at for a session, with those for others in its way, before it is given up

POLLFOR = re.compile(r"pollfor \S+")  # with the moment at which it began, which no reply tells


class Times:
    """When the calls that have their event were sent and answered: what that leaves for the others."""

    def __init__(self, calls: Calls) -> None:
        self._calls, history = calls, calls.history
        sent = (0 if call == NONE else calls.sent[call] for call in calls.claims)
        received = (NEVER if call == NONE else calls.received[call] for call in reversed(calls.claims))
        self._latest = array("q", accumulate(sent, max))  # of the requests up to each event
        self._earliest = array("q", accumulate(received, min))  # of the replies from each event on
        self._earliest.reverse()
        bounds = [*history.files, len(history)]
        self._clocks = [self._compared(range(*pair)) for pair in zip(bounds, bounds[1:])]

    def _compared(self, events: range) -> tuple[int, int] | None:
        """Between which two values the clients' clock is ahead of the server's, by those of a file's events that have
        their call."""
        calls, asked = self._calls, self._calls.history.asked
        known = [event for event in events if calls.claims[event] != NONE]
        some = known[::len(known) // LOOKS + 1]
        if not some:
            return None
        least = max(calls.sent[calls.claims[event]] - asked(event) for event in some)
        most = min(calls.received[calls.claims[event]] - asked(event) for event in some)
        return min(least, most), max(least, most)

    def is_right(self, call: int, event: int) -> bool:
        """Whether a call may have been asked at the moment of an event, and have begun to wait when that did."""
        clocks = self._clocks[self._calls.history.file_of(event)]
        if clocks is None:
            return True
        history, (least, most) = self._calls.history, clocks
        return (self._calls.sent[call] - most - SLACK <= history.began(event)
                and history.asked(event) <= self._calls.received[call] - least + SLACK)

    def events_of(self, call: int) -> range:
        """The events at which a call is in order with those that are known."""
        first = bisect_left(self._earliest, self._calls.sent[call])
        return range(first, bisect_right(self._latest, self._calls.received[call]))

    def disputed(self, call: int, event: int) -> range:
        """The events at which another call may be in order with those that are known, and not with this one here."""
        first = bisect_right(self._earliest, self._calls.received[call])
        return range(min(first, event), max(bisect_left(self._latest, self._calls.sent[call]), event + 1))


class Arrangement:
    """Sessions that are put at rows of events which are still nobody's, from which they may be moved for others."""

    def __init__(self, calls: Calls) -> None:
        self._all, self._times = calls, Times(calls)
        self._free: dict[str, list[int]] = {}  # the events that are nobody's, by their words
        for event, call in enumerate(calls.claims):
            if call == NONE:
                act = POLLFOR.sub(f"pollfor {ANY}", calls.history.act(event))
                self._free.setdefault(act, []).append(event)
        self.firsts: dict[Session, int] = {}  # the first event of each session that is put somewhere
        self._calls: dict[int, int] = {}  # those that are put at an event, by it
        self._events: list[int] = []  # the same events, in order
        self._keeps_time, self._tries = True, 0

    def add(self, session: Session, keeps_time: bool) -> bool:
        """Puts a session at a row, and moves others if they are in its way. With `keeps_time` all stay in order."""
        self._keeps_time, self._tries = keeps_time, TRIES
        return self._arrange([session], frozenset())

    def _arrange(self, waiting: list[Session], fixed: frozenset[Session]) -> bool:
        """Puts each of these sessions at a row, and moves others, except those that are fixed. Changes nothing if it
        finds no way."""
        if not waiting:
            return True
        session, *rest = waiting
        for first, rivals in self._choices(session, fixed):
            if self._tries == 0:
                return False
            self._tries -= 1
            moved = [(rival, self._lift(rival)) for rival in rivals]
            self._put(session, first)
            if self._arrange(rivals + rest, fixed | {session}):
                return True
            self._lift(session)
            for rival, place in moved:
                self._put(rival, place)
        return False

    def _choices(self, session: Session, fixed: frozenset[Session]) -> Iterator[tuple[int, list[Session]]]:
        """The rows of a session by their first events, each with the sessions that it moves: the fewest first."""
        yield from (row for row in self._rows(session, self._calls) if not row[1])
        looked_at = list(islice(self._rows(session, ()), self._tries // 2))
        self._tries -= len(looked_at)
        crowded = [row for row in looked_at if row[1] and fixed.isdisjoint(row[1])]
        yield from sorted(crowded, key=lambda row: len(row[1]))

    def _rows(self, session: Session, but: Container[int]) -> Iterator[tuple[int, list[Session]]]:
        """The rows of a session, each of events that are what its replies say, at one seat and at their times: by their
        first events, which are none of `but`, each with the sessions that it moves."""
        calls, count = self._all, len(session.calls)
        within = self._within(session.calls[0])
        events = self._free.get(calls.expectation(session.calls[0]).act, [])
        for first in events[bisect_left(events, within.start):bisect_left(events, within.stop)]:
            row = () if first in but else calls.history.row_from(first, count)
            if len(row) == count and all(map(self._may_be, session.calls, row)):
                yield first, self._rivals(session, row)

    def _within(self, call: int) -> range:
        """The events at which a call may be put."""
        return self._times.events_of(call) if self._keeps_time else range(len(self._all.history))

    def _may_be(self, call: int, event: int) -> bool:
        """Whether a call may be put at an event, which another may have to leave."""
        return self._all.may_be(call, event) and self._times.is_right(call, event) and event in self._within(call)

    def _rivals(self, session: Session, row: Sequence[int]) -> list[Session]:
        """The sessions that can't stay where they are if a session is put at this row."""
        others = (other for call, event in zip(session.calls, row) for other in self._in_the_way(call, event))
        return list(dict.fromkeys(map(self._all.session, others)))

    def _in_the_way(self, call: int, event: int) -> Iterator[int]:
        """The call that is put at an event, and those that are out of order with another call there."""
        within = self._times.disputed(call, event) if self._keeps_time else range(event, event + 1)
        for place in self._events[bisect_left(self._events, within.start):bisect_left(self._events, within.stop)]:
            other = self._calls[place]
            before, behind = (call, other) if event < place else (other, call)
            if place == event or self._all.sent[before] > self._all.received[behind]:
                yield other

    def _put(self, session: Session, first: int) -> None:
        self.firsts[session] = first
        for call, event in zip(session.calls, self._all.history.row_from(first, len(session.calls))):
            self._calls[event] = call
            insort(self._events, event)

    def _lift(self, session: Session) -> int:
        """Takes a session away from its row. Returns its first event."""
        first = self.firsts.pop(session)
        for event in self._all.history.row_from(first, len(session.calls)):
            del self._calls[event]
            del self._events[bisect_left(self._events, event)]
        return first


def place_loose(calls: Calls, sessions: list[Session]) -> None:
    """Places these sessions. Those that fit nowhere in the order of real time are placed out of it.

    Those of most calls choose first, since they fit at the fewest places, and of those that are alike the ones that
    were answered first, which take the first events. Of sessions of one call each this leaves a place for each if there
    is one, so few have to be moved.
    """
    if not sessions:
        return
    arrangement = Arrangement(calls)
    left = sorted(sessions, key=lambda session: (-len(session.calls), calls.received[session.calls[-1]]))
    for keeps_time in (True, False):
        left = [session for session in left if not arrangement.add(session, keeps_time)]
    for session, first in arrangement.firsts.items():
        session.seat = calls.history.seats[first]
        session.end = calls.history.places[first] + len(session.calls)
        for call, event in zip(session.calls, calls.history.row_from(first, len(session.calls))):
            calls.settle(call, event)
    for session in left:
        _place_by_names(calls, session)


def _place_by_names(calls: Calls, session: Session) -> None:
    """No row is as the replies say. If a reply names an element, its event is taken for the call's, and told."""
    for call in session.calls:
        event = calls.expectation(call).event
        if event != NONE and calls.claims[event] == NONE:
            calls.settle(call, event)
            session.seat = calls.history.seats[event]
            Alignment(calls, session).align(session.calls)
            return
    for call in session.calls:
        calls.tell_missing(call)
