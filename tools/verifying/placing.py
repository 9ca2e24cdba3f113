"""Finds a place in the history for each call of the sessions that name an element somewhere."""
from array import array
from bisect import bisect_left
from collections import Counter
from itertools import islice, takewhile
from typing import Sequence

from verifying.calls import Calls, Session
from rb_broker_formats.element import NONE

AHEAD = 8  # places at which a call is looked for behind the last whose event is known, or before the first


def place_named(calls: Calls) -> list[Session]:
    """Places the sessions that name an element somewhere. Returns the others."""
    for session in calls.sessions:
        _claim(calls, session)
    return [session for session in calls.sessions if session.calls and not _place(calls, session)]


def _claim(calls: Calls, session: Session) -> None:
    """Takes the events that a session's replies name. A call that is there twice is none of the session's."""
    twice = set()
    for call in session.calls:
        event = calls.events[call]
        if event < 0:
            continue
        if calls.claims[event] == NONE:
            calls.claims[event] = call
        else:
            first = calls.where(calls.claims[event])
            calls.tell("twice", call, f"{calls.history.told(event)} is the call of {first} too")
            twice.add(call)
    if twice:
        session.calls = array("I", (call for call in session.calls if call not in twice))


def _place(calls: Calls, session: Session) -> bool:
    """Places a session's calls by those whose events are known, if there are any. Of these, one at another seat than
    most, or out of order, is told and left out."""
    history, events = calls.history, calls.events
    known = [call for call in session.calls if events[call] >= 0]
    if not known:
        return False
    seat = session.seat = Counter(history.seats[events[call]] for call in known).most_common(1)[0][0]
    rising = set(longest_rise([events[call] for call in known if history.seats[events[call]] == seat]))
    astray, last = set(), NONE
    for call in known if len(rising) < len(known) else ():
        event = events[call]
        if event in rising:
            last = event
            continue
        astray.add(call)
        calls.astray.add(event)
        told = history.told(event)
        if history.seats[event] != seat:
            name = history.seat_names[seat]
            calls.tell("seat", call, f"{told}, and the session's other calls are at seat {name}")
        else:
            before = "" if last == NONE else f", event {last}"
            calls.tell("order", call, f"{told} does not follow that of the request before{before}")
    Alignment(calls, session).align([call for call in session.calls if call not in astray] if astray else session.calls)
    return True


class Alignment:
    """Places the calls of a session that name no element of their own, between those that do."""

    def __init__(self, calls: Calls, session: Session) -> None:
        assert session.seat is not None
        self._calls, self._session = calls, session
        self._row = calls.history.rows[session.seat]
        self._missing: list[int] = []  # calls without an event
        self._strangers: list[int] = []  # events without a call, between two calls

    def align(self, calls: Sequence[int]) -> None:
        """Places the calls, which are in the order of their requests, and some of which have an event."""
        events, places, astray = self._calls.events, self._calls.history.places, self._calls.astray
        last: int | None = None
        waiting: list[int] = []
        for call in calls:
            if events[call] < 0:
                waiting.append(call)
                continue
            place = places[events[call]]
            if last is None:
                self._place(waiting[::-1], self._free(range(place - 1, -1, -1), len(waiting)), is_between=False)
            elif waiting or place != last + 1:
                between = [number for number in self._row[last + 1:place] if number not in astray]
                self._place(waiting, between, is_between=True)
            last, waiting = place, []
        assert last is not None
        behind = self._free(range(last + 1, len(self._row)), len(waiting))
        taken = self._place(waiting, behind, is_between=False)
        self._session.end = 1 + (last if taken == NONE else places[taken])
        self._tell()

    def _free(self, places: range, calls: int) -> list[int]:
        """The events at the next places that are nobody's, as many as so many calls look at. Calls of this session that
        are out of order are passed over."""
        claims, events = self._calls.claims, (self._row[place] for place in places)
        own = takewhile(lambda number: claims[number] == NONE or number in self._calls.astray, events)
        return list(islice((number for number in own if claims[number] == NONE), AHEAD * calls))

    def _place(self, calls: Sequence[int], events: Sequence[int], is_between: bool) -> int:
        """Places the calls at events, both in their order, and returns the last event that one got, or NONE. All events
        between two calls that have theirs are the session's; if they are as many as the calls, each has its own."""
        at, taken, is_even = 0, NONE, is_between and len(calls) == len(events)
        reach = 1 if is_even else len(events) if is_between else AHEAD
        for call in calls:
            ahead = range(at, min(at + reach, len(events)))
            found = next((at for at in ahead if self._calls.may_be(call, events[at])), None)
            if found is None and ahead and self._calls.claims[events[at]] == NONE and (
                    is_even or not is_between and self._is_of_kind(call, events[at])):
                found = at  # and its reply says something else
            if found is not None:
                self._strangers += events[at:found]
                taken, at = events[found], found + 1
                self._calls.settle(call, taken)
                continue
            self._missing.append(call)
            if is_even:
                self._strangers.append(events[at])
                at += 1
        if is_between:
            self._strangers += events[at:]
        return taken

    def _is_of_kind(self, call: int, event: int) -> bool:
        """Whether an event did the same kind of thing as a call."""
        acts = self._calls.history.act(event), self._calls.expectation(call).act
        return acts[0].partition(" ")[0] == acts[1].partition(" ")[0]

    def _tell(self) -> None:
        """Adds the faults of calls without an event, and of events without a call. One of each that are alike is a
        call out of order, and so is a call that stands right behind the session's."""
        calls, told = self._calls, self._calls.history.told
        for call in self._missing:
            behind = self._row[self._session.end:self._session.end + 1]
            event = next((number for number in [*self._strangers, *behind] if calls.may_be(call, number)), None)
            if event is None:
                self._tell_missing(call)
                continue
            if event in self._strangers:
                self._strangers.remove(event)
            else:
                self._session.end += 1
            calls.tell("order", call, f"{told(event)} is not at the place of its request")
            calls.settle(call, event)
        for event in self._strangers:
            owner = calls.claims[event]
            of = f", of {calls.where(owner)}," if owner != NONE else ""
            calls.faults.add("gap", str(self._session), f"{told(event)}{of} is between two of its calls")

    def _tell_missing(self, call: int) -> None:
        calls, made = self._calls, self._session.calls
        place = bisect_left(made, call)
        times = [(calls.sent[call], calls.received[call]) for call in made[max(place - 1, 0):place + 2]]
        if times.count((calls.sent[call], calls.received[call])) > 1:
            calls.tell("twice", call, f"{calls.expectation(call).act} is in the history once, but has two replies")
        else:
            calls.tell_missing(call)


def longest_rise(values: list[int]) -> list[int]:
    """The longest rising part of different values, which is all of them if each is greater than the one before."""
    if all(before < after for before, after in zip(values, values[1:])):
        return values
    ends: list[int] = []  # the least end of a rise of each length
    lengths = []
    for value in values:
        length = bisect_left(ends, value)
        ends[length:length + 1] = [value]
        lengths.append(length)
    rise, wanted = [], len(ends) - 1
    for value, length in zip(reversed(values), reversed(lengths)):
        if length == wanted:
            rise.append(value)
            wanted -= 1
    return rise[::-1]
