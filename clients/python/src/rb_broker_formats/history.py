"""A history in columns: its opening, its elements and its events, of one run or of several that follow one another.

An element has a *row*: those of the opening come first, in rising order of their ids, and then each offered one. An
event has an *index*, from 0. All columns of elements have one entry for each row, all of events one for each index.
A run that continues the one before adds to the same columns: an element that was left keeps its row.
"""
from __future__ import annotations

from array import array
from bisect import bisect_left, bisect_right
from dataclasses import dataclass, field
from itertools import count
from typing import Any, Iterator, NamedTuple

from .acts import GIVES
from .element import NONE, Element

def column(kind: str) -> Any:
    """The field of a column, which is empty at first."""
    return field(default_factory=lambda: array(kind))


@dataclass
class Elements:
    """The columns of the elements. The act of the event in which an element left shows how it left."""

    ids: array[int] = column("Q")
    expiries: array[int] = column("Q")
    origins: array[int] = column("Q")
    firsts: array[int] = column("Q")
    attempts: array[int] = column("H")
    roots: array[int] = column("i")  # the first row of the same job
    offered_in: array[int] = column("i")  # an event, or NONE for one of the opening
    left_in: array[int] = column("i")  # an event, or NONE for one that is left at the end
    payloads: bytearray = field(default_factory=bytearray)  # one after the other
    payload_ends: array[int] = column("I")

    def __len__(self) -> int:
        return len(self.ids)

    def payload(self, row: int) -> str:
        start = self.payload_ends[row - 1] if row else 0
        return self.payloads[start:self.payload_ends[row]].decode("ascii")

    def element(self, row: int) -> Element:
        return Element(self.ids[row], self.expiries[row], self.origins[row], self.firsts[row], self.attempts[row],
                       self.payload(row))


@dataclass
class Events:
    """The columns of the events."""

    seats: array[int] = column("Q")
    moments: array[int] = column("Q")  # at which the calls took effect
    acts: bytearray = field(default_factory=bytearray)

    def __len__(self) -> int:
        return len(self.acts)


class Run(NamedTuple):
    """The part of a history that one text tells."""

    name: str
    version: int
    opened_at: int  # the moment of the last event before, or a later one
    end: int  # the moment of the last event, or the opening's if there is none
    first: int  # its first event


@dataclass
class History:
    """A history as its texts describe it, and how its elements form jobs. The opening is that of the first run."""

    next_id: int = 0  # the opening's
    kept: int = 0  # how many elements the opening has
    elements: Elements = field(default_factory=Elements)
    events: Events = field(default_factory=Events)
    strays: dict[int, int] = field(default_factory=dict)  # first rows by origin, where `row_of` the origin is not it
    runs: list[Run] = field(default_factory=list)

    @property
    def start(self) -> int:
        """The moment of the first event, or the opening's if there is none."""
        return self.events.moments[0] if self.events.moments else self.runs[0].opened_at

    @property
    def end(self) -> int:
        """The moment of the last event, or the last opening's if there is none behind it."""
        return self.runs[-1].end

    def row_of(self, id: int) -> int | None:
        """The row of the element of this id, whether it is in the queue or has left."""
        if id >= self.next_id:
            row = self.kept + id - self.next_id
            return row if row < len(self.elements.ids) else None
        row = bisect_left(self.elements.ids, id, 0, self.kept)
        return row if row < self.kept and self.elements.ids[row] == id else None

    def root_of(self, origin: int) -> int | None:
        """The first row of the job of this origin."""
        stray = self.strays.get(origin)
        if stray is not None:
            return stray
        row = self.row_of(origin)
        return row if row is not None and self.elements.origins[row] == origin else None

    def run_of(self, event: int) -> int:
        """Which of the runs an event belongs to, from 1."""
        return bisect_right([run.first for run in self.runs], event)

    def left_by(self, act: int) -> int:
        """How many elements left by this act."""
        acts = self.events.acts
        return sum(event != NONE and acts[event] == act for event in self.elements.left_in)

    def late(self, row: int) -> int | None:
        """How late an element was given, if it was."""
        event = self.elements.left_in[row]
        is_given = event != NONE and self.events.acts[event] in GIVES
        return self.events.moments[event] - self.elements.expiries[row] if is_given else None

    def gifts(self) -> Iterator[tuple[int, int, int]]:
        """The rows of the elements that were given, in their order, each with the event and how late that was."""
        moments, acts = self.events.moments, self.events.acts
        for row, expiry, event in zip(count(), self.elements.expiries, self.elements.left_in):
            if event != NONE and acts[event] in GIVES:
                yield row, event, moments[event] - expiry

    def returns(self) -> Iterator[tuple[int, int]]:
        """The rows of the later attempts that were offered, in their order, each with the event."""
        for row, attempt, event in zip(count(), self.elements.attempts, self.elements.offered_in):
            if attempt > 1 and event != NONE:
                yield row, event
