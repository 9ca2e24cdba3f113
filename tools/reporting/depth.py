"""How many elements were in the queue over time, and how many of them had expired."""
from __future__ import annotations

from array import array
from dataclasses import dataclass

from rb_broker_formats.element import NONE
from rb_broker_formats.history import History, column
from reporting.lateness import in_rising_order


@dataclass
class Depth:
    """A series with an entry wherever one of the two numbers may have changed."""

    moments: array[int] = column("Q")
    standing: array[int] = column("i")
    expired: array[int] = column("i")

    def note(self, moment: int, standing: int, expired: int) -> None:
        self.moments.append(moment)
        self.standing.append(standing)
        self.expired.append(expired)


def depth_of(history: History) -> Depth:
    """Follows the queue from event to event. An element that expires between two events counts from that moment on."""
    depth, elements, moments = Depth(), history.elements, history.events.moments
    standings, dues = (array("i", bytes(4 * len(moments))) for _ in range(2))  # by how much an event changes them
    standing, expired, coming = history.kept, 0, array("Q")
    for expiry, offered, left in zip(elements.expiries, elements.offered_in, elements.left_in):
        came, went = history.start if offered == NONE else moments[offered], history.end
        if offered != NONE:
            standings[offered] += 1
        if left != NONE:
            went = moments[left]
            standings[left] -= 1
            dues[left] -= expiry <= went
        if came < expiry <= went:
            coming.append(expiry)
        elif expiry <= came and offered != NONE:
            dues[offered] += 1
        elif expiry <= came:
            expired += 1
    depth.note(history.start, standing, expired)
    coming, place = in_rising_order(coming), 0
    for moment, change, due in zip(moments, standings, dues):
        while place < len(coming) and coming[place] <= moment:
            expired += 1
            depth.note(coming[place], standing, expired)
            place += 1
        if change or due:
            standing, expired = standing + change, expired + due
            depth.note(moment, standing, expired)
    return depth
