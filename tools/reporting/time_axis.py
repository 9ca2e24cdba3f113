"""The axis of time that all plots have: from a history's first event to its last, over all its runs."""
from __future__ import annotations

from array import array
from bisect import bisect_left
from typing import Iterable

from rb_broker_formats.history import History
from reporting import svg
from reporting.dates import Clock
from reporting.svg import SHARES, Scale, Tick
from rb_broker_redis.watching.units import SECOND, span, unit_of

MINUTE, HOUR, DAY = 60 * SECOND, 3600 * SECOND, 86_400 * SECOND
MOST_BUCKETS = 200

# Round steps of time. All divide the day, or are days.
DATE_STEPS = (
    *(factor * 10**power for power in range(9) for factor in (1, 2, 5)),
    *(count * SECOND for count in (1, 2, 5, 10, 15, 30)), *(count * MINUTE for count in (1, 2, 5, 10, 15, 30)),
    *(count * HOUR for count in (1, 2, 3, 6, 12)),
    *(factor * 10**power * DAY for power in range(6) for factor in (1, 2, 5)),
)


class TimeAxis:
    """Cuts the time into equal stretches, the buckets, and places them. `edges` are one more than there are buckets; a
    bucket has its first edge and lacks its second. Moments are told as dates if these are known, otherwise as time
    since the first event."""

    def __init__(self, history: History, clock: Clock, most: int = MOST_BUCKETS) -> None:
        self._start, self._end, self._clock = history.start, history.end, clock
        length = self._end + 1 - self._start
        self.count = min(most, length)
        self.edges = [self._start + length * place // self.count for place in range(self.count + 1)]
        self.width = length / self.count
        self._scale = Scale(self._start, self._end + 1, 0, SHARES)
        self.places = [*map(self._scale.at, self.edges)]
        self._size, self._unit = unit_of(max(1, length - 1))

    def bucket(self, moment: int) -> int:
        """The bucket of a moment."""
        return (moment - self._start) * self.count // (self._end + 1 - self._start)

    def slices(self, moments: array[int]) -> list[slice]:
        """The places of each bucket's entries in a column of rising moments."""
        places = [bisect_left(moments, edge) for edge in self.edges]
        return [slice(low, high) for low, high in zip(places, places[1:])]

    def drawn(self) -> str:
        """The axis, with round times since the first event."""
        values = svg.round_values(self._end - self._start, DATE_STEPS)
        ticks = (Tick(self._scale.at(self._start + value), f"{value / self._size:g}") for value in values)
        start = "the first event" if self._clock.offset is None else f"{self._clock.text(self._start, 0)} UTC"
        return svg.x_axis(ticks, f"time since {start} ({self._unit})")

    def _told(self, moment: int) -> str:
        return span(moment - self._start) if self._clock.offset is None else f"{self._clock.text(moment)} UTC"

    def readings(self, lines: Iterable[Iterable[str]]) -> list[tuple[float, str]]:
        """What is said of each bucket, by its place: its moment, and these lines."""
        return [(place, "\n".join([self._told(edge), *some]))
                for place, edge, some in zip(self.places, self.edges, lines)]
