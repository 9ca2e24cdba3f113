"""Moments as people read them: as dates in UTC, if the report was told when the first run began.

The runs of tools/service open at later moments than those before ended, by the time that passed. A run that goes on
with --from opens at the moment of the last event before, so the time between the two is missing from later dates.
"""
import functools
from datetime import timedelta
from typing import NamedTuple

from rb_broker_formats.dates import EPOCH
from rb_broker_formats.durations import SECOND


class Clock(NamedTuple):
    """Tells moments: a date is the moment plus the offset, in nanoseconds since 1970, if there is one."""

    offset: int | None = None

    def text(self, moment: int, digits: int = 3) -> str:
        """A date, with so many digits of a second's fraction, or the moment as it is."""
        if self.offset is None:
            return str(moment)
        seconds, rest = divmod(moment + self.offset, SECOND)
        text = _second(seconds)
        return f"{text}.{rest:09d}"[:len(text) + 1 + digits] if digits else text


@functools.lru_cache  # a run lasts for minutes, and a page has tens of thousands of its moments
def _second(seconds: int) -> str:
    return (EPOCH + timedelta(seconds=seconds)).strftime("%Y-%m-%d %H:%M:%S")
