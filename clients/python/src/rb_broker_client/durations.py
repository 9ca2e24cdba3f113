"""Durations as callers give them, and those of pauses between tries."""

import random
from datetime import timedelta
from fractions import Fraction

from rb_broker_formats.durations import SECOND, nanoseconds_in
from rb_broker_formats.protocol import GREATEST_NUMBER

Duration = int | float | timedelta  # seconds as a number, or a `timedelta`

FOR_EVER = 1e6  # seconds of a wait that only what happens ends


def nanoseconds(duration: Duration | Fraction) -> int:
    """A duration as the protocol has it: whole nanoseconds. Raises `ValueError` if it is below 0 or above 2^64 - 1."""
    if isinstance(duration, timedelta):
        whole = duration // timedelta(microseconds=1) * 1_000
    elif isinstance(duration, (int, float, Fraction)):
        whole = round(duration * SECOND) if 0 <= duration < GREATEST_NUMBER else -1
    else:
        raise TypeError(f"a duration is seconds or a timedelta, not {type(duration).__name__}")
    if not 0 <= whole <= GREATEST_NUMBER:
        raise ValueError(f"a duration is from 0 to 2^64 - 1 nanoseconds, not {duration}")
    return whole


def from_text(duration: Duration | str) -> float:
    """A duration in seconds, 0 or more, which may be a text: `"5s"`, `"2m"`, `"1.5h"`, or a number of seconds."""
    found = nanoseconds_in(duration, bare=SECOND) if isinstance(duration, str) else nanoseconds(duration)
    if found is None:
        raise ValueError(f"{duration} is no delay, such as 5s, 2m, 1.5h or 250")
    return nanoseconds(Fraction(found, SECOND)) / SECOND


def seconds(duration: Duration) -> float:
    """A duration in seconds. Raises `ValueError` unless it is above 0."""
    value = duration.total_seconds() if isinstance(duration, timedelta) else float(duration)
    if not value > 0:
        raise ValueError(f"this duration has to be above 0 seconds, not {duration}")
    return value


class Pauses:
    """The pauses between tries that fail. Each is twice as long as the one before, from `first` up to `longest`, less a
    random part, up to a half: clients that lose their server together do not come back together."""

    def __init__(self, first: Duration = 0.1, longest: Duration = 10.0) -> None:
        self._longest = seconds(longest)
        self._next = self._first = min(seconds(first), self._longest)

    def next(self) -> float:
        """The seconds of the pause before the next try."""
        pause = self._next * random.uniform(0.5, 1.0)
        self._next = min(2 * self._next, self._longest)
        return pause

    def reset(self) -> None:
        """A try succeeded: the next pause is a first one."""
        self._next = self._first
