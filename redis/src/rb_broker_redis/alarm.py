"""A timer that is exact to some microseconds: those of a loop count milliseconds."""
from __future__ import annotations

import asyncio
import ctypes
import os
import struct
import time
from collections.abc import Callable

from .protocol import SECOND

_LIBC = ctypes.CDLL(None, use_errno=True)  # Python 3.11 has no name for timerfd
_AT_A_MOMENT = 1


class Alarm:
    """Rings in its loop at a moment of `time.monotonic_ns`, and not before it."""

    def __init__(self, loop: asyncio.AbstractEventLoop, rings: Callable[[], None]) -> None:
        descriptor = _LIBC.timerfd_create(time.CLOCK_MONOTONIC, os.O_NONBLOCK | os.O_CLOEXEC)
        if descriptor < 0:
            raise OSError(ctypes.get_errno(), "the system gives no timer")
        self._timer, self._rings = os.fdopen(descriptor, "rb", 0), rings
        loop.add_reader(self._timer, self._expired)

    def set(self, moment: int) -> None:
        """Lets it ring then, or at once if that is over, and at no moment that was set before."""
        times = struct.pack("4l", 0, 0, *divmod(moment, SECOND))
        _LIBC.timerfd_settime(self._timer.fileno(), _AT_A_MOMENT, times, None)

    def _expired(self) -> None:
        if self._timer.read(8):  # it may have been set again
            self._rings()
