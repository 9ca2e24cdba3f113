"""Watches the clock of a queue's node, which the gateway's own clock shows to be set."""
from __future__ import annotations

from .protocol import SECOND

MOST_DRIFT = SECOND
"""A clock that is off by this much since the last look was set, and did not drift."""


class NodeClock:
    """All moments are nanoseconds: those of the node, and the gateway's own `now`."""

    def __init__(self) -> None:
        self._offset: int | None = None

    def look(self, shown: int, last: int, now: int) -> str:
        """What is wrong with a clock that shows this moment, while the last event has that one; or nothing."""
        before, self._offset = self._offset, shown - now
        by, behind = self._offset - (self._offset if before is None else before), last - shown
        if before is not None and abs(by) <= MOST_DRIFT or before is None and behind <= MOST_DRIFT:
            return ""
        said = "is wrong" if before is None else f"was set {'forward' if by > 0 else 'back'} by {abs(by) / SECOND:.1f} s"
        if behind > MOST_DRIFT:
            said += f": no time passes for the queue in the next {behind / SECOND:.1f} s"
        elif by > 0:
            said += ": jobs are due that much earlier"
        return said
