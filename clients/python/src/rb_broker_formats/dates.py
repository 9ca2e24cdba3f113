"""Dates as people write them, in nanoseconds since 1970, and as text in UTC."""
from __future__ import annotations

import re
from datetime import datetime, timedelta, timezone

from .durations import SECOND

EPOCH = datetime(1970, 1, 1, tzinfo=timezone.utc)
LIMIT = datetime(9001, 1, 1, tzinfo=timezone.utc)
"""2^64 nanoseconds later a year still has four digits."""

_DATE = re.compile(
    r"(\d{4}-\d\d-\d\d)(?:[T ](\d\d:\d\d)(:\d\d)?(?:[.,](\d{1,9}))? ?(Z|UTC|[+-]\d\d:?\d\d)?)?", re.ASCII)
_SECONDS = re.compile(r"@(\d{1,10})(?:\.(\d{1,9}))?", re.ASCII)


def nanoseconds_of(text: str) -> int:
    """The nanoseconds since 1970 of a date such as 2026-11-26T08:00:00Z, or of seconds since then, such as @1795680000.

    A date without a zone is in UTC. Raises a `ValueError` with a sentence that says what is wrong.
    """
    seconds, date = _SECONDS.fullmatch(text), _DATE.fullmatch(text)
    if seconds:
        passed, fraction = int(seconds[1]), seconds[2]
    elif date:
        day, minute, second, fraction, zone = date.groups()
        zone = "Z" if zone in (None, "UTC") else zone
        date_and_time = datetime.fromisoformat(f"{day}T{minute or '00:00'}{second or ''}{zone}")
        passed = (date_and_time - EPOCH) // timedelta(seconds=1)
    else:
        raise ValueError("write 2026-11-26T08:00:00Z, or seconds since 1970 as @1795680000")
    if passed < 0:
        raise ValueError("it is before 1970")
    if passed >= (LIMIT - EPOCH) // timedelta(seconds=1):
        raise ValueError("it is after the year 9000")
    return passed * SECOND + int((fraction or "0").ljust(9, "0"))


def date_text(nanoseconds: int) -> str:
    """The date in UTC, to the nanosecond."""
    seconds, rest = divmod(nanoseconds, SECOND)
    return f"{EPOCH + timedelta(seconds=seconds):%Y-%m-%dT%H:%M:%S}.{rest:09d}Z"
