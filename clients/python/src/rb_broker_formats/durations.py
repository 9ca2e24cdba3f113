"""Durations as people write them: `30s`, `1.5h`."""
import re
from fractions import Fraction

from .protocol import GREATEST_NUMBER

SECOND = 1_000_000_000
"""Nanoseconds."""

UNITS = {
    "ns": 1, "us": 1_000, "ms": 1_000_000, "s": SECOND, "m": 60 * SECOND, "h": 3_600 * SECOND, "d": 86_400 * SECOND,
}
"""The nanoseconds of each unit."""

_UNITS = f"units are {', '.join(UNITS)}"
_DURATION = re.compile(rf"([0-9]+(?:\.[0-9]+)?)({'|'.join(UNITS)}|)", re.ASCII)


def nanoseconds_in(text: str, bare: int = 0) -> Fraction | None:
    """The nanoseconds of a text, or None if it is no duration. A number without a unit is of so many nanoseconds, or no
    duration if these are 0."""
    found = _DURATION.fullmatch(text)
    unit = UNITS.get(found[2], bare) if found else 0
    return Fraction(found[1]) * unit if found and unit else None


def read_duration(text: str, bare: int = 0) -> int:
    """The nanoseconds of `30s` or `1.5h`. A number without a unit is of so many nanoseconds, or refused if these are 0.
    Raises `ValueError` with a sentence that says what is wrong."""
    duration = nanoseconds_in(text, bare)
    if duration is None and nanoseconds_in(text, bare=1) is not None:
        raise ValueError(f"{text} has no unit: write {text}s ({_UNITS})")
    if duration is None:
        raise ValueError(f"{text!r} is no duration: write 30s or 1.5h ({_UNITS})")
    if duration.denominator != 1:
        raise ValueError(f"{text} is not a whole number of nanoseconds")
    if duration > GREATEST_NUMBER:
        raise ValueError(f"{text} is longer than 2^64 - 1 nanoseconds")
    return int(duration)
