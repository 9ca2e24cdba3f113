"""The lines of a history's text, as patterns over bytes. docs/HISTORY.md describes them.

A pattern fixes each byte of a line, its line feed too. One thing it leaves open: a number of twenty digits may pass
2^64 - 1, which the reader finds when it stores the number.
"""
import re
from typing import NamedTuple, Pattern

GREATEST = 2**64 - 1
GREATEST_OPENING_ID = 2**40
MOST_OPENING_ELEMENTS = 1_000_000
MOST_EVENTS = 1_000_000

# No line is longer: a drain of all elements that a text can tell has 42,000,000 bytes of ids.
LONGEST_LINE = 48_000_000

HEADER = b"history 3\n"
"""The first line of a text that is written now."""

HEADERS: dict[bytes, int] = {b"history 1\n": 1, b"history 2\n": 2, HEADER: 3}

# An element's words end with a group of its act's name, or of `keep`. If a version leaves the first expiry out, its
# group is empty. Each alternative of an event ends with a group of the act's name, or is one.
_ELEMENT = "({n}) ({n}) ({n}) {first} ([1-9][0-9]{{0,2}}|1000) (?P<%s>[!-~]{{1,64}})"
_ACTS = (
    "offer " + _ELEMENT % "offer", "take (?P<take>{n})", "poll (?P<poll>{n}|none)",
    "pollfor (?P<start>{n}) (?P<timeout>{n}) (?P<pollfor>{n}|none)", "peek (?P<peek>{n}|none)",
    "remove (?P<removed>{n}) (?P<remove>yes|no)", "drain (?P<most>{n})(?P<drain>(?: (?:{n}))*)", "(?P<clear>clear)",
    "size (?P<size>{n})",
)

OFFERED_GROUPS = tuple(range(4, 10))  # of an element's words in an event; in a `keep` line there are no others


def _pattern(form: str, tells_first: bool = True) -> Pattern[bytes]:
    number = "0|[1-9][0-9]{0,19}"  # always in a group
    told = form if tells_first else form.replace("{first} ", "()")
    return re.compile(told.format(n=number, first=f"({number})").encode() + b"\n")


class Grammar(NamedTuple):
    """The patterns of one version. In `event` the last group that matched is named after the act's keyword."""

    keep: Pattern[bytes]
    event: Pattern[bytes]


class Head(NamedTuple):
    """What the first lines of a text tell: the version, and the `open` line's numbers, which are 0 in version 1."""

    version: int
    next_id: int = 0
    opened_at: int = 0
    kept: int = 0


OPEN, END = _pattern("open ({n}) ({n}) ({n})"), _pattern("end ({n})")

GRAMMARS: dict[int, Grammar] = {version: Grammar(
    _pattern("keep " + _ELEMENT % "keep", version == 3),
    _pattern(f"({{n}}) ({{n}}) ({{n}}) (?:{'|'.join(_ACTS)})", version == 3)) for version in HEADERS.values()}
