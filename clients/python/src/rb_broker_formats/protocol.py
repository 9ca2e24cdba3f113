"""The protocol's limits, the forms of its words, and its replies to lines that are refused."""
from __future__ import annotations

from enum import Enum

GREATEST_NUMBER = 2**64 - 1
LONGEST_PAYLOAD = 64
"""Characters, each of which is printable ASCII and none a space."""
MOST_LINE_BYTES = 256
"""Of a request."""
LONGEST_REPLY = 117
"""Bytes of a line, its line feed included."""
MOST_HELD = 64
"""Jobs that a session may hold."""
MOST_ATTEMPTS = 1_000
MOST_CALLS = 1_000_000

# Patterns of words, without a group. A number of twenty digits may pass GREATEST_NUMBER.
NUMBER = "(?:0|[1-9][0-9]{0,19})"
ATTEMPT = f"(?:[1-9][0-9]{{0,2}}|{MOST_ATTEMPTS})"
PAYLOAD = f"[!-~]{{1,{LONGEST_PAYLOAD}}}"
GREETING = f"RUN ({NUMBER}) lost ({NUMBER}) at ({NUMBER})"
"""What a server of a service says first: its run, how many were lost before, and the moment at which it began."""


class ErrorReply(bytes, Enum):
    """A reply line. If a line has several faults, that of the first of LINE, SYNTAX, NUMBER and PAYLOAD is given; the
    others need more than the line to be told."""

    LINE = b"ERR 8 line\n"
    SYNTAX = b"ERR 1 syntax\n"
    NUMBER = b"ERR 2 number\n"
    PAYLOAD = b"ERR 4 payload\n"
    RANGE = b"ERR 3 range\n"
    HELD = b"ERR 9 held\n"
    NOT_HELD = b"ERR 5 not-held\n"
    FULL = b"ERR 6 full\n"
    MEMORY = b"ERR 7 memory\n"
