"""What a client sends: cut into lines, and which request a line is."""
from __future__ import annotations

import re
from enum import Enum, auto

from .protocol import GREATEST_NUMBER, MOST_LINE_BYTES, NUMBER, PAYLOAD, ErrorReply


class Kind(Enum):
    """What is to be done about a line."""

    CALL = auto()
    """Its text is a call of the queue, which is answered at once."""
    WAIT = auto()
    """The same, but the call may have to wait: TAKE, POLLFOR."""
    AT = auto()
    """Its text is a moment."""
    QUIT = auto()
    ERROR = auto()
    """It is refused. Its text is the reply."""


Request = tuple[Kind, bytes]
"""A line that was read, with its text."""

# What each keyword asks for, and how many words follow it: a number, and behind that a payload.
_FORMS = {
    b"POLL": (Kind.CALL, 0), b"TAKE": (Kind.WAIT, 0), b"PEEK": (Kind.CALL, 0), b"CLEAR": (Kind.CALL, 0),
    b"SIZE": (Kind.CALL, 0), b"QUIT": (Kind.QUIT, 0), b"POLLFOR": (Kind.WAIT, 1), b"REMOVE": (Kind.CALL, 1),
    b"DRAIN": (Kind.CALL, 1), b"DONE": (Kind.CALL, 1), b"FAIL": (Kind.CALL, 1), b"AT": (Kind.AT, 1),
    b"OFFER": (Kind.CALL, 2), b"OFFERAT": (Kind.CALL, 2),
}
_NUMBER, _PAYLOAD = re.compile(NUMBER.encode()), re.compile(PAYLOAD.encode())

# Most lines are a keyword alone, or well formed with a number of up to 19 digits, which can't pass 2^64 - 1. A line that
# is neither may still be a request.
_ALONE = {keyword: kind for keyword, (kind, count) in _FORMS.items() if not count}
_USUAL = re.compile(
    rb"OFFER(?:AT)? (?:0|[1-9][0-9]{0,18}) [!-~]{1,64}|(?:DONE|FAIL|REMOVE|DRAIN|(POLLFOR)) (?:0|[1-9][0-9]{0,18})"
)

# No more of a line's beginning has to be kept to know that it is too long, even if its last byte is a CR that belongs
# to its end.
_ENOUGH = MOST_LINE_BYTES + 2


class LineCutter:
    """Keeps the bytes that no line feed has ended yet, and no more than are needed to judge them."""

    __slots__ = ("rest",)

    def __init__(self) -> None:
        self.rest = b""

    def cut(self, data: bytes) -> list[bytes]:
        """The lines that these bytes end, without their line feeds."""
        lines = (self.rest + data if self.rest else data).split(b"\n")
        self.rest = lines.pop()[:_ENOUGH]
        return lines


def kind_of_usual(line: bytes) -> Kind | None:
    """What is to be done about a line of a usual form, without its end: its text is the line. None for any other."""
    kind = _ALONE.get(line)
    if kind is None and (usual := _USUAL.fullmatch(line)):
        kind = Kind.WAIT if usual.lastindex else Kind.CALL
    return kind


def read_request(line: bytes) -> Request:
    """Reads a line, which is given without its line feed. One CR at its end belongs to the end."""
    kind = kind_of_usual(line)
    return (kind, line) if kind else _read_unusual(line[:-1] if line.endswith(b"\r") else line)


def _read_unusual(line: bytes) -> Request:
    if len(line) > MOST_LINE_BYTES:
        return refused(ErrorReply.LINE)
    keyword, *words = line.split(b" ")
    kind, count = _FORMS.get(keyword, (Kind.ERROR, 0))
    if kind is Kind.ERROR or len(words) != count or b"" in words:
        return refused(ErrorReply.SYNTAX)
    if words and not (_NUMBER.fullmatch(words[0]) and int(words[0]) <= GREATEST_NUMBER):
        return refused(ErrorReply.NUMBER)
    if count == 2 and not _PAYLOAD.fullmatch(words[1]):
        return refused(ErrorReply.PAYLOAD)
    return kind, words[0] if kind is Kind.AT else line


def refused(reply: ErrorReply) -> Request:
    """A line with this fault."""
    return Kind.ERROR, reply.value
