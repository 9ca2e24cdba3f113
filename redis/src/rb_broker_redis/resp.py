"""What a Redis is sent and what it answers (RESP 2)."""
from __future__ import annotations

from collections.abc import Iterable
from typing import Any

import hiredis


class ErrorAnswer(Exception):
    """The Redis answered an error."""

    @property
    def code(self) -> str:
        """The error's first word, such as OOM."""
        return str(self).partition(" ")[0]


Answer = Any
"""bytes, int, None, an `ErrorAnswer`, or a list of answers."""


def command(*words: bytes | str | int) -> bytes:
    """The bytes of a command."""
    encoded = [word if isinstance(word, bytes) else str(word).encode() for word in words]
    return b"*%d\r\n" % len(encoded) + bulks(encoded)


def bulks(words: Iterable[bytes]) -> bytes:
    """The bytes of a command's words."""
    pieces: list[bytes] = []
    add = pieces.append
    for word in words:
        length = len(word)
        add(_FRONTS[length] if length < len(_FRONTS) else b"$%d" % length)
        add(word)
    add(b"")
    return b"\r\n".join(pieces)


_FRONTS = [b"$%d" % length for length in range(512)]
"""What stands before a word, by its length, of those that are sent again and again."""


def reader() -> Any:
    """A reader of answers: `gets` is False until a whole one was fed."""
    return hiredis.Reader(protocolError=ConnectionError, replyError=ErrorAnswer)
