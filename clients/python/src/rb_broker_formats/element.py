"""An element, by the words of a line."""
from __future__ import annotations

from typing import NamedTuple

# Takes the place of a row, an event or a moment if there is none.
NONE = -1


class Element(NamedTuple):
    """The words of a `keep` line or of an offer. The expiry and the job's first one are moments of the server, in
    nanoseconds."""

    id: int
    expiry: int
    origin: int
    first: int
    attempt: int
    payload: str

    @classmethod
    def of(cls, words: bytes) -> Element:
        """That of its words, in any version. The first and the second do not tell the first expiry, which is NONE then.
        """
        id, expiry, origin, *first, attempt, payload = words.decode("ascii").split(" ")
        return cls(int(id), int(expiry), int(origin), int(first[0]) if first else NONE, int(attempt), payload)

    def words(self) -> bytes:
        return " ".join(map(str, self)).encode("ascii")
