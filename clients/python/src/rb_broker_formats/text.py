"""The text of a history, line by line, in any of its versions.

A text is refused at its first line that is not of the form that docs/HISTORY.md describes, that is cut off, or that
tells another number of lines than there is. What the lines say is for their reader to judge.
"""
from functools import partial
from typing import BinaryIO, Callable, Iterable, Iterator, Match, TypeVar

from .faults import Damaged, Wrong
from .grammar import (
    END, GRAMMARS, GREATEST, GREATEST_OPENING_ID, HEADER, HEADERS, LONGEST_LINE, MOST_EVENTS, MOST_OPENING_ELEMENTS,
    OPEN, Head,
)

TOO_SHORT = "the text ends before the history does"

Line = TypeVar("Line")

# A line with its number, from 1, by the pattern of its version.
Numbered = tuple[int, Match[bytes]]


class Text:
    """Reads a text: its head at once, and then, as they are asked for, its `keep` lines and behind them its events."""

    def __init__(self, file: BinaryIO) -> None:
        self.head = _read_head(file)
        self.head_lines = 1 if self.head.version == 1 else 2
        self._lines = iter(partial(file.readline, LONGEST_LINE), b"")

    def kept(self) -> Iterator[Numbered]:
        """The `keep` lines, of which the `open` line told the number."""
        pattern = GRAMMARS[self.head.version].keep
        for number in range(self.head_lines + 1, self.head_lines + self.head.kept + 1):
            match = pattern.fullmatch(_whole(next(self._lines, b""), number))
            if match is None:
                raise Damaged(number, "no `keep` line")
            yield number, match

    def events(self) -> Iterator[Numbered]:
        """The events. Behind the last one, the last line is read too."""
        fullmatch, first = GRAMMARS[self.head.version].event.fullmatch, self.head_lines + self.head.kept + 1
        number = first - 1
        for number, line in enumerate(self._lines, first):
            match = fullmatch(line)
            if match is None:
                self._read_end(_whole(line, number), number, number - first)
                return
            if number - first == MOST_EVENTS:
                raise Damaged(number, f"an event after {MOST_EVENTS:,} others")
            yield number, match
        raise Damaged(number + 1, TOO_SHORT)

    def _read_end(self, line: bytes, number: int, count: int) -> None:
        """Reads the last line, which follows this many events."""
        match = END.fullmatch(line)
        if match is None or int(match[1]) > GREATEST:
            raise Damaged(number, "neither an event nor the last line")
        if int(match[1]) != count:
            raise Damaged(number, f"it says {int(match[1])}, and the number of events is {count}")
        if next(self._lines, b""):
            raise Damaged(number + 1, "it follows the last line")


def _read_head(file: BinaryIO) -> Head:
    """Reads the header and, but in version 1, the `open` line."""
    version = HEADERS.get(file.readline(len(HEADER)))
    if version is None:
        raise Damaged(1, "no `history 1`, `history 2` or `history 3`")
    if version == 1:
        return Head(version)
    numbers = OPEN.fullmatch(_whole(file.readline(LONGEST_LINE), 2))
    if numbers is None:
        raise Damaged(2, "no `open` line")
    next_id, opened_at, kept = map(int, numbers.groups())
    if next_id > GREATEST_OPENING_ID or opened_at > GREATEST or kept > MOST_OPENING_ELEMENTS:
        raise Damaged(2, "the `open` line is past its limits")
    if version == 2 and next_id == opened_at == kept == 0:
        raise Damaged(2, "a history of version 2 never opens with nothing")
    return Head(version, next_id, opened_at, kept)


def _whole(line: bytes, number: int) -> bytes:
    if not line.endswith(b"\n"):
        raise Damaged(number, TOO_SHORT)
    return line


def take_each(lines: Iterable[tuple[int, Line]], take: Callable[[Line], None]) -> None:
    """Takes one line after the other, each with its number. Refuses the text for one that says what can't be."""
    for number, line in lines:
        try:
            take(line)
        except Wrong as fault:
            raise Damaged(number, str(fault)) from None
        except OverflowError:
            raise Damaged(number, "a number passes 2^64 - 1") from None
