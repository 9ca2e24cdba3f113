"""The queue that a history describes, event by event: the elements that are in it, and what it gives."""
from __future__ import annotations

import heapq
from collections.abc import Iterable, Iterator
from pathlib import Path
from re import Match

from .faults import Wrong
from .files import open_history
from .grammar import GRAMMARS, GREATEST, OFFERED_GROUPS
from .text import Text, take_each

_EVENT = GRAMMARS[3].event


class FollowedQueue:
    """The elements in a queue, by their ids in rising order, followed event by event.

    Whether an element of an earlier expiry was passed over is not tested: `LegalQueue` does that.
    """

    def __init__(self, next_id: int = 0, last: int = 0) -> None:
        self.next_id = next_id
        """The id of the next offer."""
        self.opened_at = self.last = last
        """The moment of the last event, before the first one that is followed and now."""
        self.elements: dict[int, bytes] = {}
        """The words of each element, as a `keep` line has them."""
        self.offered: bytes | None = None
        """The words of the element that the last event offered."""
        self.gave: list[bytes] = []
        """Those of the elements that it gave."""

    def copy(self) -> FollowedQueue:
        """Another one that goes on from here."""
        other = FollowedQueue(self.next_id, self.last)
        other.elements = self.elements.copy()
        return other

    @classmethod
    def of_opening(cls, lines: Iterable[bytes]) -> FollowedQueue:
        """The queue of an `open` line and its `keep` lines, without their line feeds."""
        head, *kept = lines
        queue = cls(*map(int, head.split(b" ")[1:3]))
        for line in kept:
            queue.keep(line[len(b"keep "):])
        return queue

    def keep(self, words: bytes) -> None:
        """Adds an element of an opening."""
        id = int(words.split(b" ", 1)[0])
        if id >= self.next_id or (self.elements and id <= next(reversed(self.elements))):
            raise Wrong("the id of a `keep` line is above the one before, and below the next")
        self.elements[id] = words

    def follow(self, line: bytes) -> None:
        """Takes an event, of which `line` is the text without its line feed."""
        match = _EVENT.fullmatch(line + b"\n")
        if match is None:
            raise Wrong("it is no event")
        self.take(match, line[match.start(OFFERED_GROUPS[0]):])

    def take(self, event: Match[bytes], offered: bytes) -> None:
        """Takes an event. The words of an offered element are as the third version has them."""
        at = int(event[3])
        if at != max(int(event[2]), self.last) or at > GREATEST:
            raise Wrong("its moment is not the later of the one asked and the last")
        self.offered, self.gave, self.last = None, [], at
        act = event.lastgroup
        if act == "offer":
            self._offer(offered)
        elif act in ("poll", "take", "pollfor", "drain"):
            self.gave = [self._give(id) for id in event[act].split() if id != b"none"]
        elif act == "remove" and event["remove"] == b"yes":
            self._leave(event["removed"])
        elif act == "clear":
            self._clear()
        elif act == "size":
            self._test_size(int(event["size"]))
        self._test_none(event)

    def opening(self) -> Iterator[bytes]:
        """The `open` line of a run that continues here, and its `keep` lines."""
        yield b"open %d %d %d\n" % (self.next_id, self.last, len(self.elements))
        yield from self.kept()

    def kept(self) -> Iterator[bytes]:
        """The `keep` lines alone."""
        return (b"keep %b\n" % words for words in self.elements.values())

    def _offer(self, words: bytes) -> None:
        if int(words.split(b" ", 1)[0]) != self.next_id:
            raise Wrong(f"its id is not the next one, {self.next_id}")
        self.elements[self.next_id] = self.offered = words
        self.next_id += 1

    # What follows is for other queues to do in another way.

    def _clear(self) -> None:
        self.elements.clear()

    def _test_size(self, size: int) -> None:
        if size != len(self.elements):
            raise Wrong(f"the queue holds {len(self.elements)}")

    def _test_none(self, event: Match[bytes]) -> None:
        """Tests an event for what it did not find."""

    def _give(self, id: bytes) -> bytes:
        return self._leave(id)

    def _leave(self, id: bytes) -> bytes:
        words = self.elements.pop(int(id), None)
        if words is None:
            raise Wrong(f"element {id.decode()} is not in the queue")
        return words


class LegalQueue(FollowedQueue):
    """Also tests that what was given was the earliest and had expired, and that where nothing was found, nothing was to
    be found. It takes the more time for it."""

    def __init__(self, next_id: int = 0, last: int = 0) -> None:
        super().__init__(next_id, last)
        self._expiries: list[tuple[int, int]] = []  # a heap, with the ids; of elements that are there, and of others

    def keep(self, words: bytes) -> None:
        super().keep(words)
        self._push(words)

    def _offer(self, words: bytes) -> None:
        super()._offer(words)
        self._push(words)

    def _push(self, words: bytes) -> None:
        id, expiry, _ = words.split(b" ", 2)
        heapq.heappush(self._expiries, (int(expiry), int(id)))

    @property
    def _earliest(self) -> int | None:
        """The expiry of the earliest element, if there is one."""
        while self._expiries and self._expiries[0][1] not in self.elements:
            heapq.heappop(self._expiries)
        return self._expiries[0][0] if self._expiries else None

    def _has_expired(self) -> bool:
        return self._earliest is not None and self._earliest <= self.last

    def _give(self, id: bytes) -> bytes:
        self._test_earliest(id)
        if not self._has_expired():
            raise Wrong(f"element {id.decode()} has not expired")
        return super()._give(id)

    def _test_earliest(self, id: bytes) -> None:
        words = self.elements.get(int(id))
        if words and int(words.split(b" ", 2)[1]) != self._earliest:
            raise Wrong(f"element {id.decode()} is not the earliest")

    def _test_none(self, event: Match[bytes]) -> None:
        act = event.lastgroup
        if act == "peek":
            self._test_peek(event[act])
        elif act == "drain":
            self._test_left(len(self.gave) == int(event["most"]))
        elif act in ("poll", "pollfor"):
            self._test_left(event[act] != b"none")

    def _test_left(self, has_enough: bool) -> None:
        if not has_enough and self._has_expired():
            raise Wrong("an element has expired, and is not given")

    def _test_peek(self, id: bytes) -> None:
        if id == b"none":
            if self.elements:
                raise Wrong("the queue is not empty")
        elif int(id) not in self.elements:
            raise Wrong(f"element {id.decode()} is not in the queue")
        else:
            self._test_earliest(id)


def read_queue(path: Path) -> LegalQueue:
    """The queue at the end of a text in a file, which is read whole, in any version, also if it is compressed."""
    with open_history(str(path)) as file:
        text = Text(file)
        queue = LegalQueue(text.head.next_id, text.head.opened_at)
        firsts: dict[bytes, bytes] = {}  # the first expiry of each job, by its origin
        take_each(text.kept(), lambda line: queue.keep(_words(line, 1, firsts)))
        take_each(text.events(), lambda line: queue.take(
            line, _words(line, OFFERED_GROUPS[0], firsts) if line.lastgroup == "offer" else b""))
    return queue


def _words(line: Match[bytes], group: int, firsts: dict[bytes, bytes]) -> bytes:
    """The words of an element, which begin with this group, as the third version has them. Where the first expiry of a
    job is not told, it is that of its earliest line."""
    words = line.groups()[group - 1:group + 5]
    if words[3]:
        return b" ".join(words)
    id, expiry, origin, _, attempt, payload = words
    return b" ".join((id, expiry, origin, firsts.setdefault(origin, expiry), attempt, payload))
