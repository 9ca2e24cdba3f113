"""A piece of a history as a text of its own, which is legal, and its retries right, just if those of the piece are.

A text begins with at most 1,000,000 elements, and `replay --chains` looks in it for the event that gave a job before it
accepts the job's return. So two rules make the text of a piece:

1. If the queue has more elements, then of those that no event names only the earliest stands in the text, and sizes are
   told without the others. Nothing is given, seen or not found rightly beside that one and wrongly beside a later one.
2. A job that was given before the piece, and comes back in it, stands in the opening, and is given once more in front of
   the first event, at the moment at which the piece begins, the earliest first. That is legal if no element in the queue
   is earlier; if one is, the chains are not judged.
"""
from __future__ import annotations

from collections.abc import Iterator, Mapping, Sequence
from typing import NamedTuple

from rb_broker_formats.grammar import MOST_EVENTS, MOST_OPENING_ELEMENTS
from rb_broker_formats.queue import FollowedQueue

MOST_GIVEN = 1_000_000
"""So many jobs are remembered that were given and have not come back: nobody tells that one is done."""


class Gift(NamedTuple):
    """What was given."""

    words: bytes
    """Those of the element."""
    seat: bytes


class Given:
    """Follows the jobs that were given, by their origins."""

    def __init__(self) -> None:
        self.gifts: dict[bytes, Gift] = {}

    def follow(self, event: bytes, queue: FollowedQueue) -> None:
        """Takes an event, which the queue has followed."""
        for words in queue.gave:
            origin = words.split(b" ", 3)[2]
            self.gifts.pop(origin, None)
            self.gifts[origin] = Gift(words, event.partition(b" ")[0])
            if len(self.gifts) > MOST_GIVEN:
                del self.gifts[next(iter(self.gifts))]
        if queue.offered is not None:
            self.gifts.pop(queue.offered.split(b" ", 3)[2], None)


class Text(NamedTuple):
    """What is judged of a piece."""

    opening: list[bytes]
    """Lines with their line feeds."""
    events: list[bytes]
    """Without."""
    given_before: int
    """How many jobs come back in it that were given before."""
    are_chained: bool
    """Whether its retries can be judged."""
    left_out: int
    """How many elements that stay are left out."""

    @property
    def is_too_large(self) -> bool:
        """Whether `replay` takes no such text."""
        return len(self.events) > MOST_EVENTS or len(self.opening) - 1 > MOST_OPENING_ELEMENTS


def text_of(queue: FollowedQueue, events: Sequence[bytes], gifts: Mapping[bytes, Gift]) -> Text:
    """The text of these events of a queue. `gifts` are the jobs that were given before."""
    lacking = list(_lacking(queue.copy(), events))
    before = sorted((gifts[it] for it in lacking if it in gifts), key=lambda it: _expiry(it.words))
    are_chained = len(before) == len(lacking) and (not before or not queue.elements or (
        _expiry(before[-1].words) <= min(map(_expiry, queue.elements.values()))))
    if not are_chained:
        before = []
    elements, events, left_out = dict(queue.elements), list(events), 0
    if len(elements) + len(before) > MOST_OPENING_ELEMENTS:
        elements, events, left_out = _without_those_that_stay(elements, events)
    elements.update((int(it.words.split(b" ", 1)[0]), it.words) for it in before)
    opened = FollowedQueue(queue.next_id, queue.last)
    opened.elements = dict(sorted(elements.items()))
    again = [b"%b %d %d take %b" % (it.seat, queue.last, queue.last, it.words.split(b" ", 1)[0]) for it in before]
    return Text([*opened.opening()], again + events, len(lacking), are_chained, left_out)


def _expiry(words: bytes) -> int:
    return int(words.split(b" ", 2)[1])


def _lacking(queue: FollowedQueue, events: Sequence[bytes]) -> Iterator[bytes]:
    """The origins of the jobs that come back though no event before gave them."""
    given: set[bytes] = set()
    for event in events:
        queue.follow(event)
        given.update(words.split(b" ", 3)[2] for words in queue.gave)
        if queue.offered is not None:
            _, _, origin, _, attempt, _ = queue.offered.split(b" ")
            if attempt != b"1" and origin not in given:
                yield origin


def _without_those_that_stay(
    elements: Mapping[int, bytes], events: Sequence[bytes]
) -> tuple[dict[int, bytes], list[bytes], int]:
    """The elements without those that no event names, but for the earliest of these; and the events beside them."""
    named = {id for it in events for id in _named(it.split(b" "))}
    staying = elements.keys() - named
    kept = min(staying, key=lambda id: _expiry(elements[id]), default=None)
    left_out = staying - {kept}
    clear = next((place for place, it in enumerate(events) if it.endswith(b" clear")), len(events))
    counted = [_smaller(it, len(left_out)) for it in events[:clear]]
    return {id: it for id, it in elements.items() if id not in left_out}, [*counted, *events[clear:]], len(left_out)


def _named(words: Sequence[bytes]) -> Iterator[int]:
    """The ids in an event, but for that of an offer."""
    act, *rest = words[3:]
    if act in (b"poll", b"take", b"peek", b"remove"):
        rest = rest[:1]
    elif act in (b"pollfor", b"drain"):
        rest = rest[2:] if act == b"pollfor" else rest[1:]
    else:
        rest = []
    return (int(it) for it in rest if it != b"none")


def _smaller(event: bytes, by: int) -> bytes:
    """An event that tells a size, with a smaller one."""
    front, act, size = event.rpartition(b" size ")
    return b"%b%b%d" % (front, act, int(size) - by) if act and int(size) >= by else event
