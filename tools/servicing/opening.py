"""What a run begins with: the text that its server reads, made from the run before."""
from dataclasses import dataclass, field
from typing import BinaryIO, Iterable, Iterator

from rb_broker_formats.grammar import GREATEST, GREATEST_OPENING_ID, HEADER, MOST_OPENING_ELEMENTS
from rb_broker_redis.watching.units import SECOND

# An element by its id: the rest of its `keep` line, which is EXPIRY ORIGIN FIRST ATTEMPT PAYLOAD. The ids rise.
Elements = dict[bytes, bytes]

# The element by which the service asks for the moment. It would expire after 146 years, and never outlives a run.
PROBE, PROBE_DELAY = "rb_broker-service", 4_600_000_000 * SECOND
_PROBE_END = b" " + PROBE.encode()


class NoIdsLeft(Exception):
    """2^40 ids were given, and no run can begin above."""


@dataclass(frozen=True)
class Opening:
    """What a run begins with."""

    next_id: int
    moment: int
    elements: Elements
    aside: Elements = field(default_factory=dict)  # beyond what an opening may have, which wait beside it

    @property
    def text(self) -> Iterator[bytes]:
        """The text of a history that has left its elements."""
        yield HEADER + b"open %d %d %d\n" % (self.next_id, self.moment, len(self.elements))
        for id, words in self.elements.items():
            yield b"keep %s %s\n" % (id, words)
        yield b"end 0\n"

    @property
    def first_aside(self) -> int:
        return min((expiry_of(it) for it in self.aside.values()), default=GREATEST)


@dataclass
class Left:
    """What a history says at its end."""

    next_id: int
    moment: int  # of its last event, or the opening's
    elements: Elements
    failed: int = 0  # jobs that came back
    probes: int = 0  # elements that the service itself offered
    begins: tuple[int, int, int] = (0, 0, 0)  # the next id, the moment and the number of elements before all events


def opening_after(left: Left, aside: Elements, moment: int, given: int = 0) -> Opening:
    """The opening, at a moment that is not before the last event, of the run after one that left this, and beside it
    elements aside. One that was lost left its own opening, and may have given so many ids. At most 1,000,000 elements
    are in it, those that expire first; the others wait beside. The ids of both rise."""
    next_id, elements = left.next_id + given, left.elements
    if next_id > GREATEST_OPENING_ID:
        raise NoIdsLeft
    if aside or len(elements) > MOST_OPENING_ELEMENTS:
        order = sorted({**elements, **aside}.items(), key=lambda it: (expiry_of(it[1]), int(it[0])))
        elements, aside = (dict(sorted(them, key=lambda it: int(it[0])))
                           for them in (order[:MOST_OPENING_ELEMENTS], order[MOST_OPENING_ELEMENTS:]))
    return Opening(next_id, min(max(moment, left.moment), GREATEST), elements, aside)


def expiry_of(words: bytes) -> int:
    return int(words[:words.index(b" ")])


def left_in(file: BinaryIO) -> Left:
    """What is left at the end of a history of the third version that `replay` has accepted, or of an opening.

    It takes a microsecond for each line, and clients wait for it. So nothing else is checked here. Raises a
    `ValueError`, an `IndexError` or a `KeyError` for another text.
    """
    if file.readline() != HEADER:
        raise ValueError
    next_id, moment, count = map(int, file.readline().split()[1:])
    left = Left(next_id, moment, {}, begins=(next_id, moment, count))
    elements, event, probes = left.elements, list[bytes](), list[bytes]()
    for _ in range(count):
        _, id, element = file.readline()[:-1].split(b" ", 2)
        elements[id] = element
    for line in file:
        words = line[:-1].split(b" ", 5)
        if len(words) < 4:  # the last line
            break
        event = words
        if event[3] == b"offer":
            id, element = event[4:]
            elements[id] = element
            left.next_id += 1
            left.failed += element.split(b" ", 2)[1] != id
            if element.endswith(_PROBE_END) and expiry_of(element) >= PROBE_DELAY:
                probes.append(id)
            continue
        for id in _gone(event, elements):
            del elements[id]
    left.moment = int(event[2]) if event else left.moment
    for id in probes:  # a service that was killed may have left one
        elements.pop(id, None)
    left.probes = len(probes)
    return left


def _gone(event: list[bytes], elements: Elements) -> Iterable[bytes]:
    """The ids of the elements that an event took out."""
    act = event[3]
    if act in (b"take", b"poll", b"pollfor"):
        id = event[-1].rpartition(b" ")[2]
        return () if id == b"none" else (id,)
    if act == b"drain":
        return event[-1].split() if len(event) > 5 else ()
    if act == b"remove":
        return event[4:5] if event[5] == b"yes" else ()
    return [*elements] if act == b"clear" else ()
