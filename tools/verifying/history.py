"""A history as verify looks at it: its events by seat, and by the ids of the elements that they name."""
import re
from array import array
from bisect import bisect_left, bisect_right
from functools import lru_cache
from typing import BinaryIO, Match, Sequence

from rb_broker_formats.acts import IDS
from rb_broker_formats.faults import Damaged
from rb_broker_formats.element import NONE, Element
from rb_broker_formats.text import Text

# Takes the place of an event's place in its seat's row, if it is not looked for there.
NOWHERE = (1 << 32) - 1

# The acts that name no element which comes or leaves. A fetch of a client of several queues may ask one in vain.
IN_VAIN = re.compile(rb"\S+ \S+ \S+ (?:poll none|pollfor \S+ \S+ none|drain \S+|peek \S+|size \S+)\n")

# In the words of an act, what is not told.
ANY = "…"


class EventsById(dict[int, int]):
    """An event for an id, or NONE."""

    def __missing__(self, id: int) -> int:
        return NONE


class History:
    """The events of a run, each by its index, from 0. Whether they are legal is the affair of `rb_broker replay`.

    Its files are read one after the other. A queue that nobody has used has none.
    """

    def __init__(self, shard: int | None = None) -> None:
        """`shard` is the number of the queue, if it is one of several with one name."""
        self._shard = shard
        self.version = 3  # of the first file
        self.text = bytearray()  # of the events
        self.starts = array("Q", [0])  # where each event's line begins, and where the next one would
        self.seat_names: list[int] = []
        self.seats = array("I")  # by an index into the names
        self.rows: list[array[int]] = []  # the events of each seat
        self.places = array("I")  # of each event in its seat's row
        # The event that offered an element, the one that took it out, and the one that offered its job again.
        self.offers, self.exits, self.returns = EventsById(), EventsById(), EventsById()
        self.kept: dict[int, Element] = {}  # the elements of the opening
        self.files = array("I")  # the first event of each file, whose clock may be another than that of the one before
        self._next = self._last = 0  # the id with which a file would begin that goes on, and the last event's moment
        self._latest: dict[int, int] = {}  # the id of the latest attempt of each job that was offered again
        self._seat_indexes: dict[bytes, int] = {}

    def __len__(self) -> int:
        return len(self.seats)

    def read(self, file: BinaryIO) -> None:
        """Adds a file. Ids and time may have gone on since the one before, as between the runs of a service. Whether it
        begins with the elements that were left then is the affair of tools/report."""
        text, is_first = Text(file), not self.files
        head = text.head
        if head.next_id < self._next or head.opened_at < self._last:
            raise Damaged(2, f"it opens with {head.next_id} {head.opened_at}, and the file before it ends with "
                             f"{self._next} {self._last}")
        self._next, self._last = head.next_id, head.opened_at
        if is_first:
            self.version = head.version
        for _, line in text.kept():
            if is_first:
                element = Element.of(line.string[len(b"keep "):-1])
                self.kept[element.id] = element
                self._latest[element.origin] = element.id
        self.files.append(len(self))
        for _, line in text.events():
            self._add(line)

    def act(self, event: int) -> str:
        """The words of what an event did."""
        return self._words(event)[3]

    def fits(self, event: int, expected: str) -> bool:
        """Whether an event did what these words say, of which ANY stands for each word that is not told."""
        act = self.act(event)
        if act == expected:
            return True
        words, wanted = act.split(" "), expected.split(" ")
        is_alike = len(words) == len(wanted) and all(one in (word, ANY) for word, one in zip(words, wanted))
        return ANY in wanted and is_alike

    def asked(self, event: int) -> int:
        """The moment that was handed in."""
        return int(self._words(event)[1])

    def began(self, event: int) -> int:
        """The moment at which a wait began, or for another act the one that was handed in."""
        _, asked, _, act = self._words(event)
        return int(act.split(" ")[1] if act.startswith("pollfor ") else asked)

    def told(self, event: int) -> str:
        """How messages name an event."""
        shard = "" if self._shard is None else f"shard {self._shard} "
        return f"{shard}event {event} ({self.act(event)}, seat {self.seat_names[self.seats[event]]})"

    def row_from(self, event: int, count: int) -> Sequence[int]:
        """So many events, or fewer if there are no more, from this one on at its seat."""
        place = self.places[event]
        return self.rows[self.seats[event]][place:place + count]

    def file_of(self, event: int) -> int:
        """The number of the file that has an event, from 0."""
        return bisect_right(self.files, event) - 1

    def last_beside(self, event: int) -> int:
        """The last event of an event's file at its seat."""
        row, following = self.rows[self.seats[event]], self.file_of(event) + 1
        return row[-1] if following == len(self.files) else row[bisect_left(row, self.files[following]) - 1]

    def element(self, id: int) -> Element | None:
        """The element of an id, if it was offered or there from the start."""
        event = self.offers[id]
        return self.kept.get(id) if event == NONE else Element.of(self.act(event).encode()[len(b"offer "):])

    @lru_cache(1)  # an event is often looked at several times, one time after the other
    def _words(self, event: int) -> list[str]:
        """Seat, moments and act."""
        return self.text[self.starts[event]:self.starts[event + 1] - 1].decode("ascii").split(" ", 3)

    def _add(self, line: Match[bytes]) -> None:
        """Adds the event of a line."""
        event = len(self)
        seat = self._seat_indexes.setdefault(line[1], len(self.rows))
        if seat == len(self.rows):
            self.seat_names.append(int(line[1]))
            self.rows.append(array("I"))
        self.seats.append(seat)
        if self._shard is not None and IN_VAIN.fullmatch(line.string):
            self.places.append(NOWHERE)
        else:
            self.places.append(len(self.rows[seat]))
            self.rows[seat].append(event)
        self.text += line.string
        self.starts.append(len(self.text))
        self._last = int(line[3])
        act = line.lastgroup
        if act == "offer":
            id, origin = int(line[4]), int(line[6])
            self.offers[id], self._next = event, id + 1
            if id != origin:
                self.returns[self._latest.get(origin, origin)] = event
                self._latest[origin] = id
        elif act in IDS:
            for given in line[act].replace(b"none", b"").split():
                self.exits[int(given)] = event
        elif act == "remove" and line[act] == b"yes":
            self.exits[int(line["removed"])] = event
