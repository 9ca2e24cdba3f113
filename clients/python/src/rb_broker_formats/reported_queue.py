"""The queue of a history while it is read: which elements are in it, and what may happen to them."""
from typing import Iterator, Match, Sequence

from .element import NONE
from .faults import Wrong
from .history import History

# Id, expiry, origin, first expiry or nothing, attempt and payload, as a line has them.
ElementWords = tuple[bytes, ...]


class ReportedQueue:
    """Fills the columns of a history's elements. Each method raises a `Wrong` if no queue does that.

    A number above 2^64 - 1 is refused by its column with an `OverflowError`; the history is of no use then. The
    methods run once for each event, so they reach for what they need in few steps.
    """

    def __init__(self, history: History) -> None:
        self._history, self._elements = history, history.elements
        self._left_in, self._expiries = history.elements.left_in, history.elements.expiries
        self._strays = history.strays
        self.next_id = self._rows = self._number = 0
        self._cleared = 0  # all rows before this one have left

    def __len__(self) -> int:
        return self._number

    def rows(self) -> Iterator[int]:
        """The rows of the elements that are in the queue, in rising order of their ids."""
        return (row for row in range(self._cleared, self._rows) if self._left_in[row] == NONE)

    def keep(self, line: Match[bytes]) -> None:
        """Adds an element of the opening. The ids rise, and are below the next one."""
        ids, id = self._elements.ids, int(line[1])
        if id >= self._history.next_id or (ids and id <= ids[-1]):
            raise Wrong("the id of a `keep` line has to be above the one before, and below that of the `open` line")
        self._history.kept += 1
        self._add(id, line.groups(), NONE)

    def offer(self, words: ElementWords, event: int) -> None:
        """Adds an element that was offered."""
        id = int(words[0])
        if id != self.next_id:
            raise Wrong(f"element {id} is offered, and the next id is {self.next_id}")
        self.next_id += 1
        self._add(id, words, event)

    def give(self, id: int, moment: int, event: int) -> None:
        """An element leaves because it has expired."""
        row = self.stands(id)
        if self._expiries[row] > moment:
            raise Wrong(f"element {id} is given at {moment}, and expires at {self._expiries[row]}")
        self._left_in[row] = event
        self._number -= 1

    def drain(self, most: int, ids: Sequence[bytes], moment: int, event: int) -> None:
        """Several elements leave because they have expired."""
        if len(ids) > most:
            raise Wrong(f"a drain of at most {most} gives {len(ids)}")
        for id in ids:
            self.give(int(id), moment, event)

    def remove(self, id: int, found: bool, event: int) -> None:
        """An element is taken out, or was not there."""
        row = self._history.row_of(id)
        if found != (row is not None and self._left_in[row] == NONE):
            raise Wrong(f"element {id} was {'not ' if found else ''}in the queue")
        if found and row is not None:
            self._left_in[row] = event
            self._number -= 1

    def clear(self, event: int) -> None:
        """All elements leave."""
        for row in self.rows():
            self._left_in[row] = event
        self._cleared, self._number = self._rows, 0

    def count(self, size: int) -> None:
        """Checks that this many elements are in the queue, possibly none."""
        if size != self._number:
            raise Wrong(f"the queue holds {self._number}, not {size}")

    def stands(self, id: int) -> int:
        """Checks that an element is in the queue. Returns its row."""
        row = self._history.row_of(id)
        if row is None or self._left_in[row] != NONE:
            raise Wrong(f"element {id} is not in the queue")
        return row

    def _add(self, id: int, words: ElementWords, event: int) -> None:
        own, expiry, origin_word, first, attempt, payload = words
        elements, row = self._elements, self._rows
        origin = id if origin_word == own else int(origin_word)
        elements.ids.append(id)
        elements.expiries.append(int(expiry))
        elements.origins.append(origin)
        # Most elements are the first of their job, and nothing has to be looked up.
        root = row if origin == id and not self._strays else self._root(row, origin)
        elements.roots.append(root)
        # The versions that do not tell a first expiry mean that of the job's earliest line.
        elements.firsts.append(int(first) if first else self._expiries[root])
        elements.attempts.append(int(attempt))
        elements.offered_in.append(event)
        elements.left_in.append(NONE)
        elements.payloads += payload
        elements.payload_ends.append(len(elements.payloads))
        self._rows += 1
        self._number += 1

    def _root(self, row: int, origin: int) -> int:
        """The first row with this origin, which may be the new one."""
        root = self._history.root_of(origin)
        return self._strays.setdefault(origin, row) if root is None else root
