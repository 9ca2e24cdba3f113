"""Takes the events of a queue out of the Redis, into files that `rb_broker replay --chains` can check."""
from __future__ import annotations

import collections
from collections.abc import Callable, Iterator
from itertools import islice

from rb_broker_formats.faults import Wrong
from rb_broker_formats.grammar import MOST_EVENTS, MOST_OPENING_ELEMENTS
from rb_broker_formats.queue import FollowedQueue, read_queue

from .archive_folder import ArchivedFile, ArchiveFolder
from .cuts import Cut, Cuts
from .queue_events import CHUNK, Conflict, Position, QueueEvents

class Archive:
    """Moves the events of one queue to a folder.

    A file is whole and synced before its events are taken out of the Redis. Wherever this is killed, the next process
    goes on from there: no event is left out, and none is in two files. A file begins with the elements that the one
    before it left.
    """

    def __init__(self, source: QueueEvents, folder: ArchiveFolder, most: int = MOST_EVENTS) -> None:
        """`most` is the number of events of a file."""
        self._source, self._folder, self._most = source, folder, most
        self._behind: FollowedQueue | None = None  # the queue behind the last file, once that is known
        self._end = 0  # the number of the event that follows that file

    def take(self) -> Iterator[str]:
        """Takes the events that are there now, and gives a line for each file. Raises a `Conflict`.

        Events stay in the Redis that a cut would part from the return of their job: see `cuts`.
        """
        yield from self._settle()
        yield from self._move_on()
        position = self._source.position()
        end = position.first + position.waiting
        while position.first < end:
            cut = self._best_cut(position)
            if not cut.count:
                return
            file = self._take(position.first, cut.count)
            why = (f"more than {MOST_OPENING_ELEMENTS:,} elements are left at its end" if cut.is_too_large else
                   f"{cut.crossed} jobs that were in hand at its end came back later" if cut.crossed else "")
            yield f"{self._source.name}: {file.count} events in {file.path}" + (
                f"; {why}, so `judge` takes the next file, and `replay --chains` does not" if why else "")
            position = self._source.position()

    def _settle(self) -> Iterator[str]:
        """Looks at the files whose events are not yet taken out. Either the process that wrote them was killed then,
        or the Redis was, and came back without its last events."""
        name, position = self._source.name, self._source.position()
        later = [it for it in self._folder.files(name) if it.end > position.first]
        for place, file in enumerate(later):
            if not self._has(file, self._source.position()):
                for lost in reversed(later[place:]):
                    aside = self._folder.set_aside(lost)
                    yield f"{name}: the Redis has lost events that were archived, from number {lost.first}: see {aside}"
                return
            self._cut(file, self._source.position().first)

    def _move_on(self) -> Iterator[str]:
        """Begins anew where the oldest events went, since there were too many, and no file tells what they left."""
        first = self._source.lost_opening()
        if first is not None and all(it.end != first for it in self._folder.files(self._source.name)):
            count = self._source.begin_anew()
            yield (f"{self._source.name}: the events before number {first} went, since there were too many; "
                   f"{count} behind them are given up, and a new series begins with the queue as it is")

    def _has(self, file: ArchivedFile, position: Position) -> bool:
        """Whether the Redis begins with the events of this file, or the last of them: they are taken out in pieces."""
        gone = position.first - file.first
        return (gone >= 0 and file.count - gone <= position.waiting and all(
            here == there for here, there in zip(islice(file.events(), gone, None), self._waiting(file.count - gone))))

    def _best_cut(self, position: Position) -> Cut:
        """Where the next file ends."""
        cuts = Cuts(self._opening(position.first).copy())
        collections.deque(self._followed(cuts.follow, position.first, position.waiting), maxlen=0)
        return cuts.best(position.in_hand, self._most, position.settled)

    def _take(self, first: int, count: int) -> ArchivedFile:
        """Writes the next file, of this many events, and takes them out."""
        queue, self._behind = self._opening(first), None
        lines = (event + b"\n" for event in self._followed(queue.follow, first, count))
        file = ArchivedFile(self._folder.write(self._source.name, first, queue.opening(), lines, count), first, count)
        self._cut(file, first)
        self._behind, self._end = queue, file.end
        return file

    def _opening(self, first: int) -> FollowedQueue:
        """The queue in front of the event of this number."""
        if self._behind is None or self._end != first:
            self._behind, self._end = self._source.opening() or self._behind_file(first), first
        return self._behind

    def _behind_file(self, first: int) -> FollowedQueue:
        """The queue at the end of the file that ends there."""
        before = next((it for it in self._folder.files(self._source.name) if it.end == first), None)
        if before is None:
            raise Conflict(f"{self._source.name}: event {first} is next, and no file in {self._folder.path} ends there: "
                           "bring that file back, or begin a new series with --anew")
        return read_queue(before.path).copy()

    def _followed(self, follow: Callable[[bytes], None], first: int, count: int) -> Iterator[bytes]:
        """The events, each of which was followed."""
        for number, event in enumerate(self._waiting(count), first):
            try:
                follow(event)
            except Wrong as fault:
                raise Conflict(f"{self._source.name}: event {number} does not follow from those before it: "
                               f"{event.decode('latin-1')}: {fault}") from None
            yield event

    def _cut(self, file: ArchivedFile, first: int) -> None:
        """Takes out the events of a file, from this one on."""
        if not self._source.cut(first, file.end - first):
            raise Conflict(f"{self._source.name}: another archive has taken events that are in {file.path} too")

    def _waiting(self, count: int) -> Iterator[bytes]:
        """The first events that the Redis has."""
        for start in range(0, count, CHUNK):
            yield from self._source.events(start, min(CHUNK, count - start))
