"""Reads the texts of histories into columns.

Beside what its form requires, a text is refused at its first line that says what no queue does: an id out of order, an
element that leaves without being there, one that is given before its expiry, a moment that goes back, a wrong size.
Figures would mean nothing then. Whether an element of an earlier expiry was passed over is not tested: `rb_broker
replay` does that. A run behind another one is refused if it does not begin with what that one left: the next id, the
same elements, and the last moment or, where the time between the two counts, a later one.
"""
from typing import BinaryIO, Callable, Match

from .acts import BY_KEYWORD, CLEAR, DRAIN, GIVES_ONE, OFFER, PEEK, PEEK_NONE, REMOVE, SIZE
from .faults import Wrong
from .grammar import GREATEST, OFFERED_GROUPS, Head
from .history import History, Run
from .reported_queue import ReportedQueue
from .text import Text, take_each

NOTHING = (b"none", b"no")  # the answers of calls that found no element


def read_history(file: BinaryIO) -> History:
    """The history in a file."""
    reader = Reader()
    reader.read("", Text(file))
    return reader.history


class Reader:
    """Reads one run after the other. The history is of no use once a text was refused."""

    def __init__(self) -> None:
        self.history = History()
        self._queue = ReportedQueue(self.history)
        self._last = 0  # the moment of the last event

    def read(self, name: str, text: Text) -> None:
        """Adds a run, of whose text no more than the head has been read."""
        history, head = self.history, text.head
        first = len(history.events)
        if history.runs:
            take_each([(text.head_lines, head)], self._continue)
            take_each(text.kept(), self._comparer(head.version))
        else:
            history.next_id = self._queue.next_id = head.next_id
            take_each(text.kept(), self._queue.keep)
        self._last = head.opened_at
        take_each(text.events(), self._add)
        history.runs.append(Run(name, head.version, head.opened_at, self._last, first))

    def _continue(self, head: Head) -> None:
        """Tests an `open` line against what the run before left."""
        next_id, kept = self._queue.next_id, len(self._queue)
        if head.next_id != next_id:
            raise self._other(f"opens with the next id {head.next_id}", next_id)
        if head.kept != kept:
            raise self._other(f"opens with a count of {head.kept}", kept)
        if head.opened_at < self._last:
            raise self._other(f"opens at moment {head.opened_at}", f"{self._last} or a later one")

    def _comparer(self, version: int) -> Callable[[Match[bytes]], None]:
        """What tests the `keep` lines of a run that continues. There are as many as elements in the queue."""
        rows, element = self._queue.rows(), self.history.elements.element
        # A first expiry that a text leaves out is that of the text's earliest line, which need not be the job's.
        tells_first = all(number == 3 for number in (version, *(run.version for run in self.history.runs)))

        def keep(line: Match[bytes]) -> None:
            here, there = [word.decode() for word in line.groups() if word], [*map(str, element(next(rows)))]
            if not tells_first:
                del there[3], here[3:-2]
            if here != there:
                raise self._other(f"keeps {' '.join(here)}", " ".join(there))

        return keep

    def _other(self, here: str, there: object) -> Wrong:
        return Wrong(f"it does not continue {self.history.runs[-1].name}: it {here}, and {there} would follow")

    def _add(self, line: Match[bytes]) -> None:
        """Adds an event."""
        events = self.history.events
        event = len(events.acts)
        seat, asked, at = line.group(1, 2, 3)
        moment = int(at)
        if asked != at or moment < self._last:
            latest = max(int(asked), self._last)
            if moment != latest:
                raise Wrong(f"the moment is {moment}, and has to be {latest}, the greater of the one asked and the"
                            " last")
        events.acts.append(self._told(line, moment, event))
        events.seats.append(int(seat))
        events.moments.append(moment)
        self._last = moment

    def _told(self, line: Match[bytes], moment: int, event: int) -> int:
        """The act of an event, which does that to the queue. The last group that matched has the act's name."""
        queue, keyword = self._queue, line.lastgroup or ""
        if keyword == "offer":
            queue.offer(line.group(*OFFERED_GROUPS), event)
            return OFFER
        answer = line[keyword]
        act = BY_KEYWORD[keyword][answer in NOTHING]
        if keyword == "pollfor":
            in_range(line["start"])
            in_range(line["timeout"])
        if act in GIVES_ONE:
            queue.give(int(answer), moment, event)
        elif act == DRAIN:
            queue.drain(in_range(line["most"]), answer.split(), moment, event)
        elif keyword == "remove":
            queue.remove(in_range(line["removed"]), act == REMOVE, event)
        elif act == CLEAR:
            queue.clear(event)
        elif act == PEEK:
            queue.stands(int(answer))
        elif act in (PEEK_NONE, SIZE):
            queue.count(int(answer) if act == SIZE else 0)
        return act


def in_range(word: bytes) -> int:
    """A number that no column stores, and so would not refuse."""
    number = int(word)
    if number > GREATEST:
        raise OverflowError
    return number
