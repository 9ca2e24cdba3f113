"""The runs of a folder: what each begins with, and what becomes of it, written down in the right order.

Aside, opening and record are written in this order before a server starts, so a run with a record has an opening. A
history is written before the record says that the run has ended, and that before the next opening. A service that was
killed in between finds by `deciding.how_to_start` what is left to do.
"""
import contextlib
import os
import subprocess
import threading
import time
from dataclasses import dataclass, field, replace
from typing import Iterable, Mapping

from rb_broker_formats.files import open_history
from servicing.clock import Reading, elapsed, is_same_boot
from servicing.deciding import Misfit, digest_of, misfit_in, runs_to_drop
from servicing.folder import Folder, Unusable, record_of
from servicing.opening import Elements, Left, Opening, left_in, opening_after
from servicing.settings import Keep, Settings
from servicing.state import Run

ACKNOWLEDGED = "acknowledged"  # a file of the folder: how many lost runs and lost jobs are
_TIDYING = threading.Lock()


@dataclass(frozen=True)
class Next:
    """What the next run begins with, once it is known when."""

    left: Left
    moment: int  # at `since`
    since: Reading | None = None
    aside: Elements = field(default_factory=dict)
    given: int = 0  # ids that a lost run may have given

    def at(self, now: Reading) -> Opening:
        passed = elapsed(self.since, now) if self.since else 0
        return opening_after(self.left, self.aside, self.moment + passed, self.given)

    def known_at(self) -> Reading:
        """The clocks when the last event came of the run before, whatever the machine's date says now."""
        assert self.since
        return self.since.after(max(self.left.moment - self.moment, 0))

    def off_at(self, now: Reading) -> int:
        """For how many nanoseconds the machine was off, as far as its date tells."""
        return 0 if self.since is None or is_same_boot(self.since, now) else elapsed(self.since, now)


class Runs:
    def __init__(self, folder: Folder) -> None:
        self.folder = folder
        self.records: dict[int, Run] = {}
        self._unread: dict[int, str] = {}  # what is wrong with the records that can't be read
        self._accepted: list[Misfit] = []  # of which nothing is written down yet
        self._read()
        self._acknowledged, self._tidied = (0, 0), 0  # and the last run of which there is one compressed history
        with contextlib.suppress(OSError, ValueError):  # nothing is yet
            runs, jobs = map(int, folder.read(ACKNOWLEDGED).split())
            self._acknowledged = runs, jobs

    def _read(self) -> None:
        for number in self.folder.numbers():
            try:
                if run := self.folder.run(number):
                    self.records[number] = run
            except Unusable as fault:
                self._unread[number] = str(fault)

    @property
    def is_new(self) -> bool:
        """Whether there is no record of a run, not even a damaged one."""
        return not self.records and not self._unread

    @property
    def last(self) -> Run | None:
        return self.records.get(max(self.records, default=0))

    @property
    def greatest(self) -> int:
        """The last run of which there is something. Histories of another service may be there, which are never written
        over."""
        return max(self.folder.numbers(), default=0)

    def past(self) -> tuple[Run, ...]:
        return tuple(it for _, it in sorted(self.records.items(), reverse=True) if it.end)

    def prepare(self, number: int, following: Next, now: Reading, settings: Settings) -> tuple[Run, Opening]:
        """Writes down the next run, whose clock goes from now on. Raises an `OSError` if the disk is full."""
        opening = following.at(now)
        record = self._record(number, now, opening, settings)
        self.folder.remove(f"aside-{number}.txt")
        aside = {f"aside-{number}.txt": replace(opening, elements=opening.aside).text} if opening.aside else {}
        self.write(record, {**aside, f"opening-{number}.txt": opening.text})
        return record, opening

    def _record(self, number: int, began: Reading, opening: Opening, settings: Settings) -> Run:
        """The record of a run behind all others."""
        lost, lost_jobs = self.lost
        return Run(number, began, opening.moment, opening.next_id, len(opening.elements), len(opening.aside),
                   settings.calls, settings.policy, lost_before=lost, lost_jobs_before=lost_jobs,
                   follows=digest_of(self.records.get(number - 1)))

    def made_again(self, number: int, settings: Settings) -> Run:
        """The record of a run that has none any more, by its opening. Its clock is that of the last run with a record.
        Raises an `Unusable`."""
        path, path_aside = (self.folder.file(f"{it}-{number}.txt") for it in ("opening", "aside"))
        left = left_of(path)
        aside = left_of(path_aside).elements if os.path.exists(path_aside) else {}
        began = (self.last.began.after(left.moment - self.last.moment) if self.last
                 else Reading("", 0, os.stat(path).st_mtime_ns))
        return self._record(number, began, Opening(left.next_id, left.moment, left.elements, aside), settings)

    def drop(self, record: Run) -> None:
        """Removes a run whose server served nobody, before what is in memory of it is gone: no service may take it for
        one that was lost."""
        self.folder.drop(record.number)
        del self.records[record.number]

    def after(self, record: Run, left: Left, given: int = 0) -> Next:
        """What follows a run that left this, and may have given so many ids more. Raises an `Unusable`."""
        path = self.folder.file(f"aside-{record.number}.txt")
        aside = left_of(path).elements if record.aside else {}
        if len(aside) != record.aside:
            raise Unusable(f"{path} is not what run {record.number} left aside: restore it")
        return Next(left, record.moment, record.began, aside, given)

    def again(self, record: Run, given: int) -> Next:
        """What follows a run that was lost, and may have given so many ids. Raises an `Unusable`."""
        path = self.folder.file(f"opening-{record.number}.txt")
        left = left_of(path)
        next_id, _, elements = left.begins
        if (next_id, elements) != (record.next_id, record.opening):
            raise Unusable(f"{path} is not what run {record.number} began with: restore it")
        return self.after(record, left, given)

    def history(self, number: int) -> str | None:
        """The history of a run, unless that is given up."""
        is_given_up = any(it.run == number and it.next is None for it in self._accepted)
        return None if is_given_up else self.folder.history(number)

    def misfit(self) -> Misfit | None:
        """What does not fit in the folder, apart from what was accepted."""
        for number, what in self._unread.items():
            if not self.is_accepted(number):
                return Misfit(number, what)
        histories = [it for it in self.folder.numbers() if self.history(it)]
        return misfit_in(self.records, histories) if self.records else None

    def is_accepted(self, number: int) -> bool:
        return any(it.run == number for it in self._accepted)

    @property
    def unrecorded(self) -> int | None:
        """The run that has served last, if it has no record any more."""
        known, end = (self.last.number, self.last.end) if self.last else (0, None)
        begun = [it for it in self.folder.openings() if it > known]
        if end is not None and end.is_followed:
            return max(begun, default=known + 1)
        return max((it for it in {*begun, *self._unread} if it > known and self.is_accepted(it)), default=None)

    def accept(self, misfit: Misfit) -> None:
        """Goes on without what a run did. Nothing is changed before `settle`."""
        self._accepted.append(misfit)
        if misfit.next is not None:
            self.records[misfit.next.number] = replace(misfit.next, follows="")

    @property
    def accepted(self) -> Misfit | None:
        """The first thing that was accepted and is not settled."""
        return next(iter(self._accepted), None)

    def settle(self) -> None:
        """Writes down the first thing that was accepted, and keeps what is given up under another name. Raises an
        `OSError`."""
        misfit = self._accepted[0]
        if misfit.next is not None:
            self.write(self.records[misfit.next.number])
        else:
            self._set_aside(misfit.run)
        del self._accepted[0]

    def _set_aside(self, number: int) -> None:
        while history := self.folder.history(number):
            self.folder.set_aside(history)
        if self._unread.pop(number, None):
            self.folder.set_aside(self.folder.file(f"run-{number}.json"))

    @property
    def lost(self) -> tuple[int, int]:
        """How many runs were lost, and how many jobs could not come back."""
        return (self.last.lost, self.last.lost_jobs) if self.last else (0, 0)

    @property
    def unacknowledged(self) -> tuple[int, int]:
        """The same of those that nobody has acknowledged."""
        return max(self.lost[0] - self._acknowledged[0], 0), max(self.lost[1] - self._acknowledged[1], 0)

    def acknowledge(self) -> None:
        """Writes down that all that is lost so far is known. Raises an `OSError`."""
        self.folder.write(ACKNOWLEDGED, [b"%d %d\n" % self.lost])
        self._acknowledged = self.lost

    def write(self, record: Run, before: Mapping[str, Iterable[bytes]] | None = None) -> None:
        """Writes a record, and what has to be there before it. Raises an `OSError`."""
        self.folder.write_all({**(before or {}), f"run-{record.number}.json": [record_of(record)]})
        self.records[record.number] = record

    def tidy(self, keep: Keep) -> None:
        """Has the histories of all runs that have ended compressed, and drops those that are kept no longer, on a
        thread of its own."""
        ended = [it.number for it in self.records.values() if it.end is not None and it.number > self._tidied]
        self._tidied = max(ended, default=self._tidied)
        dropped = runs_to_drop(sorted(self.records.values(), key=lambda it: it.number), keep, time.time())
        for number in dropped:
            del self.records[number]
        threading.Thread(target=self._tidy, args=(ended, dropped), daemon=True).start()

    def _tidy(self, ended: list[int], dropped: list[int]) -> None:
        with _TIDYING:
            for number in dropped:
                self.folder.drop(number)
            for number in ended:
                self.folder.remove(f"opening-{number}.txt")
                self.folder.remove(f"aside-{number}.txt")
                if os.path.exists(path := self.folder.file(f"run-{number}.txt")):  # which stays if the disk is full
                    words = ["nice", "gzip", "-qf", "--synchronous", path]
                    subprocess.run(words, stderr=subprocess.DEVNULL, check=False)


def left_of(path: str) -> Left:
    """What is left in a file. Raises an `Unusable`."""
    try:
        with open_history(path) as file:
            return left_in(file)
    except OSError as fault:
        raise Unusable(f"{path}: {fault.strerror}: restore it") from None
    except (ValueError, IndexError, KeyError):
        raise Unusable(f"{path} is no history of the third version: restore it") from None
