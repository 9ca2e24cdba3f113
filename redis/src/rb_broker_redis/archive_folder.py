"""The folder of an archive: the history of each queue as a series of files, each of which begins where the one before
ended. A file is there as a whole, and after a power cut too, or not at all.

The file `jobs-000001000000.txt` has the events of the queue `jobs` from number 1,000,000 on, counted from 0.
"""
from __future__ import annotations

import errno
import fcntl
import os
import re
from collections.abc import Iterable, Iterator
from dataclasses import dataclass
from itertools import chain, count
from pathlib import Path

from rb_broker_formats.grammar import HEADER

from .ending import Failed

UNFINISHED = ".part"
"""The end of the name of a file that is still being written."""


class FolderInUse(Failed):
    """Another process writes to the folder."""


@dataclass(frozen=True)
class ArchivedFile:
    """The events of a queue from number `first` on."""

    path: Path
    first: int
    count: int

    @property
    def end(self) -> int:
        """The number of the event that follows."""
        return self.first + self.count

    def events(self) -> Iterator[bytes]:
        """The lines of the events, without their line feeds."""
        with open(self.path, "rb") as file:
            file.readline()
            for _ in range(int(file.readline().split(b" ")[3])):
                file.readline()
            for _ in range(self.count):
                yield file.readline()[:-1]


class ArchiveFolder:
    """Is locked from its making to its end, so that one process at a time writes to it."""

    def __init__(self, path: Path) -> None:
        """Makes the folder if there is none. Raises a `FolderInUse`, or an `OSError`."""
        self.path = path
        path.mkdir(parents=True, exist_ok=True)
        self._opened = os.open(path, os.O_RDONLY | os.O_DIRECTORY)
        try:
            fcntl.flock(self._opened, fcntl.LOCK_EX | fcntl.LOCK_NB)
        except BlockingIOError:
            self.close()
            raise FolderInUse(f"{path}: another archive writes to it") from None
        for unfinished in path.glob(f"*.txt{UNFINISHED}"):
            unfinished.unlink()

    def close(self) -> None:
        """Gives up the lock."""
        os.close(self._opened)

    def files(self, queue: str) -> list[ArchivedFile]:
        """The files of a queue, in the order of their events."""
        name = re.compile(re.escape(queue) + r"-(\d{12,})\.txt")
        found = ((name.fullmatch(it.name), it) for it in self.path.iterdir())
        return sorted((ArchivedFile(path, int(match[1]), _count(path)) for match, path in found if match),
                      key=lambda it: it.first)

    def write(self, queue: str, first: int, opening: Iterable[bytes], events: Iterable[bytes], count: int) -> Path:
        """Writes the file of these events, of which there are `count`, each line with its line feed. Once this returns,
        a crash of the machine leaves it whole."""
        path = self.path / f"{queue}-{first:012}.txt"
        unfinished = path.with_name(path.name + UNFINISHED)
        with open(unfinished, "wb") as file:
            file.writelines(chain([HEADER], opening, events, [b"end %d\n" % count]))
            file.flush()
            os.fsync(file.fileno())
        self._rename(unfinished, path)
        return path

    def set_aside(self, file: ArchivedFile) -> Path:
        """Renames a file whose events the queue has lost, so that it is none of the series any more."""
        targets = (file.path.with_suffix(f".lost-{number}") for number in count(1))
        target = next(it for it in targets if not it.exists())
        self._rename(file.path, target)
        return target

    def _rename(self, path: Path, target: Path) -> None:
        """Renames a file, for good. Raises a `FileExistsError` rather than replace another."""
        if target.exists():
            raise FileExistsError(errno.EEXIST, os.strerror(errno.EEXIST), str(target))
        path.rename(target)
        os.fsync(self._opened)


def _count(path: Path) -> int:
    """The number of events in a file, which its last line tells."""
    with open(path, "rb") as file:
        file.seek(0, os.SEEK_END)
        file.seek(max(0, file.tell() - 32))
        match = re.search(rb"\nend (\d+)\n\Z", file.read())
    if match is None:
        raise ValueError(f"{path}: it is no whole history")
    return int(match[1])
