"""Jobs that failed in their last attempt, kept in a file."""

import json
import os
from collections.abc import Callable, Iterator
from contextlib import contextmanager
from datetime import datetime, timezone
from typing import IO

from .answers import Job
from .waiting import Looping

_LONGEST = 4_096  # bytes of no line are more


class DeadLetters:
    """Keeps dead jobs in a file: `Worker(.., on_dead=DeadLetters("dead.jsonl"))`. It has a line of JSON for each, which
    is on the disk when the call returns. Several workers may have one file."""

    def __init__(self, path: str | os.PathLike[str]) -> None:
        """Raises `OSError` if the file can't be written."""
        self._path = path
        open(path, "ab").close()

    def __call__(self, job: Job) -> None:
        died = datetime.now(timezone.utc).isoformat(timespec="milliseconds")
        letter = {"payload": job.payload, "attempts": job.attempt, "died": died, "id": job.id}
        with _locked(self._path, "ab") as file:
            file.write(json.dumps(letter).encode() + b"\n")

    async def keep(self, job: Job) -> None:
        """The same in a thread, which holds up no event loop."""
        await Looping().apart(lambda: self(job))


def read_letters(path: str) -> list[bytes]:
    with _locked(path, "rb") as file:
        return file.read().splitlines()


def take_letters(path: str, use: Callable[[str], object]) -> int:
    """Calls this with each payload, the latest first, and then takes its line out of the file. Gives how many there
    were. One that is added meanwhile is left, unless it takes the place of one that is."""
    count = len(read_letters(path))
    for _ in range(count):
        with _locked(path, "r+b") as file:  # no line is added while one is taken out
            end = file.seek(0, os.SEEK_END)
            file.seek(max(end - _LONGEST, 0))
            last = file.read().splitlines(keepends=True)[-1]
            use(payload_of(last))
            file.truncate(end - len(last))
    return count


def payload_of(line: bytes) -> str:
    """That of a letter. Raises `ValueError` for a line that is none."""
    try:
        return str(json.loads(line)["payload"])
    except (ValueError, KeyError, TypeError):
        raise ValueError(f"this line is no dead letter: {line!r}") from None


@contextmanager
def _locked(path: str | os.PathLike[str], mode: str) -> Iterator[IO[bytes]]:
    """The file, while nobody else has it. What is written is on the disk at the end."""
    import fcntl  # not on each system

    with open(path, mode) as file:
        fcntl.flock(file, fcntl.LOCK_EX)
        yield file
        file.flush()
        os.fsync(file.fileno())
