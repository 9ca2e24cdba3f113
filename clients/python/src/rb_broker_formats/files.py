"""Opens the files of histories, which may be compressed, and reads those of runs that follow one another."""
import gzip
import io
import zlib
from contextlib import contextmanager
from typing import BinaryIO, Callable, Iterator, Sequence

from .faults import BadCompression, Damaged
from .history import History
from .reader import Reader
from .text import Text

COMPRESSED = ".gz"  # the end of the name of a file that gzip wrote
ROOM = 2**16  # bytes of its text that are read ahead


Opener = Callable[[str], BinaryIO]  # of the file at a path


def _open(path: str) -> BinaryIO:
    return open(path, "rb")


@contextmanager
def open_history(path: str, opener: Opener = _open) -> Iterator[BinaryIO]:
    """The text in this file, which what is said of damage names."""
    with opener(path) as file:
        try:
            if path.endswith(COMPRESSED):  # a GzipFile by itself takes twice the time for each line
                yield io.BufferedReader(gzip.GzipFile(fileobj=file), ROOM)  # type: ignore[arg-type]
            else:
                yield file
        except (EOFError, zlib.error, gzip.BadGzipFile) as fault:
            raise BadCompression(path) from fault
        except Damaged as fault:
            fault.file = path
            raise


def read_series(paths: Sequence[str], opener: Opener = _open) -> History:
    """The history of all runs. Files that are named in another order than that of the runs are put into it."""
    reader = Reader()
    for path in sorted(paths, key=_opening) if len(paths) > 1 else paths:  # a pipe can be opened only once
        with open_history(path, opener) as file:
            reader.read(path, Text(file))
    return reader.history


def _opening(path: str) -> tuple[int, int]:
    """What tells the order of runs, from each of which to the next ids and moments rise."""
    with open_history(path) as file:
        head = Text(file).head
        return head.next_id, head.opened_at
