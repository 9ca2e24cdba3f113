"""How far long work is: a line on standard error that is written again and again, where that is a terminal."""
import io
import math
import os
import shutil
import sys
import time
from typing import Any, BinaryIO, Self

PATIENCE = 2.0  # seconds before anything is said
ERASE = "\r\033[K"  # back to the left, and the line is empty


class Progress:
    """The line of a `with` block, at whose end it is empty. Work of less than two seconds has none."""

    def __init__(self) -> None:
        self._begin = time.monotonic() + PATIENCE if sys.stderr.isatty() else math.inf

    def __enter__(self) -> Self:
        return self

    def __exit__(self, *_: object) -> None:
        self.say("")

    def say(self, what: str) -> None:
        """Says what is done now."""
        if time.monotonic() >= self._begin:
            sys.stderr.write(ERASE + what[:shutil.get_terminal_size().columns - 1])
            sys.stderr.flush()

    def reading(self, path: str) -> BinaryIO:
        """Opens a file of which is said how much has been read, if it has a size."""
        return io.BufferedReader(_ToldFile(path, self))


class _ToldFile(io.FileIO):
    def __init__(self, path: str, progress: Progress) -> None:
        super().__init__(path)
        self._path, self._progress = path, progress
        self._size, self._told = os.fstat(self.fileno()).st_size, -1

    def readinto(self, buffer: Any) -> int | None:
        percent = min(100, 100 * self.tell() // self._size) if self._size else -1
        if percent != self._told:
            self._progress.say(f"reading {self._path}: {percent} %")
            self._told = percent
        return super().readinto(buffer)
