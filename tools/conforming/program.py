"""The program under test, its runs as a command, and their standard inputs.

A run is given its input in pieces, by a thread, and may leave processes of its own behind. So none is started by
serving.server, which starts servers of this repository's program.
"""
import os
import signal
import socket
import subprocess
import threading
from contextlib import contextmanager, suppress
from typing import Iterable, Iterator, NamedTuple

PATIENCE = 300  # seconds after which a run is ended

# Held while a process starts and while an output is closed. A process that another thread starts has copies of all
# descriptors until its command runs, so an output that is closed meanwhile would not look closed to its writer.
STARTING = threading.Lock()


class Input:
    """An input in pieces, which are given once the program has started, and which ends behind them."""

    def __init__(self, pieces: Iterable[bytes], ends: tuple[int, int] | None = None):
        """`ends` are the descriptors of the program's end and of this one, of a pipe unless they are given."""
        self._pieces = pieces
        self.descriptor, self._end = ends or os.pipe()

    def give(self) -> None:
        """Gives all, or as much as the program reads."""
        with suppress(OSError), open(self._end, "wb") as end:
            for piece in self._pieces:
                end.write(piece)
                end.flush()


def in_pieces(content: bytes, size: int) -> Input:
    """An input of which a read gives one piece of `size` bytes."""
    pieces = (content[at : at + size] for at in range(0, len(content), size))
    return Input(pieces, os.pipe2(os.O_CLOEXEC | os.O_DIRECT))


def broken_off(content: bytes) -> Input:
    """An input whose read fails after the last byte. It is one end of a pair of sockets. Something lies unread at the
    other end when that is closed, so the connection counts as reset."""
    theirs, ours = socket.socketpair()
    theirs.sendall(b"unread")
    return Input([content], (theirs.detach(), ours.detach()))


class Ended(NamedTuple):
    """How a run ended, and what it wrote. The status of one that had to be ended is that of SIGKILL."""

    status: int
    output: bytes
    errors: bytes


class Program:
    """A command, to which the words of each run are appended."""

    def __init__(self, command: list[str], patience: float = PATIENCE):
        self.command, self.patience = command, patience

    def run(self, words: list[str], given: Input) -> Ended:
        """Runs the program to its end."""
        with self._started(words, given) as process:
            output, errors = process.communicate()
            return Ended(process.wait(), output, errors)

    def run_until_closed(self, words: list[str], content: bytes, replies: int) -> Ended:
        """Runs the program, and closes its standard output once it has sent this many replies, each to one line. Only
        then are the other lines sent."""
        lines, is_closed = content.splitlines(keepends=True), threading.Event()

        def halves() -> Iterator[bytes]:
            yield b"".join(lines[:replies])
            is_closed.wait()
            yield b"".join(lines[replies:])

        with self._started(words, Input(halves())) as process:
            assert process.stdout and process.stderr
            output = b"".join(process.stdout.readline() for _ in range(replies))
            with STARTING:
                process.stdout.close()
            is_closed.set()
            errors = process.stderr.read()
            return Ended(process.wait(), output, errors)

    @contextmanager
    def _started(self, words: list[str], given: Input) -> Iterator[subprocess.Popen[bytes]]:
        """A process in a group of its own, so that everything it started ends with it."""
        with STARTING:
            process = subprocess.Popen(
                [*self.command, *words], stdin=given.descriptor, stdout=subprocess.PIPE, stderr=subprocess.PIPE,
                bufsize=0, start_new_session=True,
            )
        os.close(given.descriptor)
        watch, giver = threading.Timer(self.patience, end_group, [process.pid]), threading.Thread(target=given.give)
        watch.start()
        giver.start()
        yield process
        watch.cancel()
        giver.join()


def end_group(group: int) -> None:
    """Ends a process and what it started, unless all have ended."""
    with suppress(ProcessLookupError):
        os.killpg(group, signal.SIGKILL)
