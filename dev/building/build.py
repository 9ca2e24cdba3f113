"""The build of a program's crates, each as soon as those below it are built."""
import fcntl
import os
import re
import signal
import subprocess
import tempfile
import time
from dataclasses import dataclass
from graphlib import TopologicalSorter
from pathlib import Path
from typing import IO

from building.crates import Crates
from building.progress import Progress, say
from building.rooms import Rooms
from leaving import PR_SET_PDEATHSIG, prctl

TICK = 0.1  # seconds between two looks at the crates' commands, and at what they have written
ROOM = 4_000_000_000  # bytes of memory that must be available before a crate is begun beside others
ASIDE = 5  # added to a crate's niceness for each crate beside it that has precedence


@dataclass(eq=False)
class Failed(Exception):
    """A crate could not be built. `output` is what rt wrote."""

    crate: str
    status: int
    output: bytes


@dataclass(frozen=True)
class Running:
    """A crate whose command runs, and what that writes."""

    crate: str
    process: subprocess.Popen[bytes]
    file: IO[bytes]

    def output(self) -> bytes:
        """What the command has written so far."""
        return os.pread(self.file.fileno(), os.fstat(self.file.fileno()).st_size, 0)


class Build:
    """A build of all crates of a program."""

    def __init__(self, crates: Crates, program: str, rooms: Rooms) -> None:
        self._crates, self._program, self._rooms = crates, program, rooms
        self._progress = Progress(len(crates.names))
        self._order = TopologicalSorter(crates.uses)
        self._waiting: list[str] = []
        self._running: list[Running] = []

    def run(self) -> int:
        """Builds all, and returns how many seconds that took. Raises Failed when the first crate fails."""
        self._order.prepare()
        while self._order.is_active():
            self._waiting += self._order.get_ready()
            self._begin_those_that_may()
            time.sleep(TICK)
            for running in [*self._running]:
                has_ended = running.process.poll() is not None
                self._progress.hear(running.crate, running.output())
                if has_ended:
                    self._end(running)
            self._progress.break_silence()
        return self._progress.seconds()

    def _begin_those_that_may(self) -> None:
        for crate in sorted(self._waiting, key=self._crates.names.index):
            if not may_begin(len(self._running), len(os.sched_getaffinity(0)), available_memory()):
                return
            self._waiting.remove(crate)
            self._running.append(self._begin(crate))

    def _begin(self, crate: str) -> Running:
        """Begins with a crate. Those that run already and have a longer way up have precedence at the processors."""
        way_up = self._crates.way_up
        nice = ASIDE * sum(way_up[running.crate] > way_up[crate] for running in self._running)

        def prepare() -> None:
            prctl(PR_SET_PDEATHSIG, signal.SIGKILL, 0, 0, 0)
            os.nice(nice)

        # It stays in the group of this process, which a terminal stops and ends as a whole, and in its session, since
        # the system weighs niceness within a session alone. There are no threads here, so prepare is safe.
        words = ["rt", "run", "--", "--help"] if crate == self._program else ["rt", "lib"]
        folder, file = self._rooms.enter(crate), tempfile.TemporaryFile()
        process = subprocess.Popen(words, cwd=folder, stdin=subprocess.DEVNULL, stdout=file, stderr=subprocess.STDOUT,
                                   preexec_fn=prepare)
        return Running(crate, process, file)

    def _end(self, ended: Running) -> None:
        self._running.remove(ended)
        if ended.process.returncode:
            raise Failed(ended.crate, ended.process.returncode, self._rooms.with_own_paths(ended.crate, ended.output()))
        self._rooms.leave(ended.crate)
        self._order.done(ended.crate)
        self._progress.built(ended.crate)
        ended.file.close()


def may_begin(running: int, processors: int, available: int) -> bool:
    """Whether one more crate is begun beside those that run. A crate alone always is."""
    return running == 0 or (running < processors and available >= ROOM)


def available_memory() -> int:
    """The bytes of memory that can be used without swapping."""
    found = re.search(r"MemAvailable:\s+(\d+) kB", Path("/proc/meminfo").read_text("ascii"))
    return 1024 * int(found[1]) if found else 0


def take_turn(top: str, crates: Crates) -> bool:
    """Waits until no other build and no rt works in these crates' folders, and keeps them out as long as this process
    runs this program. Returns whether it had to wait, since the program may then be built.

    The locks are those that rt takes itself, in rt's order: one on each crate's folder.
    """
    has_waited = False
    for folder in sorted(os.path.realpath(f"{top}/crates/{name}") for name in crates.names):
        lock = os.open(folder, os.O_RDONLY)  # closed by the system, when this process ends or becomes the program
        while not is_locked(lock):
            if not has_waited:
                say("another ./broker or rt is at work in this checkout; waiting for its end")
            has_waited = True
            time.sleep(0.5)
    return has_waited


def is_locked(lock: int) -> bool:
    """Whether this process holds the lock now."""
    try:
        fcntl.flock(lock, fcntl.LOCK_EX | fcntl.LOCK_NB)
    except BlockingIOError:
        return False
    except OSError:
        pass  # some file systems have no locks, and rt then works without them too
    return True
