"""A server of one run: how it is started, found again, told to end, and what it leaves."""
import contextlib
import fcntl
import hashlib
import json
import os
import re
import shutil
import subprocess
from typing import Iterator, NamedTuple, Sequence

from rb_broker_formats.files import open_history
from servicing.folder import Unusable
from servicing.memory import Kept, Memory
from servicing.opening import Left, left_in

_COUNTS = re.compile(r"^sessions (\d+) faults \d+ lost (\d+)$", re.M)
PIECE = 1 << 20

# The room of a history is large, and a page of it is first touched while its lock is held: huge pages are fewer.
HUGE_PAGES = {"GLIBC_TUNABLES": "glibc.malloc.hugetlb=1"}


class Damaged(Exception):
    """Why what a server has left is no history that a run can continue."""


class NotStarted(Exception):
    """Why no server could be started."""


class Checked(NamedTuple):
    """What is told of a history that `replay` accepts."""

    audit: dict[str, int]
    left: Left
    digest: str


class Server:
    """A server of this process, or one that an earlier service has started, with its descriptors."""

    def __init__(self, memory: Memory, run: int, kept: Kept) -> None:
        self.run, self._memory, self._kept = run, memory, kept
        self.input = kept.input  # a pipe that nobody reads once the server has ended; None if that is on its own
        self.process: subprocess.Popen[bytes] | None = None
        self._lock = _opened_again(kept.history)

    @property
    def has_ended(self) -> bool:
        """It keeps its history locked, whoever else has that open."""
        try:
            fcntl.flock(self._lock, fcntl.LOCK_EX | fcntl.LOCK_NB)
        except BlockingIOError:
            return False
        return True

    def start(self, words: Sequence[str], door: int, opening: str) -> None:
        """Starts it with the file of its opening, and words that name its files behind these. Raises a `NotStarted`."""
        kept, lock = self._kept, _opened_again(self._kept.history)
        fcntl.flock(lock, fcntl.LOCK_EX)
        try:
            with open(opening, "rb") as file:
                self.process = subprocess.Popen(
                    [*words, "--from", f"/dev/fd/{file.fileno()}", "--history", f"/dev/fd/{lock}"], stdin=kept.end,
                    stdout=kept.printed, stderr=kept.printed, pass_fds=[door, file.fileno(), lock],
                    start_new_session=True, env={**HUGE_PAGES, **os.environ})
        except OSError as fault:
            raise NotStarted(f"{fault.filename or 'server'}: {fault.strerror}") from None
        finally:
            _close(lock, kept.end)
            self._kept = kept._replace(end=None)

    def drain(self) -> None:
        """Tells it to let nobody else in, and to end each session that holds no job."""
        if self.input is not None:
            with contextlib.suppress(BrokenPipeError):
                os.write(self.input, b"drain\n")

    def cut(self) -> None:
        """Ends its input, and so all sessions: what was sent is answered, and the jobs that are held fail."""
        self._memory.forget(f"input-{self.run}")
        _close(self.input)
        self.input = None

    @property
    def says(self) -> str:
        return os.pread(self._kept.printed, 1 << 16, 0).decode("utf-8", "replace")

    @property
    def last_line(self) -> str:
        """The last line that it printed, apart from the one by which it listens, or nothing."""
        return ([it for it in self.says.splitlines() if not it.startswith("listening ")] or [""])[-1]

    @property
    def counts(self) -> tuple[int | None, int | None]:
        """How many sessions it has served, and how many jobs could not come back at their ends."""
        counts = _COUNTS.search(self.says)
        return (int(counts[1]), int(counts[2])) if counts else (None, None)

    listens = property(lambda self: "listening " in self.says)
    size = property(lambda self: os.fstat(self._kept.history).st_size)  # of its history, in bytes

    def text(self) -> Iterator[bytes]:
        with open(_opened_again(self._kept.history, os.O_RDONLY), "rb") as file:
            yield from iter(lambda: file.read(PIECE), b"")

    def leave(self) -> None:
        self._memory.leave(self.run, self._kept)

    def close(self) -> None:
        """Forgets it: it has ended, and what it left is kept elsewhere."""
        self._memory.drop(self.run)
        _close(self._kept.history, self._kept.printed, self._kept.end, self.input, self._lock)
        if self.process is not None:
            self.process.wait()

    def collect(self, program: str, policy: Sequence[str]) -> Checked:
        if not self.size:
            raise Damaged(f"the server left no history: {self.last_line or 'it was killed'}")
        return checked(program, self._kept.history, policy)


def _opened_again(descriptor: int, flags: int = os.O_RDWR) -> int:
    """A file that is opened once more: it is locked and read by itself."""
    return os.open(f"/proc/self/fd/{descriptor}", flags | os.O_CLOEXEC)


def _close(*descriptors: int | None) -> None:
    for it in filter(None, descriptors):
        os.close(it)


def checked(program: str, history: int, policy: Sequence[str]) -> Checked:
    """Has a history checked, and meanwhile reads what is left in it: clients wait for it. Raises a `Damaged`, or an
    `Unusable` if the program is gone."""
    left = None
    with _replaying(program, history, policy) as replay:
        with open(_opened_again(history, os.O_RDONLY), "rb") as file:
            digest = hashlib.file_digest(file, "sha256").hexdigest()
            file.seek(0)
            with contextlib.suppress(ValueError, IndexError, KeyError):  # which the replay explains
                left = left_in(file)
        said, errors = replay.communicate()
    if replay.returncode:
        raise Damaged((said + errors).strip() or f"status {replay.returncode}")
    if left is None:
        raise Damaged("it is no history of the third version")
    try:
        return Checked(json.loads(said), left, digest)
    except ValueError:
        raise Damaged(f"{program} replay prints no audit") from None


def _replaying(program: str, history: int, policy: Sequence[str]) -> subprocess.Popen[str]:
    try:
        return subprocess.Popen(
            [program, "replay", f"/dev/fd/{history}", *policy], stdin=subprocess.DEVNULL, stdout=subprocess.PIPE,
            stderr=subprocess.PIPE, pass_fds=[history], encoding="utf-8", errors="replace", start_new_session=True)
    except OSError as fault:
        raise Unusable(f"the program {program} can't be run: {fault.strerror}: install it, and start the service "
                       "again") from None


def checked_file(program: str, path: str, policy: Sequence[str] = ()) -> Checked:
    """The same for a file, which may be compressed."""
    try:
        with open_history(path) as file, open(os.memfd_create("history"), "wb") as copy:
            shutil.copyfileobj(file, copy, PIECE)
            copy.flush()
            return checked(program, copy.fileno(), policy)
    except OSError as fault:
        raise Damaged(fault.strerror or repr(fault)) from None


def made(memory: Memory, run: int) -> Server:
    """The server of a run that is to begin, with what it writes into. Raises a `NotStarted`."""
    try:
        return Server(memory, run, memory.make(run))
    except OSError as fault:
        raise NotStarted(f"{fault.filename or 'memory'}: {fault.strerror}") from None
