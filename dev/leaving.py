"""What a command leaves behind: no process and no temporary file."""
import contextlib
import ctypes
import os
import shutil
import signal
import sys
import tempfile
import time
from types import FrameType
from typing import Any, Callable, Collection, Iterator

SIGNALS = (signal.SIGHUP, signal.SIGINT, signal.SIGTERM)
PATIENCE = 10  # seconds that killed processes have to end
PR_SET_PDEATHSIG, PR_SET_CHILD_SUBREAPER = 1, 36  # of <linux/prctl.h>
prctl = ctypes.CDLL(None).prctl


class Interrupted(KeyboardInterrupt):
    """A signal came that ends this process. As an interrupt it is caught by no one who catches exceptions."""

    def __init__(self, number: int) -> None:
        super().__init__(number)
        self.number, self.status = signal.Signals(number), 128 + number


@contextlib.contextmanager
def leaving_no_process(adopts: bool = False) -> Iterator[contextlib.ExitStack]:
    """At the end, however it comes, each process that stems from this one is gone, and then what the stack has is
    closed. A signal raises Interrupted, unless it was ignored before, as under nohup.

    If this process adopts, one that loses its parent becomes its child, so that none gets away, whatever session it
    moved to. A shell that became this process may have left children, which are none of ours.
    """
    others, last = descendants(), contextlib.ExitStack()
    before = {number: signal.getsignal(number) for number in (*SIGNALS, signal.SIGCHLD)}

    def interrupt(number: int, _frame: FrameType | None) -> None:
        handle_all(signal.SIG_IGN)
        end_descendants(others)  # before a process is killed that has others, which would then stem from no one here
        raise Interrupted(number)

    def handle_all(action: Any) -> None:
        for number in SIGNALS:
            if before[number] is not signal.SIG_IGN:
                signal.signal(number, action)

    handle_all(interrupt)
    signal.signal(signal.SIGCHLD, signal.SIG_DFL)  # where it is ignored, the system does not tell how children ended
    prctl(PR_SET_CHILD_SUBREAPER, int(adopts), 0, 0, 0)
    try:
        yield last
    except Exception as fault:
        if isinstance(fault.__context__, Interrupted):  # a folder could not be removed in which a process still writes
            raise fault.__context__ from None
        raise
    finally:
        handle_all(signal.SIG_IGN)
        end_descendants(others)
        last.close()
        prctl(PR_SET_CHILD_SUBREAPER, 0, 0, 0, 0)
    for number, action in before.items():
        signal.signal(number, action)


def status_of(name: str, command: Callable[[str], int]) -> int:
    """Runs the command of this name with a folder for temporary files, of which it leaves nothing, as of processes.
    Returns its exit status, or that of a signal that broke it off."""
    try:
        with leaving_no_process() as last:
            room = tempfile.mkdtemp(prefix="rb-")
            last.callback(shutil.rmtree, room, ignore_errors=True)
            os.chmod(room, 0o711)  # a test may run a process as another user, whose files lie below
            os.environ["TMPDIR"] = tempfile.tempdir = room
            return command(room)
    except KeyboardInterrupt as interrupted:  # a test may have handlers of its own
        print(f"{name}: it was broken off", file=sys.stderr)
        return interrupted.status if isinstance(interrupted, Interrupted) else 128 + signal.SIGINT


def descendants(others: Collection[int] = ()) -> set[int]:
    """The processes that stem from this one, but for these others and what stems from them."""
    children: dict[int, list[int]] = {}
    for name in filter(str.isdigit, os.listdir("/proc")):
        with contextlib.suppress(OSError):  # it has ended meanwhile
            with open(f"/proc/{name}/stat", "rb") as file:
                parent = file.read().rpartition(b")")[2].split()[1]
            children.setdefault(int(parent), []).append(int(name))
    found: set[int] = set()
    waiting = [os.getpid()]
    while waiting:
        below = {*children.get(waiting.pop(), [])}.difference(others)
        found |= below
        waiting += below
    return found


def end_descendants(others: Collection[int] = ()) -> None:
    """Kills what stems from this process, but for these others, and waits until all of it is gone."""
    until = time.monotonic() + PATIENCE
    killed: set[int] = set()
    while time.monotonic() < until:
        left = descendants(others) | {process for process in killed if os.path.exists(f"/proc/{process}")}
        if not left:
            return
        killed |= left  # one whose parent ends sooner stems from this process no longer
        for process in left:
            with contextlib.suppress(ProcessLookupError, PermissionError):
                os.kill(process, signal.SIGKILL)
        time.sleep(0.01)
        with contextlib.suppress(ChildProcessError):
            while os.waitpid(-1, os.WNOHANG)[0]:
                pass
