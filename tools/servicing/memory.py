"""What outlives a service that is killed. Of each run there are three descriptors: its history and what its server
prints, in memory that no full disk cuts off, and the server's input, whose end ends the run in good order.

Under systemd, in a unit that sets `FDSTORE`, all three are in its file descriptor store, and the server goes on until
another service is there. Elsewhere the input ends with the service; the other two are files in the runtime directory of
the user, where the next service finds what the server has left.
"""
import contextlib
import os
import shutil
import socket
from pathlib import Path
from typing import NamedTuple

from servicing.folder import Folder, own_folder
from servicing.saying import await_notified, notify

DOOR = "door"  # the name of the listening socket that systemd hands on
FIRST = 3  # descriptor that it does
PARTS = ("history", "printed")
REMEMBERED = "memory"  # a file of the folder, which names the folder in memory


class Kept(NamedTuple):
    """The descriptors of a run."""

    history: int
    printed: int
    input: int | None = None  # where it is told what to do, unless that went with another service
    end: int | None = None  # the other end, for the server


class Memory:
    """What is kept for the services of one folder."""

    def __init__(self, folder: Folder) -> None:
        self._id, self._folder, self._given = folder.id, _runtime_folder(folder), _given()
        self._is_stored = bool(os.environ.get("FDSTORE"))

    def door(self) -> socket.socket | None:
        given = self._given.get(DOOR)
        return socket.socket(fileno=given[0]) if given else None

    def make(self, run: int) -> Kept:
        """The descriptors of a run that is to begin. Raises an `OSError`."""
        self.drop(run)
        flags = os.O_RDWR | os.O_CREAT | os.O_EXCL | os.O_NOFOLLOW | os.O_CLOEXEC
        history, printed = (os.memfd_create(f"{run}-{it}") if self._is_stored
                            else os.open(self._path(run, it), flags, 0o600) for it in PARTS)
        end, input = os.pipe()
        if self._is_stored:
            notify(history, printed, FDSTORE=1, FDPOLL=0, FDNAME=f"run-{run}")
            notify(input, FDSTORE=1, FDPOLL=0, FDNAME=f"input-{run}")
            await_notified()
        return Kept(history, printed, input, end)

    def _path(self, run: int, part: str) -> str:
        return f"{self._folder}/{self._id}-{run}-{part}"

    def found(self, run: int) -> Kept | None:
        """What an earlier service has left of a run."""
        stored = {os.readlink(f"/proc/self/fd/{it}"): it for it in self._given.get(f"run-{run}", ())}
        with contextlib.suppress(KeyError):
            history, printed = (stored[f"/memfd:{run}-{part} (deleted)"] for part in PARTS)
            return Kept(history, printed, *self._given.get(f"input-{run}", ()))
        with contextlib.suppress(FileNotFoundError):
            flags = os.O_RDWR | os.O_NOFOLLOW | os.O_CLOEXEC
            return Kept(*(os.open(self._path(run, part), flags) for part in PARTS))
        return None

    def forget(self, *names: str) -> None:
        """Lets systemd keep what has one of these names no more."""
        for name in names if self._is_stored else ():
            notify(FDSTOREREMOVE=1, FDNAME=name)

    def drop(self, run: int) -> None:
        """Keeps nothing of a run any more."""
        self.forget(f"run-{run}", f"input-{run}")
        for part in PARTS:
            Path(self._path(run, part)).unlink(missing_ok=True)

    def leave(self, run: int, kept: Kept) -> None:
        """Keeps what a run has left for a service that is started later, when systemd has forgotten its own."""
        for part, given in zip(PARTS, kept):
            with contextlib.suppress(FileExistsError), open(self._path(run, part), "xb") as file:
                with open(f"/proc/self/fd/{given}", "rb") as text:
                    shutil.copyfileobj(text, file, 1 << 18)


def _given() -> dict[str, list[int]]:
    """The descriptors that systemd has handed on, by their names."""
    named: dict[str, list[int]] = {}
    if os.environ.pop("LISTEN_PID", "") == str(os.getpid()):
        for descriptor, name in enumerate(os.environ.pop("LISTEN_FDNAMES", "").split(":"), FIRST):
            os.set_inheritable(descriptor, False)
            named.setdefault(name, []).append(descriptor)
    return named


def _runtime_folder(folder: Folder) -> str:
    """A folder in memory of this user's own: the one that an earlier service had, which may have known of another, or
    that of the environment. Raises an `Unusable`."""
    with contextlib.suppress(OSError):
        path = folder.read(REMEMBERED).decode()
        if os.path.isdir(path):
            own_folder(path)
            return path
    users = os.environ.get("RUNTIME_DIRECTORY") or os.environ.get("XDG_RUNTIME_DIR") or ""
    path = f"{users}/rb_broker" if os.path.isdir(users) else f"/dev/shm/rb_broker-{os.geteuid()}"
    own_folder(path)
    with contextlib.suppress(OSError):  # a full disk
        folder.write(REMEMBERED, [path.encode()])
    return path
