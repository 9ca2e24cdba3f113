"""The folder of a service, whose files docs/OPERATING.md names: it is locked, and each file is written whole or not at
all. The folder and all in it have to be this user's own, and nobody else's to write."""
import contextlib
import fcntl
import json
import os
import re
import secrets
import stat
import time
from concurrent.futures import ThreadPoolExecutor
from dataclasses import asdict, fields
from pathlib import Path
from typing import Any, BinaryIO, Callable, Iterable, Mapping, TypeVar

from servicing.clock import Reading
from servicing.state import End, Reason, Run

_RUN = re.compile(r"run-([1-9][0-9]{0,8})\.(json|txt|txt\.gz)")
_OPENING = re.compile(r"opening-([1-9][0-9]{0,8})\.txt")

Kind = TypeVar("Kind")


class Unusable(Exception):
    """Why the folder can't be used, in one line."""


class Folder:
    """A folder that this process has locked, until its end."""

    def __init__(self, path: str, port: int) -> None:
        """Makes the folder if it has to, and locks it. Raises an `Unusable` that says who else has it."""
        self.path = path
        own_folder(path)
        self._opened = os.open(path, os.O_RDONLY | os.O_DIRECTORY | os.O_CLOEXEC)
        try:
            fcntl.flock(self._opened, fcntl.LOCK_EX | fcntl.LOCK_NB)
        except OSError:
            who = b""
            with contextlib.suppress(OSError):
                who = self.read("lock")
            raise Unusable(f"{path} is in use by {who.decode(errors='replace') or 'another service'}") from None
        self._refuse_others()
        for unfinished in Path(path).glob("*.new"):
            unfinished.unlink()
        since = time.strftime("%Y-%m-%d %H:%M:%S", time.localtime())
        with contextlib.suppress(OSError):  # a full disk
            self.write("lock", [f"the service of process {os.getpid()} at port {port}, since {since}".encode()])
        try:
            if not os.path.exists(self.file("id")):
                self.write("id", [f"{secrets.token_hex(6)}\n".encode()])
            self.id = self.read("id").decode().strip()
        except OSError as fault:
            raise Unusable(f"{self.path}: {fault.strerror}") from None

    def _refuse_others(self) -> None:
        """Raises an `Unusable` if a file is not this user's alone. The service looks at no folder in its own."""
        for it in os.scandir(self.path):
            told = it.stat(follow_symlinks=False)
            if not stat.S_ISDIR(told.st_mode):
                _refuse_other(it.path, told)
                if not stat.S_ISREG(told.st_mode) and not stat.S_ISSOCK(told.st_mode):
                    raise Unusable(f"{it.path} is no regular file: remove it")

    def file(self, name: str) -> str:
        return f"{self.path}/{name}"

    def remove(self, name: str) -> None:
        Path(self.file(name)).unlink(missing_ok=True)

    def read(self, name: str) -> bytes:
        return Path(self.file(name)).read_bytes()

    def write(self, name: str, pieces: Iterable[bytes]) -> None:
        self.write_all({name: pieces})

    def write_all(self, files: Mapping[str, Iterable[bytes]]) -> None:
        """Writes files that take the places of those of these names, one after the other: whoever looks, whenever the
        machine stops, finds each old one or new one, whole. It waits for the disk twice only: clients wait, too."""
        try:
            with contextlib.ExitStack() as opened, ThreadPoolExecutor(len(files)) as pool:
                new = [opened.enter_context(self._opened_new(name)) for name in files]
                for file, pieces in zip(new, files.values()):
                    file.writelines(pieces)
                    file.flush()
                list(pool.map(os.fsync, new))
            for name in files:
                os.rename(self.file(f"{name}.new"), self.file(name))
            os.fsync(self._opened)
        except BaseException:
            for name in files:
                self.remove(f"{name}.new")
            raise

    def _opened_new(self, name: str) -> BinaryIO:
        path = self.file(f"{name}.new")
        return open(path, "wb", opener=lambda path, flags: os.open(path, flags | os.O_NOFOLLOW, 0o600))

    def numbers(self) -> list[int]:
        """The numbers of the runs of which there is something, in their order."""
        return sorted({int(it[1]) for it in map(_RUN.fullmatch, os.listdir(self.path)) if it})

    def openings(self) -> list[int]:
        """The numbers of the runs of which there is an opening."""
        return [int(it[1]) for it in map(_OPENING.fullmatch, os.listdir(self.path)) if it]

    def run(self, number: int) -> Run | None:
        """What is known of a run. Raises an `Unusable` if that can't be read."""
        name = f"run-{number}.json"
        try:
            return run_in(self.read(name))
        except FileNotFoundError:
            return None
        except OSError as fault:
            raise Unusable(f"{self.file(name)} can't be read: {fault.strerror}") from None
        except (ValueError, KeyError, TypeError) as fault:
            why = f"it has no {fault}" if isinstance(fault, KeyError) else fault
            raise Unusable(f"{self.file(name)} is no record of a run: {why}") from None

    def history(self, number: int) -> str | None:
        return history_in(self.path, number)

    def set_aside(self, path: str) -> None:
        """Gives the history or the record of a run another name, under which it is kept."""
        with contextlib.suppress(FileNotFoundError):
            os.rename(path, self.file(os.path.basename(path).replace("run", "damaged", 1)))

    def drop(self, number: int) -> None:
        self.remove(f"run-{number}.json")  # first: what has a record has its opening
        for it in Path(self.path).glob(f"*-{number}.*"):
            it.unlink()


def history_in(folder: str, number: int) -> str | None:
    """The history of a run. One that is being compressed is there twice, at last whole."""
    paths = (f"{folder}/run-{number}.txt{end}" for end in ("", ".gz"))
    return next((it for it in paths if os.path.exists(it)), None)


def own_folder(path: str) -> None:
    """Makes a folder, unless it is there. Raises an `Unusable` unless it is this user's own."""
    try:
        os.makedirs(path, mode=0o700, exist_ok=True)
        link = os.lstat(path)
        if link.st_uid:  # a link may be root's, as those of systemd are
            _refuse_other(path, link)
        _refuse_other(path, os.stat(path))
    except OSError as fault:
        raise Unusable(f"{fault.filename}: {fault.strerror}") from None


def _refuse_other(path: str, told: os.stat_result) -> None:
    """Raises an `Unusable` unless what is at a path belongs to this user, and nobody else may write there. Who connects
    to a socket is looked at there."""
    if told.st_uid != os.geteuid():
        raise Unusable(f"{path} belongs to user {told.st_uid}: it has to be this user's own")
    is_written = stat.S_ISREG(told.st_mode) or stat.S_ISDIR(told.st_mode)
    if is_written and told.st_mode & (stat.S_IWGRP | stat.S_IWOTH):
        raise Unusable(f"{path} can be written by other users: chmod go-w {path}")


def record_of(run: Run) -> bytes:
    return json.dumps(asdict(run), indent=1).encode() + b"\n"


def run_in(text: bytes) -> Run:
    """The run of a record. Raises a `ValueError`, `KeyError` or `TypeError` if the text is none.

    A record of an earlier version has `is_seen`: whether its run's clock had begun at `began`. Otherwise that began up
    to ten seconds later, and 0.1 ms for each element. An earlier time than the real one could make a job early.
    """
    told: dict[str, Any] = dict(json.loads(text))
    end, began = told["end"], Reading(**told["began"])
    if end is not None:
        told["end"] = _known(End, {**end, "why": Reason(end["why"])})
    if not told.get("is_seen", True):
        began = began.after(10_000_000_000 + 100_000 * told["opening"])
    return _known(Run, {**told, "began": began, "policy": tuple(told["policy"])})


def _known(kind: Callable[..., Kind], told: dict[str, Any]) -> Kind:
    """A value of a kind, by what is told of it. What only another version of this knew is passed over."""
    return kind(**{it.name: told[it.name] for it in fields(kind) if it.name in told})
