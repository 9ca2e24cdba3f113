"""The service as a process, with the lines that it says."""
import atexit
import contextlib
import json
import os
import shlex
import signal
import socket
import subprocess
import sys
import time
from collections.abc import Callable, Iterator, Sequence
from pathlib import Path
from typing import Any, Self
from unittest import mock

from checking.testing import RoomTest
from common.program import TOP, tested_program
from serving import HOST, PATIENCE
from serving.server import free_port
from serving.session import Session
from servicing.clock import read_clock
from servicing.tests.store import LAUNCH, Store

SYSTEMS_PYTHON = "/usr/bin/python3"

Event = dict[str, str]


class Client(Session):
    """A session that the server has greeted."""

    greeting = ""

    def greeted(self) -> Self:
        self.greeting = self.line()
        return self


class Service:
    """A service in a folder, until its end."""

    def __init__(
        self, folder: str, *options: object, port: int | None = None, before: Sequence[str] = (), program: str = "",
        command: Sequence[str] = (), store: Store | None = None
    ) -> None:
        """Starts the checkout's with the program that is tested, or that of a command; as systemd does if a store is
        given, and else as a user does."""
        self.folder, self.port = folder, port or free_port()
        python = SYSTEMS_PYTHON if before else sys.executable  # which another user may not run
        words = command or [*before, python, "-B", f"{TOP}/tools/service", "--program", program or tested_program()]
        given = store.given if store else []
        first = [sys.executable, "-c", LAUNCH, str(len(given)), *map(str, given)] if store else []
        self._said = os.memfd_create("said")
        self.process = subprocess.Popen(
            [*first, *words, "--port", str(self.port), "--folder", folder, *map(str, options)], stderr=self._said,
            start_new_session=True, pass_fds=given, env=store.setting if store else None)
        atexit.register(self.kill_all)

    @property
    def lines(self) -> list[str]:
        """What it has said."""
        return os.pread(self._said, os.fstat(self._said).st_size, 0).decode().splitlines()

    def all(self, event: str) -> list[Event]:
        """The words of each line of an event, with their values."""
        lines = (it for it in self.lines if f" event={event} " in f"{it} ")
        return [dict(word.split("=", 1) for word in shlex.split(it)) for it in lines]

    def wait(self, event: str, count: int = 1, patience: float = PATIENCE) -> Event:
        """The last of this many lines of an event, once they are there."""
        until, has_ended = time.monotonic() + patience, False
        while len(found := self.all(event)) < count:
            if has_ended or time.monotonic() > until:
                raise AssertionError(f"{len(found)} of {count} lines of {event} came: {self.lines}")
            has_ended = self.process.poll() is not None
            time.sleep(0.01)
        return found[count - 1]

    @property
    def servers(self) -> list[int]:
        """The processes of all servers at its port."""
        found = []
        for it in filter(str.isdigit, os.listdir("/proc")):
            with contextlib.suppress(OSError):
                words = Path(f"/proc/{it}/cmdline").read_bytes().decode(errors="replace").split("\0")
                if "serve" in words and "--socket" in words and words[words.index("--port") + 1] == str(self.port):
                    found.append(int(it))
        return found

    @property
    def server(self) -> int:
        """The process of the server that serves now, or of the next one between two runs."""
        until(lambda: len(self.servers) == 1, "there is a server")
        (found,) = self.servers
        return found

    def stop(self, number: int = signal.SIGTERM) -> int:
        """Asks for the end, waits for it, and returns the status."""
        self.process.send_signal(number)
        return self.end()

    def end(self) -> int:
        return self.process.wait(PATIENCE)

    def kill(self) -> None:
        """Kills the service alone."""
        self.process.kill()
        self.process.wait()

    def kill_all(self) -> None:
        """Kills what is left of it: the server, and the service."""
        atexit.unregister(self.kill_all)
        self.process.send_signal(signal.SIGSTOP)  # so that it starts no other server
        for it in self.servers:
            with contextlib.suppress(OSError):
                os.kill(it, signal.SIGKILL)
        self.kill()


def until(holds: Callable[[], bool], what: str) -> None:
    """Waits until something holds."""
    end = time.monotonic() + PATIENCE
    while not holds():
        assert time.monotonic() < end, what
        time.sleep(0.02)


class ServiceTest(RoomTest):
    """A test with a folder of its own, in which services run one after the other at one port."""

    maxDiff = None

    def setUp(self) -> None:
        super().setUp()
        os.mkdir(self.path("memory"))
        self.enterContext(mock.patch.dict(os.environ, XDG_RUNTIME_DIR=self.path("memory")))
        self.port = free_port()
        # Until the end, no other process finds the port free while none of its services listens.
        self.kept = self.enterContext(socket.socket())
        self.kept.setsockopt(socket.SOL_SOCKET, socket.SO_REUSEADDR, 1)
        self.kept.bind((HOST, self.port))

    def start(self, *options: object, folder: str = "", **told: Any) -> Service:
        service = Service(folder or self.path("runs"), *options, port=self.port, **told)
        self.addCleanup(service.kill_all)
        return service

    def store(self) -> Store:
        """Something that keeps descriptors, as systemd does."""
        self.kept.close()
        store = Store(self.port, self.path("notify"))
        self.addCleanup(store.close)
        return store

    def client(self, **told: Any) -> Client:
        """A client that a worker serves."""
        return self.enterContext(Client(self.port, **told)).greeted()

    def begin(self, *options: object, **told: Any) -> Service:
        """A service that serves."""
        service = self.start(*options, **told)
        service.wait("serving")
        return service

    @contextlib.contextmanager
    def serving(self, *options: object, lost: int = 0, **told: Any) -> Iterator[Service]:
        """A service that serves, and that ends in good order behind the block. This many runs were lost."""
        service = self.begin(*options, **told)
        yield service
        self.ends(service, lost)

    def ends(self, service: Service, lost: int = 0) -> None:
        """Stops a service, which ends in good order. This many runs were lost."""
        self.assertEqual((service.stop(), len(service.all("lost-run"))), (0, lost))

    def ask(self, *requests: str) -> list[str]:
        """The replies in a session of its own. What gets none, since the session is ended, is asked again in another:
        it was not carried out."""
        end, replies = time.monotonic() + PATIENCE, list[str]()
        while time.monotonic() < end:
            with contextlib.suppress(OSError, EOFError), Client(self.port) as it:
                it.greeted()
                for request in requests[len(replies):]:
                    it.send(request)
                    replies.append(it.line())
                it.ask("QUIT")
                return replies
            time.sleep(0.02)
        raise AssertionError(f"nobody answers {requests}")

    def offer(self, count: int, delay: int = 0, name: str = "job") -> None:
        """Offers this many jobs."""
        with Client(self.port) as it:
            it.greeted().send(*(f"OFFER {delay} {name}-{number}" for number in range(count)))
            for _ in range(count):
                self.assertRegex(it.line(), "^OFFERED ")
            it.ask("QUIT")

    def has_left(self, size: int) -> None:
        """So many elements are in the queue. The service's own comes and goes."""
        until(lambda: self.ask("SIZE") == [f"SIZE {size}"], f"{size} elements")

    def zero(self) -> tuple[int, int]:
        """What the machine's clock read at moment 0, by the run that serves, at the least and at the most."""
        before = read_clock().up
        id, expiry = map(int, self.ask("OFFER 0 now")[0].split(" ")[1:])
        least, most = before - expiry, read_clock().up - expiry
        self.ask(f"REMOVE {id}")
        return least, most

    def first_zero(self) -> int:
        """The same, by what is written down of the first run."""
        told = self.record(1)
        return told["began"]["up"] - told["moment"]

    def record(self, run: int, folder: str = "") -> Any:
        """What is written down of a run, once it is."""
        path = Path(folder or self.path("runs"), f"run-{run}.json")
        return json.loads(path.read_bytes()) if path.exists() else {}
