"""The unit under systemd itself: a service is started, stopped, restarted, killed and removed while clients stay."""
import re
import threading
import time
from contextlib import contextmanager
from typing import Iterator

import pytest

from bundling.tests.machine import DPKG, Machine
from bundling.tests.running import DONE, Told
from serving.server import free_port
from servicing.tests.process import Client

OPTIONS = 'RB_BROKER_OPTIONS="--stop-within 1s --delay 0s {}"\n'
PATIENCE = 60  # seconds


class Service:
    """The service of a port in a machine."""

    def __init__(self, machine: Machine, port: int) -> None:
        self.machine, self.port, self.name = machine, port, f"rb_broker@{port}.service"
        self._heard = ""

    @contextmanager
    def running(self, *options: str) -> Iterator[Told]:
        """Starts it with options of its own, and waits until systemd takes it as started, which is when it serves. At
        the end it is stopped."""
        self.machine.write(f"/etc/default/rb_broker@{self.port}", OPTIONS.format(" ".join(options)))
        self.journal()
        try:
            yield self.machine.run("systemctl", "start", self.name)
        finally:
            self.stop()

    def stop(self) -> Told:
        """Stops it by its socket, with which a client would start it again."""
        return self.machine.run("systemctl", "stop", self.name.replace(".service", ".socket"))

    def ask(self, *requests: str) -> list[str]:
        """The greeting and the replies to a client that leaves in good order."""
        with Client(self.port) as client:
            replies = [client.greeted().greeting, *map(client.ask, requests)]
            client.ask("QUIT")
            return replies

    def journal(self) -> str:
        """What its journal has got since this was asked before."""
        self.machine.run("journalctl", "--sync")
        heard, self._heard = self._heard, self.machine.run("journalctl", "--output=cat", "-u", self.name).said
        return self._heard[len(heard):]

    def awaited(self, text: str) -> str:
        """The same once it has a text, which a busy machine may take long for."""
        heard, end = self.journal(), time.monotonic() + PATIENCE
        while text not in heard and time.monotonic() < end:
            time.sleep(0.2)
            heard += self.journal()
        return heard


@pytest.fixture(scope="module")
def service(machine: Machine) -> Service:
    return Service(machine, free_port())


def cuts_in(journal: str) -> int:
    """How many sessions were cut, by a journal."""
    return sum(map(int, re.findall(r" event=cut run=\d+ sessions=(\d+) ", journal)))


def test_start(service: Service) -> None:
    """It counts as started when clients are served, and its state is a line. Once it is stopped a client that connects
    starts it again, unless its socket is stopped, too."""
    with service.running() as told:
        replies = service.ask()
        assert told == DONE and replies[0].startswith("RUN 1 lost 0 "), (told, replies, service.journal())
        shown = service.machine.run("systemctl", "status", "--no-pager", service.name)
        assert 'Status: "serving, run 1' in shown.said, shown
        service.machine.run("systemctl", "stop", service.name)
        time.sleep(1)
        assert service.machine.run("systemctl", "is-active", service.name).said == "inactive\n", service.journal()
        replies = service.ask()
        assert replies[0].startswith("RUN 2 lost 0 "), (replies, service.journal())
        files, end = ["run-1.txt"], time.monotonic() + PATIENCE
        while "run-1.txt" in files and time.monotonic() < end:
            files = service.machine.run("ls", f"/var/lib/rb_broker/{service.port}").said.split()
        assert "run-1.txt.gz" in files and "run-1.txt" not in files
    with pytest.raises(ConnectionRefusedError):
        service.ask()


class Comers:
    """Clients that connect one after the other, in a `with` block."""

    def __init__(self, service: Service) -> None:
        self.faults: list[str] = []
        self.greetings: list[str] = []
        self._service, self._is_over = service, threading.Event()
        self._thread = threading.Thread(target=self._run, daemon=True)

    def __enter__(self) -> "Comers":
        self._thread.start()
        return self

    def __exit__(self, *_: object) -> None:
        self._is_over.set()
        self._thread.join()

    def await_more(self, count: int) -> None:
        """Waits until so many more of them were greeted, which a busy machine may take long for."""
        wanted, end = len(self.greetings) + count, time.monotonic() + PATIENCE
        while len(self.greetings) < wanted and time.monotonic() < end:
            time.sleep(0.05)
        assert len(self.greetings) >= wanted, (self.greetings, self.faults)

    def _run(self) -> None:
        while not self._is_over.wait(0.005):
            try:
                self.greetings += self._service.ask()[:1]
            except EOFError:
                pass  # the run has ended
            except OSError as fault:
                self.faults.append(repr(fault))


def test_restarts(service: Service) -> None:
    """No client is refused or reset by a restart. One that stays does not notice that the service is killed, and the
    service is started again."""
    with service.running(), Comers(service) as comers:
        for _ in range(2):
            comers.await_more(10)
            assert service.machine.run("systemctl", "restart", service.name) == DONE
        comers.await_more(10)
        with Client(service.port) as client:
            run = client.greeted().greeting.split(" ")[1]
            id = client.ask("OFFER 0 held") and client.ask("TAKE").split(" ")[1]
            service.machine.run("systemctl", "kill", "--kill-who=main", "--signal=KILL", service.name)
            journal = service.awaited('how="go on"')
            assert client.ask(f"DONE {id}") == f"DONE {id}"
            assert service.ask()[0].startswith(f"RUN {run} ")
            client.ask("QUIT")
        assert 'how="go on"' in journal
        told, end = DONE, time.monotonic() + PATIENCE
        while told.said != "active\n" and time.monotonic() < end:
            told = service.machine.run("systemctl", "is-active", service.name)
        assert told.said == "active\n", told
    runs = {greeting.split(" ")[1] for greeting in comers.greetings}
    assert not comers.faults and len(runs) == 3, (comers.faults, runs)
    assert " event=lost-run " not in journal + service.journal()


def test_a_silent_session_is_ended(service: Service) -> None:
    with service.running("--silent", "2s"), Client(service.port) as client:
        began, rest = time.monotonic(), client.greeted().rest()
        assert rest == b"" and 2 <= time.monotonic() - began < 5


def test_stop_with_a_job_in_hand(service: Service) -> None:
    """The client's session is ended. The next start has its job, and its stop ends no session."""
    with service.running(), Client(service.port) as client:
        replies = client.greeted().ask("OFFER 0 held"), client.ask("TAKE")
        told, rest = service.stop(), client.rest()
        journal = service.journal()
        assert told == DONE and rest == b"" and cuts_in(journal) == 1 and " left=1 cut=1" in journal, (replies, journal)
    with service.running():
        assert " 2 held" in service.ask("TAKE")[1]
        told, journal = service.stop(), service.journal()
        assert told == DONE and not cuts_in(journal) and " event=lost-run " not in journal, journal


def test_removal(service: Service) -> None:
    """A package that is removed stops its services in good order before. It comes last, since the package is gone."""
    with service.running(), Client(service.port) as client:
        client.greeted().ask("OFFER 0 later")
        told = service.machine.run(*DPKG, "--remove", "rb-broker")
        rest, journal = client.rest(), service.journal()
    assert told.status == 0 and rest == b"", (told, rest)
    assert " event=stopped " in journal and " event=lost-run " not in journal
