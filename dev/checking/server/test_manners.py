"""How a server treats its clients: that it greets them, ends their waits, and ends those that are silent."""
import contextlib
import os
import re
import socket
import subprocess
import time
from pathlib import Path
from typing import Callable

import pytest

from checking.server.started import MILLISECOND, SECOND, attempts, seconds_of, served, without_moments
from common.program import tested_program
from serving import PATIENCE
from serving.server import Server
from serving.session import Session

SILENT = 1500  # milliseconds, long enough for a busy machine
LAST = 5000 * SECOND  # the moment of an opening
AWAY = 1000  # seconds
SUSPENDED = "unshare", "--time", "--boottime", str(AWAY)  # as on a machine that has been suspended for so long
CALLS, EVENT = 1_000_000, 128  # calls for which there is room, and bytes of the history that each has, at least


def test_the_room_for_calls() -> None:
    """A server has the memory for all calls before the first one, so that none waits for it, nor makes others wait."""
    with Server(["--calls", CALLS]) as server, Session(server.port) as client:
        assert client.ask("SIZE") == "SIZE 0"
        status = Path(f"/proc/{server.process.pid}/status").read_text()
        assert client.ask("QUIT") == "BYE"
    assert int(re.search(r"^VmRSS:\s+(\d+) kB$", status, re.M)[1]) * 1024 >= CALLS * EVENT


@pytest.mark.parametrize("line", ["RUN 7 lost 0", "g" * 255, " grüß dich\t"])
def test_a_greeting(line: str) -> None:
    """Each client gets it, once, before all replies, whether or not it has sent anything."""
    with Server(["--sessions", 2, "--greeting", line]) as server:
        with Session(server.port) as still, Session(server.port) as client:
            client.send("SIZE", "QUIT")
            still.socket.shutdown(socket.SHUT_WR)
            told = [still.rest().decode(), client.rest().decode()]
    assert told == [f"{line}\n", f"{line}\nSIZE 0\nBYE\n"]


@pytest.mark.parametrize("line", ["", "g" * 256, "two\nlines"])
def test_a_greeting_that_is_refused(line: str) -> None:
    words = [tested_program(), "serve", "--port", "1", "--greeting", line]
    ran = subprocess.run(words, capture_output=True, timeout=PATIENCE, check=False)
    assert (ran.returncode, ran.stdout) == (2, b"")


def test_attentive() -> None:
    """A wait ends when its client sends something, and only if the word is said."""
    with served("--attentive") as client:
        client.send("TAKE")
        time.sleep(0.1)
        client.send("SIZE")
        assert [client.line(), client.line()] == ["STOPPED", "SIZE 0"]
        client.send("POLLFOR 60000000000", "SIZE", "OFFER 0 job", "TAKE", "DONE 0")
        told = without_moments([client.line() for _ in range(5)])
        assert told == ["STOPPED", "SIZE 0", "OFFERED 0", "ITEM 0", "DONE 0"]
    with served("") as client:
        lasted = seconds_of(lambda: (client.send(f"POLLFOR {SILENT * MILLISECOND}", "SIZE"), client.line()))
        assert lasted >= SILENT / 1000


@pytest.mark.parametrize("leave", [Session.hang_up, Session.reset])
def test_nobody_is_given_a_job_after_its_client_has_left(leave: Callable[[Session], None]) -> None:
    with Server("--attentive --sessions 2 --workers 2".split()) as server, Session(server.port) as client:
        gone = Session(server.port)
        gone.send("TAKE")
        time.sleep(0.1)
        leave(gone)
        time.sleep(0.3)
        told = [client.ask("OFFER 0 job"), client.ask("TAKE")]
        assert attempts(told) == ["1"]


@pytest.mark.parametrize("words", ["", "--until-input-ends"])
def test_a_silent_session(words: str) -> None:
    """One over which nothing came or went is ended after the time, and not before; one that waits is not."""
    options = f"--silent {SILENT * MILLISECOND} --sessions 2 {words}".split()
    with Server(options, stdin=subprocess.PIPE) as server:
        with Session(server.port) as client:
            told = [client.ask("OFFER 0 job"), client.ask("TAKE")]
            for _ in range(4):
                time.sleep(SILENT / 3000)  # together longer than the time
                began = time.monotonic()
                told.append(client.ask("SIZE"))
            told.append(client.rest().decode())
            lasted = time.monotonic() - began
        assert without_moments(told) == ["OFFERED 0", "ITEM 0", *["SIZE 0"] * 4, ""]
        assert lasted >= SILENT / 1000
        with Session(server.port) as client:
            told = [client.ask("TAKE"), client.ask("DONE 1"), client.ask(f"POLLFOR {2 * SILENT * MILLISECOND}")]
            told += [client.ask("QUIT")]
        assert attempts(told) + told[1:] == ["2", "DONE 1", "NONE", "BYE"]
        assert server.end().lines[0] == "sessions 2 faults 0 lost 0"


def test_a_silent_client_that_takes_nothing() -> None:
    with Server(f"--silent {SILENT * MILLISECOND}".split()) as server:
        with Session(server.port) as client, contextlib.suppress(OSError):
            for _ in range(10_000):
                client.socket.sendall(b"x\n" * 10_000)
        assert server.end().lines[0] == "sessions 1 faults 1 lost 0"


def machines_clock() -> int:
    return time.clock_gettime_ns(time.CLOCK_BOOTTIME)


def keeps_time(server: Server, since: int, first: int = 0) -> bool:
    """Whether for half a second each moment, as an offer tells it, is the first one and the time since a reading of the
    machine's clock, if that has come."""
    told = []
    with Session(server.port) as client:
        for _ in range(20):
            before = machines_clock()
            moment = int(client.ask("OFFER 0 job").split(" ")[2])
            told.append((max(before - since, 0), moment - first, max(machines_clock() - since, 0)))
            time.sleep(0.025)
    return all(least <= passed <= most for least, passed, most in told)


@pytest.mark.parametrize("first", [0, LAST])
@pytest.mark.parametrize("seconds", [-3600, 0, 0.3, 3600])
def test_since(tmp_path: Path, seconds: float, first: int) -> None:
    """A reading that is past, is about to come, and lies ahead."""
    (tmp_path / "opening").write_text(f"history 3\nopen 0 {first} 0\nend 0\n", "ascii")
    since = max(machines_clock() + int(seconds * SECOND), 0)
    with Server(["--since", since, "--from", tmp_path / "opening"]) as server:
        assert keeps_time(server, since, first)


def test_since_the_greatest_number() -> None:
    with served(f"--since {2**64 - 1}") as client:
        assert client.ask("OFFER 7 job") == "OFFERED 0 7"


def test_since_the_start_of_the_server() -> None:
    """Unless another time is said."""
    before = machines_clock()
    with served("") as client:
        moment = int(client.ask("OFFER 0 job").split(" ")[2])
        assert 0 <= moment <= machines_clock() - before


def test_since_on_a_machine_that_was_suspended(tmp_path: Path) -> None:
    if subprocess.run([*SUSPENDED, "true"], capture_output=True, check=False).returncode:
        pytest.skip("no other time can be had here")
    program, since = tmp_path / "program", machines_clock()
    program.write_text(f'#!/bin/sh\nexec {" ".join(SUSPENDED)} "{tested_program()}" "$@"\n', "ascii")
    os.chmod(program, 0o700)
    with Server(["--since", since + AWAY * SECOND], str(program)) as server:
        assert keeps_time(server, since)
