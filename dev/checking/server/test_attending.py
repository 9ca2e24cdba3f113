"""Servers that are handed their listener, and that end with their input.

A server notices within 20 ms what it was asked for. A busy machine makes that longer, and nothing shorter: so what must
come is waited for, and what must not come is given some time.
"""
import contextlib
import os
import re
import socket
import subprocess
import threading
import time
from pathlib import Path
from typing import Any, Callable

import pytest

from checking.server.started import (
    MANY,
    SECOND,
    attended,
    drain,
    end_input,
    handed,
    listener,
    status_and_counts,
    without_moments,
)
from common.program import tested_program
from serving import HOST, PATIENCE
from serving.server import Server
from serving.session import Session

NOBODY = "history 3\nopen 0 0 0\nend 0\n"  # the history of a run in which nobody called


def is_legal(history: Path, *words: str) -> bool:
    """Whether a history is accepted, by the policy that these words give."""
    replay = [tested_program(), "replay", "--chains", *words, str(history)]
    return subprocess.run(replay, capture_output=True, check=False).returncode == 0


def test_a_listener_that_is_handed_on() -> None:
    """Servers that are handed one listener, one after the other, serve all who connect, before and between them too."""
    with listener() as listening, contextlib.ExitStack() as stack:
        first, second = (stack.enter_context(Session(listening.getsockname()[1])) for _ in range(2))
        second.send("SIZE")
        with handed(listening, "--sessions 1") as server:
            told = [first.ask("SIZE"), first.ask("QUIT"), server.end().status]
        with handed(listening, "--sessions 1") as server:
            told += [second.reply()[0], second.ask("QUIT"), server.end().status]
    assert told == ["SIZE 0", "BYE", 0] * 2


def test_what_is_no_listener(tmp_path: Path) -> None:
    """What is no listener at the server's address is refused, and the history before is kept."""
    history = tmp_path / "kept"
    history.write_text("as it was")
    with contextlib.ExitStack() as stack:
        enter = stack.enter_context
        listening, everywhere = enter(listener()), enter(socket.create_server(("", 0)))
        port = listening.getsockname()[1]
        client, datagrams = enter(socket.create_connection((HOST, port))), enter(socket.socket(type=socket.SOCK_DGRAM))
        listening.setblocking(True)
        datagrams.bind((HOST, port))
        refused = {
            "no descriptor": (1000, port),
            "a file": (enter(open(os.devnull, "rb")).fileno(), port),
            "a connection": (enter(listening.accept()[0]).fileno(), port),
            "a client's end": (client.fileno(), client.getsockname()[1]),
            "a socket of datagrams": (datagrams.fileno(), port),
            "a listener at another port": (listening.fileno(), port + 1),
            "a listener at all addresses": (everywhere.fileno(), everywhere.getsockname()[1]),
        }
        for name, (number, where) in refused.items():
            words = f"--port {where} --socket {number} --history {history}".split()
            passed = [number] if number < 1000 else []
            ran = subprocess.run([tested_program(), "serve", *words], pass_fds=passed, capture_output=True, check=False)
            told = (ran.returncode, ran.stdout, ran.stderr, history.read_text())
            assert told == (3, b"", b"rb_broker: cannot listen\n", "as it was"), f"{name} as a listener"


def test_draining(tmp_path: Path) -> None:
    """Something comes on the input: nobody else is let in, and a session ends once it holds no job."""
    with listener() as listening:
        port, history = listening.getsockname()[1], tmp_path / "drained"
        words = f"--until-input-ends {MANY} --history {history}"
        with handed(listening, words, stdin=subprocess.PIPE) as server, contextlib.ExitStack() as stack:
            idle, other, holder, waits = (stack.enter_context(Session(port)) for _ in range(4))
            for client in (idle, other):
                client.ask("SIZE")
            for client, job in ((holder, "first"), (waits, "second")):
                client.ask(f"OFFER 0 {job}")
                client.ask("TAKE")
            waits.send("TAKE")
            time.sleep(0.1)
            drain(server)
            told = [idle.rest(), other.rest(), waits.line()]
            assert told == [b"", b"", "STOPPED"]
            time.sleep(0.5)  # until no worker waits for a client any longer
            late = Session(port)
            late.send("SIZE")
            told = [holder.ask("OFFER 0 third"), holder.ask("TAKE"), holder.ask("SIZE"), holder.ask("POLL")]
            wanted = ["OFFERED 2", "STOPPED", "SIZE 1", "ITEM 2"]
            assert without_moments(told) == wanted
            told = [waits.ask("FAIL 1"), waits.rest().decode()]
            assert without_moments(told) == ["AGAIN 3", ""]
            drain(server)  # which changes nothing
            time.sleep(0.1)
            told = [server.process.poll(), holder.ask("DONE 0"), holder.ask("SIZE"), holder.ask("DONE 2")]
            told += [holder.rest(), server.process.wait(PATIENCE)]
            assert told == [None, "DONE 0", "SIZE 1", "DONE 2", b"", 0]
            assert status_and_counts(server) == (0, "sessions 4 faults 0 lost 0", "")
        words = f"--until-input-ends --sessions 1 --from {history}"
        with handed(listening, words, stdin=subprocess.PIPE) as server, late:
            told = [late.reply()[0], late.ask("QUIT"), server.end().status]
            assert told == ["SIZE 1", "BYE", 0]


def test_ending(tmp_path: Path) -> None:
    """The input ends: what was sent is answered, jobs come back, and who reads nothing is left after a second."""
    history = tmp_path / "ended"
    with attended(f"--delay {SECOND} --history {history}") as server, contextlib.ExitStack() as stack:
        holder, waits, deaf = (stack.enter_context(Session(server.port)) for _ in range(3))
        holder.ask("OFFER 0 job")
        holder.ask("TAKE")
        waits.send("TAKE", "REMOVE 9", "TAKE")
        deaf.fill()
        end_input(server)
        began = time.monotonic()
        assert waits.rest() == b"STOPPED\nREMOVED no\nSTOPPED\n"
        assert holder.rest() == b""
        server.process.wait(PATIENCE)
        lasted = time.monotonic() - began
        assert lasted > 0.9, f"it was left after {lasted}"
        end = server.end()
        assert (end.status, end.lines[0]) == (0, "sessions 3 faults 1 lost 0")
        told = ('"offered":2,' in end.lines[1], '"left":1,' in end.lines[1], is_legal(history, "--delay", str(SECOND)))
        assert told == (True, True, True)


@pytest.mark.parametrize("how", [{"stdin": subprocess.DEVNULL}, {"stdin": None, "preexec_fn": lambda: os.close(0)}])
def test_input_that_ends_before_anybody_comes(how: dict[str, Any], tmp_path: Path) -> None:
    history = tmp_path / "nobody"
    with attended(f"--history {history}", **how) as server:
        server.process.wait(PATIENCE)
        told = (*status_and_counts(server), history.read_text())
        assert told == (0, "sessions 0 faults 0 lost 0", "", NOBODY)


def test_input_that_does_not_wait_is_no_end() -> None:
    read, write = os.pipe()
    os.set_blocking(read, False)
    with attended(stdin=read) as server, Session(server.port) as client:
        os.close(read)
        time.sleep(0.1)
        told = [client.ask("SIZE")]
        os.close(write)
        told += [client.rest(), server.process.wait(PATIENCE)]
        assert told == ["SIZE 0", b"", 0]


@pytest.mark.parametrize("words", ["", "--socket", "--greeting hello", "--attentive", f"--silent {60 * SECOND}",
                                   "--since 0"])
@pytest.mark.parametrize("requests", [["SIZE"], ["TAKE"], ["TAKE", "DONE 0"]])
def test_an_attendant_that_is_killed(requests: list[str], words: str, tmp_path: Path) -> None:
    """It ends the run in good order, whether a client says nothing, holds a job, or has it done, and whatever the
    server was told besides."""
    read, write = os.pipe()
    attendant = subprocess.Popen(["sleep", "1000"], pass_fds=[write])
    os.close(write)
    history = tmp_path / "killed"
    with contextlib.ExitStack() as stack:
        if words == "--socket":
            begun = handed(stack.enter_context(listener()), f"--until-input-ends --history {history}", stdin=read)
        else:
            begun = attended(f"--history {history} {words}", stdin=read)
        server = stack.enter_context(begun)
        client = stack.enter_context(Session(server.port))
        os.close(read)
        greeting = [client.line()] if "--greeting" in words else []
        for request in ("OFFER 0 job", *requests):
            client.ask(request)
        attendant.kill()
        attendant.wait()
        told = [client.rest(), server.process.wait(PATIENCE), is_legal(history)]
        assert told == [b"", 0, True] and greeting in ([], ["hello"])


class Producer(threading.Thread):
    """A client that offers in pieces of so many until its session ends, and counts the offers that were carried out by
    their replies. In a full run others are refused."""

    def __init__(self, port: int, piece: int) -> None:
        super().__init__()
        self.port, self.piece, self.replies, self.fault = port, piece, 0, ""

    def run(self) -> None:
        try:
            with Session(self.port) as client:
                with contextlib.suppress(BrokenPipeError, ConnectionResetError):
                    while self.offers(client):
                        pass
                self.replies += len(re.findall(rb"^OFFERED .*\n", client.rest(), re.M))
        except Exception as fault:  # whatever it is, it is told
            self.fault = repr(fault)

    def offers(self, client: Session) -> bool:
        """Offers once more, and returns whether all was answered."""
        client.send(*["OFFER 1000000000000 job"] * self.piece)
        for _ in range(self.piece):
            line = client.replies.readline()
            if not line.endswith(b"\n"):
                return False
            self.replies += line.startswith(b"OFFERED ")
        return True


@pytest.mark.parametrize("piece", [1, 7, 500])
@pytest.mark.parametrize("asks", [drain, end_input])
def test_a_request_without_a_reply_was_not_carried_out(
    asks: Callable[[Server], None], piece: int, tmp_path: Path
) -> None:
    """As many elements were offered as there are replies, in whatever pieces requests are sent."""
    with attended(f"--history {tmp_path}/counted") as server:
        producers = [Producer(server.port, piece) for _ in range(8)]
        for producer in producers:
            producer.start()
        time.sleep(0.2)
        asks(server)
        for producer in producers:
            producer.join()
        server.process.wait(PATIENCE)
        end = server.end()
    replies = sum(producer.replies for producer in producers)
    assert not [producer.fault for producer in producers if producer.fault]
    assert (end.status, end.lines[0]) == (0, "sessions 8 faults 0 lost 0")
    assert replies > 0 and f'"offered":{replies},' in end.lines[1]
