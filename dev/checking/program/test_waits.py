"""Servers whose clients wait for each reply: how many they serve at once, how long their calls wait, when failed jobs
come back, their clock, and when their histories and last lines are there.

A turn of a wait takes 20 ms, unless something ends it sooner. A busy machine makes waits longer, and none shorter. So
what has to be quick is tried again until it once is, and that it was shows that no turn passed meanwhile.
"""
import contextlib
import math
import select
import statistics
import time
from pathlib import Path
from typing import Callable, Iterator

import pytest

from serving.server import Server
from serving.session import Session

SECOND, MILLISECOND = 10**9, 10**6  # in nanoseconds, as the server counts
FAR = 10**6 * SECOND  # a delay after which nobody takes any more
TURN = 0.02  # seconds
TRYING = 60  # seconds after which what has to be quick is not tried again


@contextlib.contextmanager
def clients_of(*options: object, count: int = 1) -> Iterator[list[Session]]:
    """So many clients at once of a server with these options, all of which must end well, and it too."""
    with Server([*options, "--sessions", count]) as server, contextlib.ExitStack() as stack:
        clients = [stack.enter_context(Session(server.port)) for _ in range(count)]
        yield clients
        for client in clients:
            client.quit()
        status, _, errors = server.end()
        assert (status, errors) == (0, "")


@pytest.mark.parametrize("count", [1, 2, 3])
def test_workers(count: int) -> None:
    """As many clients as there are workers are served, and one more once the first of them has left."""
    with clients_of("--workers", count, count=count + 1) as clients:
        for client in clients[:count]:
            client.ask("SIZE")
        last = clients[count]
        last.send("SIZE")
        assert not select.select([last.socket], [], [], 0.3)[0], "a client beyond the workers is answered"
        clients.pop(0).quit()
        last.reply()


def test_a_job_that_fails_with_a_delay() -> None:
    """The second attempt expires one delay after the moment of the failure, and is not given before."""
    delay = 50 * MILLISECOND
    with clients_of("--delay", delay, "--attempts", 2) as [client]:
        client.ask("OFFER 0 job")
        client.ask("TAKE")
        before, again, after = moment(client), client.ask("FAIL 0"), moment(client)
        told = [again, client.ask("TAKE"), client.ask("FAIL 2")]
        taken = moment(client)
    expiry = int(again.split(" ")[2])
    assert told == [f"AGAIN 2 {expiry}", f"ITEM 2 {expiry} 2 job", "DEAD 2"]
    assert before + delay <= expiry <= after + delay and taken >= expiry


def test_the_clock(tmp_path: Path) -> None:
    """The moment advances with the machine's clock, from the last one of the history before."""
    last = 5000 * SECOND
    (tmp_path / "long").write_text(f"history 3\nopen 0 {last} 0\nend 0\n", "ascii")
    began = time.monotonic_ns()
    with clients_of("--from", tmp_path / "long") as [client]:
        before, first = time.monotonic_ns(), moment(client)
        time.sleep(0.3)
        second, after = moment(client), time.monotonic_ns()
    assert 0 <= first - last <= after - began and 0.3 * SECOND <= second - first <= after - before


def moment(client: Session) -> int:
    """The server's moment, by the expiry of an element that nobody takes."""
    return int(client.ask(f"OFFER {FAR} mark").split(" ")[2]) - FAR


def test_the_history_is_whole_before_the_last_lines(serve: Callable[..., Server], tmp_path: Path) -> None:
    pieces, piece = 50, 1000
    server = serve("--sessions", 1, "--calls", pieces * piece, "--history", tmp_path / "f")
    with Session(server.port) as client:
        for _ in range(pieces):
            client.send(*["SIZE"] * piece)
            for _ in range(piece):
                client.reply()
        client.quit()
    told = [server.process.stdout.readline() for _ in range(2)]
    assert (tmp_path / "f").read_text("ascii").splitlines()[-1] == f"end {pieces * piece}"
    assert told[1].startswith('{"calls":')
    status, _, errors = server.end()
    assert (status, errors) == (0, "")


def test_the_history_is_written_without_the_last_lines(serve: Callable[..., Server], tmp_path: Path) -> None:
    """Nobody reads the last lines."""
    server = serve("--sessions", 1, "--history", tmp_path / "f")
    server.process.stdout.close()
    with Session(server.port) as client:
        client.ask("SIZE")
        client.quit()
    server.process.wait(server.patience)
    assert (server.process.returncode, server.process.stderr.read()) == (3, "rb_broker: cannot write output\n")
    assert (tmp_path / "f").read_text("ascii").splitlines()[-1] == "end 1"


def time_of_take(client: Session) -> float:
    """After how many seconds a take in an empty queue is given up."""
    before = time.monotonic()
    assert client.ask("TAKE") == "STOPPED"
    return time.monotonic() - before


def lateness_of_reply(client: Session) -> float:
    """How many seconds the reply to a request takes more than the take behind it waits for in vain, which came in the
    same piece."""
    began = time.monotonic()
    client.send("SIZE", "TAKE")
    client.reply()
    first = time.monotonic()
    client.reply()
    return (first - began) - (time.monotonic() - first)


def time_after_offer(taker: Session, giver: Session) -> float:
    """How many seconds after an offer the take is answered that waits for it, and not when its turn is over: of fifty,
    the one in the middle. It is no number of seconds if the take may have found the offer when a turn was over."""

    def once() -> float:
        asked = time.monotonic()
        taker.send("TAKE")
        time.sleep(TURN / 2)  # so that it waits
        offered = time.monotonic()
        giver.send("OFFER 0 job")
        job = taker.line().split(" ")[1]
        answered = time.monotonic()
        giver.reply()
        taker.ask(f"DONE {job}")
        return answered - offered if answered - asked < TURN else math.inf

    return statistics.median(once() for _ in range(50))


@pytest.mark.parametrize(("options", "measure", "count", "most"), [
    (["--turns", 0], time_of_take, 1, 0.01),
    (["--turns", 3], time_of_take, 1, 0.2),
    (["--turns", 20], lateness_of_reply, 1, 0.0),
    (["--workers", 2], time_after_offer, 2, 0.005),
])
def test_a_wait(options: list[object], measure: Callable[..., float], count: int, most: float) -> None:
    """Measures what so many clients see until it takes at most so many seconds."""
    found, ends = math.inf, time.monotonic() + TRYING
    with clients_of(*options, count=count) as clients:
        while found > most and time.monotonic() < ends:
            found = min(found, measure(*clients))
    assert found <= most
