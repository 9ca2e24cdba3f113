"""A server with 200 clients, many of which behave badly: what each of them saw, compared with the history of the run.

Clients offer, take, finish and fail jobs; they hang up and reset the connection while they hold jobs, leave while a
call waits, send half a line or noise, send byte by byte, say nothing, or stop reading. Then the server must have ended
by itself, `replay --chains` must accept its history, and tools/verify must find each reply that a client saw in it, at
its place among the events of one seat, and no events of nobody. No element may have left twice or been given before its
expiry, and each job must have been finished, or have come back unless it was given its last attempt. RB_BROKER_SEED is
what the clients' choices follow from.
"""
import concurrent.futures
import json
import os
import subprocess
from dataclasses import dataclass
from pathlib import Path
from typing import Iterator

import pytest

from checking.server.clients import Client, early
from checking.testing import run_tool
from common.program import tested_program
from rb_broker_formats import acts
from rb_broker_formats.element import NONE
from rb_broker_formats.history import History
from rb_broker_formats.reader import read_history
from serving.server import Ended, Server

SEED = os.environ.get("RB_BROKER_SEED", "1")
SESSIONS, WORKERS = 200, 16
DELAY, ATTEMPTS, TURNS = 5_000_000, 3, 50  # nanoseconds after which a failed job comes back, and turns of a wait
REFUSALS = {"ERR 1 syntax", "ERR 5 not-held", "ERR 8 line", "ERR 9 held"}
AT_ONCE = 40  # clients that are connected at the same time, or wait to be served


@dataclass(frozen=True)
class Day:
    """The clients, each with its fault, the server's end, and the path of its history."""

    clients: list[Client]
    faults: list[str]
    end: Ended
    history: Path

    @property
    def record(self) -> list[str]:
        return [line for client in self.clients for line in client.record]

    @property
    def replies(self) -> list[str]:
        """The first line of each reply."""
        return [reply[0] for line in self.record if (reply := json.loads(line)["reply"])]


@pytest.fixture(scope="module")
def day(tmp_path_factory: pytest.TempPathFactory) -> Day:
    """Runs the server with its clients."""
    history = tmp_path_factory.mktemp("day") / "history"
    words = ["--sessions", SESSIONS, "--workers", WORKERS, "--calls", 1_000_000]
    words += ["--delay", DELAY, "--attempts", ATTEMPTS, "--turns", TURNS, "--history", history]
    server = Server(words)
    clients = [Client(number, SEED) for number in range(SESSIONS)]
    with concurrent.futures.ThreadPoolExecutor(AT_ONCE) as pool:
        faults = [*pool.map(lambda client: client.run(server.port), clients)]
    return Day(clients, faults, server.end(), history)


@pytest.mark.parametrize("number", range(SESSIONS))
def test_a_client(day: Day, number: int) -> None:
    assert not day.faults[number], f"client {number}, which {day.clients[number].does}"


def test_the_end(day: Day) -> None:
    """The server's status, its count of sessions, and the replay of its history, with the same audit line."""
    status, lines, errors = day.end
    assert (status, errors) == (0, "")
    surely = sum(client.is_reset for client in day.clients)
    perhaps = sum(client.is_reset or not client.is_heard for client in day.clients)
    assert lines[0] in [f"sessions {SESSIONS} faults {count} lost 0" for count in range(surely, perhaps + 1)]
    words = ["replay", "--chains", "--delay", str(DELAY), "--attempts", str(ATTEMPTS), day.history]
    ran = subprocess.run([tested_program(), *words], capture_output=True, encoding="utf-8", check=False)
    assert (ran.returncode, ran.stderr, ran.stdout.splitlines()) == (0, "", lines[1:])


def test_the_records(day: Day, tmp_path: Path) -> None:
    """What the clients saw is in the history."""
    record = tmp_path / "record"
    record.write_text("".join(f"{line}\n" for line in day.record), "ascii")
    ran = run_tool("verify", day.history, record, "--all")
    assert ran.returncode == 0, ran.stdout + ran.stderr
    assert not {reply for reply in day.replies if reply.startswith("ERR ")} - REFUSALS


def test_the_clock_of_the_machine(day: Day) -> None:
    """Nothing came before its delay had passed."""
    assert not [*early(map(json.loads, day.record))]


def test_what_became_of_jobs(day: Day) -> None:
    """That none left twice or early is tested as the history is read."""
    with day.history.open("rb") as file:
        history = read_history(file)
    assert len({*history.events.seats}) <= WORKERS
    done = {int(reply[5:]) for reply in day.replies if reply.startswith("DONE ")}
    assert not [*jobs_that_differ(history, done)]


def jobs_that_differ(history: History, done: set[int]) -> Iterator[str]:
    """Which jobs were given, neither done nor at their last attempt, and did not come back; or did all the same."""
    elements = [history.elements.element(row) for row in range(len(history.elements))]
    attempts = {(element.origin, element.attempt) for element in elements}
    for element, left in zip(elements, history.elements.left_in):
        if left == NONE or history.events.acts[left] not in acts.GIVES_ONE | {acts.DRAIN}:
            continue
        came_back = (element.origin, element.attempt + 1) in attempts
        if came_back != (element.id not in done and element.attempt < ATTEMPTS):
            yield f"job {element}: done {element.id in done}, came back {came_back}"
