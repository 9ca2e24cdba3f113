"""A client in a process of its own, which is killed at any moment: hostile_client.py KIND RECORD NOTES PORT ..

A `producer` offers the payloads that it reads from standard input, a line each, each once. A `worker` does jobs until
SIGTERM. Each connects to one of the ports, and to another when that one is gone, and records its sessions. The NOTES of
a producer get a line before anything else happens: `offer PAYLOAD` when that is offered now, and `offered PAYLOAD` once
the reply has come.
"""
from __future__ import annotations

import contextlib
import os
import random
import signal
import sys
import time
import uuid
from typing import Any, NamedTuple

from serving.recorded import Broken, RecordedSession

MOST_HELD = 8
PAUSE = 0.01  # seconds at most between two offers
DELAYS = (0, 0, 1_000_000, 50_000_000, 400_000_000)  # of offers, in nanoseconds


class Job(NamedTuple):
    """A job that a worker holds."""

    id: str
    payload: str
    attempt: int


def is_to_fail(job: Any) -> bool:
    """Whether an attempt of a job is to fail."""
    return bool(job.attempt == 1 and job.payload.endswith("0"))


def handle(job: Any) -> None:
    """The handler of a worker of the package rb_broker_client."""
    if is_to_fail(job):
        raise ValueError(f"{job.payload} is to fail")


class Notes:
    """A file to which lines are added, each with one write, so that a kill leaves whole lines only."""

    def __init__(self, path: object) -> None:
        self._file = os.open(str(path), os.O_WRONLY | os.O_APPEND | os.O_CREAT, 0o644)

    def add(self, line: str) -> None:
        os.write(self._file, f"{line}\n".encode())


class Client:
    """What both kinds have."""

    def __init__(self, record: str, ports: list[int]) -> None:
        self._record, self._ports = Notes(record), ports
        self.random = random.Random()
        self.is_over = False
        signal.signal(signal.SIGTERM, self._stop)

    def connected(self) -> RecordedSession:
        """A session at one of the ports, once one listens."""
        while True:
            try:
                return RecordedSession(self.random.choice(self._ports), uuid.uuid4().hex, self._record.add)
            except Broken:
                time.sleep(0.05)

    def _stop(self, *_: object) -> None:
        self.is_over = True


def produce(client: Client, notes: Notes) -> None:
    session = client.connected()
    for payload in map(str.strip, sys.stdin):
        notes.add(f"offer {payload}")
        try:
            offer = f"OFFER {client.random.choice(DELAYS)} {payload}"
            while (reply := session.reply_to(offer)[0]) == "ERR 7 memory":
                time.sleep(PAUSE)
            if not reply.startswith("OFFERED "):
                raise ValueError(f"an offer is answered {reply}")
            notes.add(f"offered {payload}")
        except Broken:
            session = client.connected()
        time.sleep(client.random.random() * PAUSE)
    session.hang_up()


class Worker:
    """Does jobs, some of them several at a time, and lets each tenth fail in its first attempt."""

    def __init__(self, client: Client) -> None:
        self._client = client
        self._held: list[Job] = []

    def work(self) -> None:
        while not self._client.is_over:
            session = self._client.connected()
            with contextlib.suppress(Broken):
                self._serve(session)
                session.reply_to("QUIT")
            self._held.clear()

    def _serve(self, session: RecordedSession) -> None:
        """Works for a while, and leaves without a job."""
        until = time.monotonic() + self._client.random.uniform(1, 10)
        while time.monotonic() < until and not self._client.is_over:
            self._fetch(session)
            while self._held and (self._client.random.random() < 0.8 or len(self._held) >= MOST_HELD):
                self._settle(session)
        while self._held:
            self._settle(session)

    def _fetch(self, session: RecordedSession) -> None:
        request = self._client.random.choice(["POLL", "POLLFOR 200000000", "POLLFOR 200000000", "DRAIN 5"])
        for line in session.reply_to(request):
            if line.startswith("ITEM "):
                _, id, _, attempt, payload = line.split(" ")
                self._held.append(Job(id, payload, int(attempt)))

    def _settle(self, session: RecordedSession) -> None:
        """Answers one of the jobs."""
        job = self._held.pop(self._client.random.randrange(len(self._held)))
        session.reply_to(f"{'FAIL' if is_to_fail(job) else 'DONE'} {job.id}")


def main() -> None:
    kind, record, notes, *ports = sys.argv[1:]
    client = Client(record, [*map(int, ports)])
    if kind == "producer":
        produce(client, Notes(notes))
    else:
        Worker(client).work()


if __name__ == "__main__":
    main()
