"""A day on which all goes wrong: workers are killed while they hold jobs and while handlers hang, other clients are
silent or lie, one server is replaced by the next, and that one runs full and is replaced too.

Afterwards each job is in the histories once, each of its attempts came after a failure of the one before, and its last
attempt was given and did not come back. A worker was told that it is done, and no other was; or the job is named, since
the worker that had it was killed before it could know, or the full run took no failed job back. tools/verify finds no
fault in what producers and workers recorded.
"""
import asyncio
import os
import random
import subprocess
import sys
import threading
import time
from contextlib import suppress
from functools import partial

from history import History
from nuisance import Nuisance
from rb_broker_client import AsyncProducer, Broker, FullError, InDoubtError, Pauses, Producer
from records import ends_in
from server import PATIENCE, ServedTest
from serving.server import free_port, started
from servicing.folder import history_in
from servicing.tests.process import Service

JOBS = int(os.environ.get("RB_BROKER_JOBS", 1_000))
LONGEST = 120 + JOBS / 10  # seconds until all jobs are offered, or done
LIFE = 900  # seconds after which a server is replaced, as it has sessions for about twice that
HELD = 4  # jobs that a worker has at most
POLICY = ("--delay", 2_000_000, "--attempts", 1_000)
AT_SERVICE = ("--every", "5s", "--stop-within", "10s", "--delay", "2ms", "--attempts", 1_000, "--keep", "1d")
RUNS = 3  # of a service, at least
DELAYS = (0, 0, 0.001, 0.05, 0.4)
PAUSE = 0.03  # seconds at most between two offers of a producer


class WorkerProcess:
    """The package's command as a worker, with a record of its own."""

    is_killed = False

    def __init__(self, handler, port, record):
        self.record, self.handler = record, handler
        open(record, "ab").close()
        words = [sys.executable, "-m", "rb_broker_client", "worker", f"hostile_handlers:{handler}", "--port", port,
                 "--concurrency", HELD, "--timeout", "1s", "--record", record]
        self._process = started([*map(str, words)], os.path.dirname(os.path.realpath(__file__)), subprocess.DEVNULL)

    @property
    def has_begun(self):
        """Whether it has asked something."""
        return os.path.getsize(self.record) > 0

    may_end = has_begun  # whether a signal ends it in good order

    @property
    def has_died(self):
        """Whether it has ended, and nobody killed it."""
        return self._process.poll() is not None and not self.is_killed

    def kill(self):
        self.is_killed = True
        self._process.kill()
        self._process.communicate()

    def stop(self):
        """Ends it in good order. Gives its status."""
        self._process.terminate()
        return self._process.wait(PATIENCE)


class HostileDayTest(ServedTest):
    """The day. That of the Java package differs in its clients."""

    handlers, held = ("handle", "handle_async", "handle"), HELD
    verifying = []  # options of tools/verify

    def setUp(self):
        super().setUp()
        self.records, self.workers, self.killed, self.offered, self.doubted = [], [], [], [], []
        self.lost, self.is_over = 0, threading.Event()

    def test_each_job_is_done_once_or_named(self):
        began = time.monotonic()
        self.serve_next(1_000_000)
        nuisances = [Nuisance(self.port, is_silent) for is_silent in (True, True, False, False)]
        self.workers = [self.start_worker(it) for it in self.handlers]
        self.addCleanup(lambda: [it.kill() for it in self.workers])
        producers = [*map(self.begin, self.producers())]
        killer = self.begin(self.kill_now_and_then)
        self.addCleanup(self.is_over.set)
        self.change_servers()
        for it in producers:
            it.join(LONGEST)
        self.assertEqual(self.faults, [])
        self.assertEqual(sorted(map(int, [*self.offered, *self.doubted])), list(range(JOBS)))
        self.wait_until(self.is_empty, LONGEST)
        self.is_over.set()
        killer.join(PATIENCE)
        self.assertEqual(self.faults, [])
        self.wait_until(lambda: all(it.may_end for it in self.workers), LONGEST)
        self.assertEqual([it.stop() for it in self.workers], [0] * len(self.handlers))
        sessions, wrong = zip(*(it.finish() for it in nuisances))
        self.assertEqual(wrong, ([],) * len(nuisances))
        self.end()
        self.judge(f"{sum(sessions)} sessions of clients that are silent or lie, {time.monotonic() - began:.0f} s")

    @property
    def port(self):
        """Where the clients connect."""
        return self.server.port

    def serve_next(self, calls):
        """Starts the first server or the next, with room for this many calls."""
        port = self.server.port if self.histories else None
        self.server = self.continue_run("--workers", 16, "--calls", calls, "--turns", 50, *POLICY, port=port)

    def end(self):
        """Ends the server, while clients go on."""
        lines = self.assert_drained(self.server, POLICY, lost="[0-9]+")
        self.lost += int(lines[0].split(" ")[-1])

    def change_servers(self):
        """One server is replaced by the next, which soon runs full and is replaced too."""
        self.serve_until(lambda: len(self.offered) >= JOBS // 3)
        self.end()
        self.serve_next(JOBS // 2)
        self.wait_until(lambda: self.size() is None, LONGEST)
        self.end()
        self.serve_next(1_000_000)
        self.serve_until(lambda: len(self.offered) + len(self.doubted) >= JOBS and self.is_empty())

    def serve_until(self, is_so):
        """Replaces each server that has served for LIFE, until it is so."""
        while True:
            end = time.monotonic() + LIFE
            self.wait_until(lambda: time.monotonic() > end or is_so(), LONGEST)
            if time.monotonic() <= end:
                return
            self.end()
            self.serve_next(1_000_000)

    def record(self, kind):
        self.records.append(f"{self.room}/{kind}-{len(self.records)}.jsonl")
        return self.records[-1]

    def start_worker(self, handler):
        return WorkerProcess(handler, self.port, self.record("worker"))

    def kill_now_and_then(self):
        """Kills one worker after the other, each once it has begun."""
        while len(self.killed) < JOBS // 50 and not self.is_over.wait(random.uniform(0.2, 0.6)):
            place = random.randrange(len(self.workers))
            worker = self.workers[place]
            if worker.has_begun:
                worker.kill()
                self.killed.append(worker.record)
                self.workers[place] = self.start_worker(worker.handler)

    def producers(self):
        """What offer all jobs, each in a thread."""
        return partial(self.offer_half, Producer, 0), partial(self.offer_half, AsyncProducer, 1)

    def offer_half(self, kind, first):
        """Offers each second job by a producer of this kind, whose offers a loop may have to run."""
        with open(self.record("producer"), "a", encoding="ascii") as record, asyncio.Runner() as loop:
            producer = kind(self.port, patience=LONGEST, pauses=Pauses(0.05, 0.5), record=record)
            settle = loop.run if kind is AsyncProducer else lambda answer: answer
            for number in range(first, JOBS, 2):
                try:
                    settle(producer.offer(str(number), delay=random.choice(DELAYS)))
                    self.offered.append(number)
                except InDoubtError:
                    self.doubted.append(number)
                time.sleep(random.uniform(0, PAUSE))
            settle(producer.close())

    def size(self):
        """How many elements are in the queue, or None if the run is full. Takes its time, as each takes a session."""
        time.sleep(0.2)
        with suppress(FullError), Broker(self.port, patience=PATIENCE) as broker:
            return broker.size()

    def wait_until(self, is_so, seconds=PATIENCE):
        """Waits for nothing once a worker has died by itself, or something has failed in a thread."""
        super().wait_until(lambda: self.assert_goes_on() or is_so(), seconds)

    def assert_goes_on(self):
        self.assertEqual((self.faults, [it.record for it in self.workers if it.has_died]), ([], []))

    def is_empty(self):
        """Whether the queue is empty for a while. A held job comes back if its worker dies, or its handler hangs."""
        return all(self.size() == 0 for _ in range(15))

    def told(self):
        """What all workers were told of each attempt, and what those were that were killed."""
        return ends_in(self.records), ends_in(self.killed)

    def judge(self, said):
        if self.records:  # those of Java's clients are their proxy's
            self.assert_verified(*self.histories, *self.records, *self.verifying)
        history, (told, told_to_killed) = History(*self.histories), self.told()
        attempts, given = history.attempts(), {}
        for it in map(history.elements.get, history.given):
            given.setdefault(it.payload, []).append(it.attempt)
        named, unseen = [], []
        for payload, offered in attempts.items():
            self.assertEqual(offered, [*range(1, len(offered) + 1)], payload)
            self.assertEqual(given[payload], offered, payload)
            done = [it for it in offered if "DONE" in told[payload, it]]
            self.assertIn(done, ([], offered[-1:]), payload)
            self.assertLessEqual(told[payload, offered[-1]].count("DONE"), 1, payload)
            if not done:
                named.append(int(payload))
                if "ITEM" not in told_to_killed[payload, offered[-1]]:
                    unseen.append(int(payload))
        self.assertEqual({*range(JOBS)} - {*map(int, attempts)} - {*self.doubted}, set())
        self.assertLessEqual(len(unseen), self.lost, unseen)
        self.assertGreater(len(self.killed), 0)
        self.assertLessEqual(len(named), self.held * len(self.killed) + self.lost, named)
        again = sum(len(it) > (2 if int(payload) % 10 == 0 else 1) for payload, it in attempts.items())
        print(f"hostile day: {JOBS} jobs, {len(self.killed)} workers killed, {len(self.histories)} servers, {said}: "
              f"{len(attempts) - len(named)} done once, {len(named)} named {sorted(named)}, of which {self.lost} were "
              f"lost in the full run; {len(self.doubted)} offers in doubt; {again} given once more than they failed",
              flush=True)


class AtService:
    """What of a day is another at a service, which has sessions of its own."""

    verifying, port = [], HostileDayTest.port

    def serve_next(self, _):
        self.server = Service(self.path("service"), *AT_SERVICE, port=free_port())
        self.addCleanup(self.server.kill_all)

    def change_servers(self):
        self.server.wait("serving", RUNS, LONGEST)

    def end(self):
        self.assertEqual(self.server.stop(), 0)
        self.assertEqual([self.server.all(it) for it in ("lost-run", "lost-jobs")], [[], []])
        self.histories = [history_in(self.path("service"), it) for it, _ in enumerate(self.server.all("serving"), 1)]


class RolloverDayTest(AtService, HostileDayTest):
    pass
