"""What tests have that run clients against servers: the program, or the one that RB_BROKER_PROGRAM names."""
import asyncio
import signal
import subprocess
import sys
import threading
from unittest.mock import patch

from common.program import TOP, tested_program
from history import History
from scripted import wait_for
from rb_broker_client import AsyncProducer, AsyncWorker, Broker, Job, Pauses, Producer, Report, Request, Worker
from serving import PATIENCE
from serving.server import started
from serving.testing import ServingTest

LONGEST = 600  # seconds of what may take long


class ServedTest(ServingTest):
    """A test that starts servers and workers, each of which is gone at its end."""

    def setUp(self):
        super().setUp()
        self.histories, self.threads, self.faults = [], {}, []  # threads by their workers, and what any thread raised
        self.enterContext(patch("threading.excepthook", lambda fault: self.faults.append(fault.exc_value)))
        self.addCleanup(lambda: self.assertEqual(self.faults, []))

    def begin(self, run):
        """Runs this in a thread of its own, for whose end the test waits, and which must raise nothing."""
        thread = threading.Thread(target=run, daemon=True)
        thread.start()
        self.addCleanup(thread.join, PATIENCE)
        return thread

    def begin_worker(self, worker):
        """Runs a worker of either kind in a thread of its own, until it is stopped. Gives the worker."""
        is_async = isinstance(worker, AsyncWorker)
        self.threads[worker] = self.begin(lambda: asyncio.run(worker.run()) if is_async else worker.run())
        self.addCleanup(worker.stop)
        return worker

    def assert_stops(self, worker, report):
        """The worker ends when it is asked to, and makes this report."""
        worker.stop()
        self.threads[worker].join(PATIENCE)
        self.assertEqual((self.threads[worker].is_alive(), worker.report), (False, report))

    def continue_run(self, *options, port=None):
        """A server that ends when it is told to, and continues the run of the one before, if there was one."""
        opening = ["--from", self.histories[-1]] if self.histories else []
        self.histories.append(self.path(f"history-{len(self.histories)}"))
        return self.serve("--sessions", 10_000, "--until-input-ends", *options, *opening, "--history",
                          self.histories[-1], port=port)

    def offer(self, server, *payloads, delay=0):
        """Offers a job of each payload, in one piece. Their ids rise."""
        with Broker(server.port, patience=PATIENCE) as broker:
            ids = [it.id for it in broker.ask_all([Request.offer(str(it), delay=delay) for it in payloads])]
            self.assertEqual(ids, sorted(set(ids)))
            broker.quit()

    def produce(self, port, count, **options):
        """Offers so many jobs, half by a producer, and half by tasks that share another, at the same time."""
        async def produce_async():
            async with AsyncProducer(port, **options) as producer:
                async def offer(first):
                    for number in range(first, count, 8):
                        await producer.offer(str(number))

                await asyncio.gather(*(offer(it) for it in (1, 3, 5, 7)))

        other = self.begin(lambda: asyncio.run(produce_async()))
        with Producer(port, **options) as producer:
            for number in range(0, count, 2):
                producer.offer(str(number))
        other.join(PATIENCE)

    def assert_ends(self, server, sessions, history=None, policy=(), faults="0", lost="0"):
        """The server ends well after so many sessions. By the program's own replay the history is legal, its retries
        are right, and its audit line is that which the server wrote. Gives the lines that it wrote."""
        status, lines, errors = server.end()
        self.assertEqual((status, errors), (0, ""), lines)
        self.assertRegex(lines[0], f"^sessions {sessions} faults {faults} lost {lost}$")
        if history is not None:
            words = [tested_program(), "replay", history, "--chains", *map(str, policy)]
            ran = subprocess.run(words, capture_output=True, encoding="utf-8", timeout=LONGEST)
            self.assertEqual((ran.returncode, ran.stdout.strip(), ran.stderr), (0, lines[1], ""))
        return lines

    def assert_drained(self, server, policy, lost="0"):
        """The same of the last one, which is told to end now, though no client is. A client that was stopped before its
        first reply may be a fault."""
        server.drain()
        return self.assert_ends(server, "[0-9]+", self.histories[-1], policy, faults="[0-9]+", lost=lost)

    def assert_attempts(self, histories, handled, attempts):
        """The histories have these attempts of each payload, and each that was given was handled once, as offered."""
        history = History(*histories)
        self.assertEqual(history.attempts(), attempts)
        given = [history.elements[id] for id in sorted(history.given)]
        self.assertEqual(sorted((it.id, it.expires_at_ns, it.attempt, it.payload) for it in handled),
                         [(it.id, it.expiry, it.attempt, it.payload) for it in given])

    def assert_verified(self, *words):
        """By tools/verify a history has what these records tell."""
        ran = subprocess.run([sys.executable, f"{TOP}/tools/verify", *words], stdout=subprocess.PIPE,
                             stderr=subprocess.STDOUT, encoding="utf-8", timeout=LONGEST)
        self.assertEqual((ran.returncode, ran.stdout.splitlines()[-1]), (0, "0 faults"), ran.stdout)

    def command(self, port, *words):
        """Runs the package's command to its end. Its status, and what it wrote."""
        words = [sys.executable, "-m", "rb_broker_client", *words, "--port", port, "--patience", f"{PATIENCE}s"]
        ran = subprocess.run([*map(str, words)], capture_output=True, encoding="ascii", timeout=2 * PATIENCE)
        return ran.returncode, ran.stdout, ran.stderr

    def assert_done(self, server, *words):
        """The command ends well. Gives what it wrote."""
        status, said, errors = self.command(server.port, *words)
        self.assertEqual((status, errors), (0, ""))
        return said

    def start_worker(self, port, *words, **options):
        """Starts the command as a worker, which is gone at the end of the test."""
        words = [sys.executable, "-u", "-m", "rb_broker_client", "worker", *words, "--port", str(port)]
        worker = self.enterContext(started(words, **options))
        self.addCleanup(worker.kill)
        return worker

    def assert_exits(self, worker, said, number=signal.SIGTERM):
        """The command as a worker ends well once it has this signal, and writes this. Gives what it logged."""
        worker.send_signal(number)
        told, errors = worker.communicate(timeout=PATIENCE)
        self.assertEqual((worker.returncode, told), (0, said))
        return errors

    def wait_until(self, is_so, seconds=PATIENCE):
        """Waits for a condition that another thread brings about."""
        self.assertTrue(wait_for(is_so, seconds), "it did not come about in time")


class Crew:
    """So many workers of a server, with these options, each second one of asyncio, until the end of a test. `is_done`
    says which attempts are done."""

    def __init__(self, test, server, count, is_done, **options):
        self._is_done = is_done
        self.handled: list[Job] = []
        options = {"pauses": Pauses(first=0.05, longest=0.2), **options}
        self.workers = [AsyncWorker(self._handle_async, server.port, **options) if it % 2 else
                        Worker(self._handle, server.port, **options) for it in range(count)]
        self._threads = [test.threads[test.begin_worker(it)] for it in self.workers]
        test.addCleanup(self.stop)

    def stop(self):
        """Stops all of them, and waits until they have ended. The sum of their reports."""
        for worker in self.workers:
            worker.stop()
        for thread in self._threads:
            thread.join(PATIENCE)
            assert not thread.is_alive(), "a worker does not stop"
        return Report(**{name: sum(getattr(it.report, name) for it in self.workers) for name in vars(Report())})

    def done(self):
        """The payloads of the jobs whose handler returned."""
        return [it.payload for it in [*self.handled] if self._is_done(it)]

    def _handle(self, job):
        self.handled.append(job)
        if not self._is_done(job):
            raise ValueError(f"{job.payload} is to fail")

    async def _handle_async(self, job):
        await asyncio.sleep(0)
        self._handle(job)
