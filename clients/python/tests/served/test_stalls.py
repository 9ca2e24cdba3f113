"""Handlers that hang, and servers that are busy or let nothing wait."""
import threading
import time

from from_threads import for_both_kinds
from history import History
from rb_broker_client import Broker, Producer, Report, Worker
from server import PATIENCE, Crew, ServedTest

QUICK = 40  # jobs that come while one hangs
PAUSE = 0.1  # seconds between two of them


@for_both_kinds
class HangTest(ServedTest):
    """A worker one of whose handlers hangs."""

    kind = Worker

    def setUp(self):
        super().setUp()
        self.may_end, self.done = threading.Event(), []

    def handle(self, job):
        if job.payload == "hangs":
            self.may_end.wait(10 * PATIENCE)
        self.done.append(job.payload)

    def work(self, server, **options):
        """A worker that runs, when it was slowly offered a job that hangs, and others behind it."""
        worker = self.begin_worker(self.kind(self.handle, server.port, concurrency=16, **options))
        with Producer(server.port) as producer:
            for payload in ("hangs", *map(str, range(QUICK))):
                producer.offer(payload)
                time.sleep(PAUSE)
        return worker

    def test_jobs_go_on_being_fetched(self):
        server = self.serve("--workers", 4, "--sessions", 2)
        worker = self.work(server)
        self.wait_until(lambda: len(self.done) == QUICK, 2 * PATIENCE)
        self.assertNotIn("hangs", self.done)
        self.may_end.set()
        self.assert_stops(worker, Report(done=QUICK + 1))
        self.assert_ends(server, 2)

    def test_a_job_that_takes_too_long_fails_and_is_given_again(self):
        server = self.serve("--workers", 4, "--sessions", 100, "--attempts", 2)
        dead = []
        worker = self.work(server, timeout=0.5, on_dead=dead.append)
        self.wait_until(lambda: len(self.done) == QUICK and dead)
        self.assertEqual([(it.payload, it.attempt) for it in dead], [("hangs", 2)])
        self.may_end.set()
        self.assert_stops(worker, Report(done=QUICK, again=1, dead=1))


class CrowdTest(ServedTest):
    """A server that is busy, or gives waits up."""

    def test_a_server_that_gives_each_wait_up(self):
        server = self.serve("--turns", 0, "--sessions", 3)
        crew = Crew(self, server, 1, lambda job: True)
        for payload in ("first", "second"):
            self.offer(server, payload, delay=0.2)
            self.wait_until(lambda: payload in crew.done())
        self.assertEqual(crew.stop(), Report(done=2))
        self.assert_ends(server, 3)

    def test_a_stop_while_the_server_is_busy_costs_no_attempt(self):
        server = self.serve("--sessions", 2, "--workers", 1, "--history", self.path("history"))
        with Broker(server.port, patience=PATIENCE) as broker:
            broker.offer("letter")
            crew = Crew(self, server, 1, lambda job: True)
            time.sleep(0.3)  # it is connected then, and waits for its first reply
            self.assertEqual(crew.stop(), Report())
            broker.quit()
        self.assert_ends(server, 2, self.path("history"), faults="[0-9]+")
        history = History(self.path("history"))
        self.assertEqual((history.attempts(), history.given), ({"letter": [1]}, []))
