"""Thousands of jobs, of which some fail, and several workers; and workers that run many jobs over one session."""
import json
import threading
import time
from contextlib import closing

from from_threads import for_both_kinds, in_thread
from scripted import in_threads
from rb_broker_client import AsyncWorker, Broker, Producer, Report, Worker
from rb_broker_formats.protocol import MOST_HELD
from server import LONGEST, PATIENCE, Crew, ServedTest
from serving.delaying import DelayingProxy

ATTEMPTS = 3
POLICY = ("--delay", 1_000_000, "--attempts", ATTEMPTS)


class ManyJobsTest(ServedTest):
    def assert_handled(self, count, needed, crew, **options):
        """Jobs of which each needs so many attempts are handled by workers until they are done or dead."""
        path, sessions = self.path("history"), crew + 1  # however long it takes
        server = self.serve("--workers", sessions, "--sessions", sessions, "--calls", 10**6, *POLICY, "--history", path)
        crew = Crew(self, server, crew, lambda job: job.attempt == needed(int(job.payload)), **options)
        self.offer(server, *range(count))
        given = {it: min(needed(it), ATTEMPTS) for it in range(count)}
        self.wait_until(lambda: len(crew.handled) >= sum(given.values()), seconds=LONGEST)
        dead = sum(needed(it) > ATTEMPTS for it in given)
        self.assertEqual(crew.stop(), Report(done=count - dead, again=sum(given.values()) - count, dead=dead))
        self.assert_ends(server, sessions, path, POLICY)
        self.assert_attempts([path], crew.handled, {str(it): [*range(1, most + 1)] for it, most in given.items()})

    def test_each_job_is_handled_until_it_is_done_or_dead(self):
        needed = lambda number: ATTEMPTS + 1 if number % 100 == 0 else 1 + (number % 10 == 0)
        self.assert_handled(20_000, needed, crew=4)

    def test_many_at_the_same_time(self):
        needed = lambda number: 1 + (number % 7 == 0) + (number % 49 == 0)
        self.assert_handled(6_000, needed, crew=2, concurrency=16)

    def test_by_their_records_tools_verify_finds_no_fault(self):
        history, jobs = self.path("history"), 1_000
        server = self.serve("--workers", 5, "--sessions", 5, "--calls", 100_000, *POLICY, "--history", history)
        with open(self.path("record"), "a", encoding="ascii") as record:
            crews = [Crew(self, server, count, lambda job: job.attempt > 1 or int(job.payload) % 5, concurrency=most,
                          record=record) for count, most in ((1, 1), (2, 8))]
            self.produce(server.port, jobs, record=record)
            self.wait_until(lambda: sum(len(it.done()) for it in crews) >= jobs)
            counts = [vars(it.stop()) for it in crews]
        self.assert_ends(server, 5)
        self.assertEqual([sum(it[name] for it in counts) for name in vars(Report())], [jobs, jobs // 5, 0, 0, 0])
        self.assert_verified("--all", history, self.path("record"))  # the record has each call


class FarTest(ServedTest):
    """Workers through a proxy that delays."""

    PLACES, JOBS, ROUND_TRIP = 16, 1_600, 0.04  # seconds

    def far(self, *options):
        """A server, and a port that leads to it from far away."""
        server = self.serve(*options)
        return server, self.enterContext(closing(DelayingProxy(server.port, self.ROUND_TRIP)))

    def test_as_many_jobs_are_fetched_in_a_round_trip_as_can_be_started_and_no_more(self):
        for kind, handler in ((Worker, id), (AsyncWorker, in_thread(id))):
            server, proxy = self.far("--sessions", 2)
            self.offer(server, *range(self.JOBS))
            with open(self.path(kind.__name__), "a", encoding="ascii") as record:
                began = time.monotonic()
                worker = self.begin_worker(kind(handler, proxy.port, concurrency=self.PLACES, record=record))
                self.wait_until(lambda: worker.report.done == self.JOBS)
                self.assertLess(time.monotonic() - began, self.JOBS * self.ROUND_TRIP / 4)
                self.assert_stops(worker, Report(done=self.JOBS))
            self.assertEqual(self.most_held(self.path(kind.__name__)), self.PLACES)

    def test_offers_of_threads_that_share_a_producer_go_out_together(self):
        threads, each = 20, 5
        server, proxy = self.far("--sessions", 2)
        with Producer(proxy.port) as producer:
            producer.offer("first")
            began = time.monotonic()
            in_threads(*[lambda: [producer.offer("a") for _ in range(each)]] * threads)
            self.assertLess(time.monotonic() - began, threads * each * self.ROUND_TRIP / 2)
        with Broker(server.port, patience=PATIENCE) as broker:
            self.assertEqual(broker.size(), 1 + threads * each)

    def most_held(self, path):
        """How many jobs a session held at most, as its requests were carried out one after the other."""
        held = most = 0
        with open(path, encoding="ascii") as file:
            for line in map(json.loads, file):
                held += sum(it.startswith("ITEM ") for it in line["reply"]) - line["request"].startswith("DONE ")
                most = max(most, held)
        return most


@for_both_kinds
class ConcurrentJobsTest(ServedTest):
    kind = Worker

    def test_as_many_run_as_a_session_holds_and_no_more(self):
        """The others are left in the queue."""
        server, may_end = self.serve("--sessions", 3), threading.Event()
        self.offer(server, *range(2 * MOST_HELD))
        worker = self.begin_worker(self.kind(lambda job: may_end.wait(PATIENCE), server.port, concurrency=MOST_HELD))
        with Broker(server.port, patience=PATIENCE) as broker:
            self.wait_until(lambda: broker.size() == MOST_HELD)
            time.sleep(0.5)
            self.assertEqual(broker.size(), MOST_HELD)
            broker.quit()
        may_end.set()
        self.wait_until(lambda: worker.report.done == 2 * MOST_HELD)
        self.assert_stops(worker, Report(done=2 * MOST_HELD))
        self.assert_ends(server, 3)
