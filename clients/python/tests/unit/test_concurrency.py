"""A worker that runs several jobs at the same time: what it asks, and in which order; handlers that take too long."""
import asyncio
import logging
import sys
import threading
import time
from unittest.mock import AsyncMock, patch

from from_threads import for_both_kinds
from scripted import A, GIVES_A, GIVES_B, LAST, PATIENCE, ConcurrencyCase, WorkerCase, wait_for
from rb_broker_client import AsyncWorker, Job, Report

LIMIT = 0.5  # seconds of a handler


@for_both_kinds
class OrderTest(ConcurrencyCase):
    def test_what_is_asked_and_reported(self):
        self.assert_scripts("concurrency.txt")
        self.assertEqual(self.jobs.running, 0)

    def test_jobs_of_a_lost_session_keep_their_places(self):
        running, first = [], f"{GIVES_A}; BRIEF > beside c a: ITEM 1 0 1 c; > hangs up"
        self.runs = lambda _: running.append(self.jobs.running)
        self.end_c = lambda _: self.jobs.end("c")
        self.assert_reports(Report(unheard=2), first, "AT 0 > runs: ERR 1 syntax; BRIEF > end_c: stops: NONE; QUIT")
        self.assertEqual(running, [1])


class ThreadsTest(ConcurrencyCase):
    def test_a_handler_that_ends_the_program_ends_the_worker_and_jobs_beside_it_end_and_are_told(self):
        def leave(job):
            self.jobs(job)
            if job.payload == "a":
                threading.Timer(LIMIT, self.jobs.end, "c").start()
                sys.exit(3)

        for beside, done in (("ends a: nothing", 0), ("beside c a: ITEM 1 0 1 c; DONE 1", 1)):
            with self.assertRaises(SystemExit) as ended:
                self.work(f"{GIVES_A}; BRIEF > {beside}", handler=leave).run()
            self.assertEqual((ended.exception.code, self.worker.report), (3, Report(done=done, unheard=1)))

    def test_dead_jobs_are_told_in_the_threads(self):
        told, is_over = [], threading.Event()
        self.goes_on = lambda _: is_over.set()

        def keep(job):
            told.append((job, threading.current_thread() is not threading.main_thread()))
            is_over.wait(PATIENCE)

        steps = "WAIT > ITEM 0 0 3 b; BRIEF > ends b: NONE; FAIL 0 > DEAD 0; BRIEF > goes_on: stops: NONE; QUIT"
        self.assert_reports(Report(dead=1), steps, on_dead=keep)
        self.assertEqual(told, [(Job(0, 0, 3, "b"), True)])

    def test_no_thread_is_left(self):
        names = lambda: [it.name for it in threading.enumerate()]
        self.assert_reports(Report(done=1), f"{GIVES_A}; BRIEF > ends a: stops: NONE; DONE 0; QUIT")
        self.assertTrue(wait_for(lambda: "rb_broker_client-1" not in names()), names())


class TimeoutTest(ConcurrencyCase):
    def test_a_job_that_takes_longer_fails_and_its_place_is_not_free(self):
        """Nothing is asked between the failure and the end of the handler."""
        self.soon = lambda _: threading.Timer(LIMIT, self.jobs.end, ["a"]).start()
        began = time.monotonic()
        with self.logged() as said:
            self.assert_reports(Report(again=1), f"{GIVES_A}; FAIL 0 > soon: AGAIN 1 5; {LAST}", concurrency=1,
                                timeout=LIMIT)
        self.assertGreater(time.monotonic() - began, 2 * LIMIT)
        told = "the handler of job a, attempt 1, takes longer than 0.5 seconds: the job fails"
        self.assertEqual(said.output, [f"ERROR:rb_broker_client.worker:{told}"])

    def test_a_stop_does_not_wait_for_it(self):
        self.addCleanup(lambda: self.jobs.end("a"))
        steps = f"{GIVES_A}; FAIL 0 > stops: AGAIN 1 5; QUIT"
        self.assert_reports(Report(again=1), steps, concurrency=1, timeout=LIMIT)
        self.assertEqual(self.jobs.running, 1)


@for_both_kinds
@patch("rb_broker_client.worker.LONG", LIMIT)
class LongTest(WorkerCase):
    """What runs for more than a minute, which is half a second here."""

    def assert_logged(self, what, run):
        with self.logged(logging.WARNING) as said:
            run()
        told = [it for it in said.output if "has been running" in it]
        self.assertEqual(told, [f"WARNING:rb_broker_client.worker:{what}, attempt 1, has been running for 0.5 seconds"])

    def test_it_is_logged_once(self):
        hang, dies = lambda _: time.sleep(3 * LIMIT), f"{GIVES_B}; FAIL 1 > DEAD 1; {LAST}"
        for what, report, steps, options in (
            ("the handler of job a", Report(done=1), f"{A}; {LAST}", {"handler": hang}),
            ("the handler of job a", Report(done=1), f"{A}; {LAST}", {"handler": hang, "timeout": PATIENCE}),
            ("on_dead of job b", Report(dead=1), dies, {"on_dead": hang}),
        ):
            self.assert_logged(what, lambda: self.assert_reports(report, steps, **options))

    def test_one_that_holds_up_the_event_loop(self):
        hang = AsyncMock(side_effect=lambda job: time.sleep(3 * LIMIT))
        self.worker = AsyncWorker(hang, self.play(f"AT 0; {A}; {LAST}").port)
        self.assert_logged("the handler of job a", lambda: asyncio.run(self.worker.run()))
