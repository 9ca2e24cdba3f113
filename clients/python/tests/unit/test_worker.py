"""A worker whose servers stop waits, refuse, go away and come back; and the ways to stop it."""
import asyncio
import errno
import gc
import logging
import os
import signal
import time
import unittest
from unittest.mock import AsyncMock, Mock, patch

from from_threads import for_both_kinds
from scripted import A, GIVES_A, GIVES_B, LAST, PATIENCE, Awaitable, WorkerCase, fork, free_port, status_of
from rb_broker_client import AsyncWorker, Job, Pauses, Report, UnknownReplyError, Worker
from rb_broker_client.worker import LeftForAnother

FULL = "WAIT > ERR 6 full; QUIT"
ENDS = f"{A}; {GIVES_B}; FAIL 1 > AGAIN 2 1000; WAIT > NONE; WAIT > ITEM 2 1000 3 b; FAIL 2 > DEAD 2; {LAST}"


@for_both_kinds
class JobTest(WorkerCase):
    def test_what_is_reported(self):
        self.assert_scripts("worker.txt")

    def test_jobs_are_done_or_fail(self):
        dead = []
        for options in ({}, {"on_dead": dead.append}):
            self.assert_reports(Report(done=1, again=1, dead=1), ENDS, **options)
            self.assertEqual(self.handled, [Job(0, 0, 1, "a"), Job(1, 0, 1, "b"), Job(2, 1000, 3, "b")])
        self.assertEqual(dead, [Job(2, 1000, 3, "b")])

    def test_a_server_of_another_kind(self):
        self.assertRaises(UnknownReplyError, self.work("WAIT > HELLO").run)

    def test_which_failures_that_are_not_answered_as_such_are_told_as_dead(self):
        fails, full = "WAIT > ITEM {0} 0 {0} b; FAIL {0} > hangs up", f"{GIVES_B}; FAIL 1 > ERR 6 full; QUIT"
        last = "job b failed in its last attempt, 2, and its session was lost"
        for report, sessions, dead, told, options in (
            (Report(unheard=1), [fails.format(1)], [], [], {}),
            (Report(lost=1), [full], [Job(1, 0, 1, "b")], ["job b is lost: it failed in a full run"], {}),
            (Report(unheard=2), [fails.format(1), fails.format(2)], [Job(2, 0, 2, "b")], [last], {"attempts": 2}),
        ):
            buried = []
            with self.logged("WARNING") as said:
                self.assert_reports(report, *sessions, LAST, on_dead=buried.append, **options)
            errors = [it.partition("worker:")[2] for it in said.output if it.startswith("ERROR:")]
            self.assertEqual((buried, errors), (dead, told))

    def test_a_fault_of_what_is_told_of_dead_jobs_is_logged_and_the_worker_goes_on(self):
        refuse = Mock(side_effect=OSError("the disk is full"))
        steps = f"{GIVES_B}; FAIL 1 > DEAD 1; {A}; {LAST}"
        with self.logged() as said:
            self.assert_reports(Report(done=1, dead=1), steps, on_dead=refuse)
        self.assertRegex("\n".join(said.output), r"(?s)\AERROR:.*:job b failed in its last attempt, 1\n"
                         r"ERROR:.*:on_dead failed for job b\n.*the disk is full\Z")

    def test_options_that_make_no_sense(self):
        no_duration = (0, -1.0, float("nan"))
        for option, wrong in {"concurrency": (0, -1, 65), "patience": no_duration, "timeout": no_duration}.items():
            for it in wrong:
                self.assertRaises(ValueError, self.kind, self.handle, 7011, **{option: it})
        for handler in ("handle", None, 5):
            for kind in (Worker, AsyncWorker):
                self.assertRaisesRegex(TypeError, "a function is to be called", kind, handler, 7011)
        for concurrency in (1, 2):
            self.assertRaises(UnicodeError, self.kind(self.handle, 7011, "a..b", concurrency=concurrency).run)

    def test_pauses_grow_until_a_wait_is_answered(self):
        pauses = Mock(**{"next.return_value": 0.01})
        self.work(FULL, FULL, f"WAIT > STOPPED; WAIT > NONE; {LAST}", pauses=pauses).run()
        self.assertEqual([name for name, *_ in pauses.method_calls[:5]], ["next", "next", "next", "reset", "reset"])


class HandlerTest(WorkerCase):
    """No job may count as done whose handler has left its work to nobody."""

    def test_one_that_is_broken_off_ends_the_session_with_its_job(self):
        interrupt = Mock(side_effect=KeyboardInterrupt)
        self.assertRaises(KeyboardInterrupt, self.work("WAIT > ITEM 0 0 1 a", handler=interrupt).run)

    def test_a_coroutine_function_is_refused(self):
        self.assertRaisesRegex(TypeError, "sleep", Worker, asyncio.sleep, 7011)
        self.assertRaisesRegex(TypeError, "sleep", Worker, self.handle, 7011, on_dead=asyncio.sleep)

    def test_a_generator_is_refused(self):
        def yields(job):
            yield

        async def yields_async(job):
            yield

        for kind in (Worker, AsyncWorker):
            for it in (yields, yields_async):
                self.assertRaisesRegex(TypeError, "nothing runs a generator: .*yields", kind, it, 7011)
                self.assertRaisesRegex(TypeError, "nothing runs a generator", kind, self.handle, 7011, on_dead=it)
            for it in (lambda job: yields(job), lambda job: yields_async(job)):
                self.assert_fails(kind, it)

    def test_a_job_fails_whose_handler_gives_an_awaitable(self):
        self.assert_fails(Worker, lambda job: Awaitable())
        self.assert_fails(AsyncWorker, AsyncMock(return_value=Awaitable()))

    def assert_fails(self, kind, handler):
        """Each job of such a worker fails."""
        self.kind = kind
        worker = self.work(f"{GIVES_A}; FAIL 0 > stops: DEAD 0; QUIT", handler=handler)
        self.assertEqual(worker.run() if kind is Worker else asyncio.run(worker.run()), Report(dead=1))


@for_both_kinds
class LogTest(WorkerCase):
    """What is logged of servers that are away. Each line is one record."""

    def test_a_refused_connection_is_no_lost_session_and_is_told_once(self):
        worker = self.make(self.handle, port := free_port())
        self.stop_later(0.3)
        with self.logged(logging.INFO) as said:
            worker.run()
        (text,) = said.output
        self.assertRegex(text, rf"^WARNING:.*:no server at 127.0.0.1:{port}: \[Errno {errno.ECONNREFUSED}\] ")

    def test_a_session_that_was_lost_and_the_next(self):
        with self.logged(logging.INFO) as said:
            self.work("WAIT > hangs up", LAST).run()
        lost, again = said.output
        self.assertRegex(lost, f"^WARNING:.*:the session at 127.0.0.1:{self.server.port} was lost: ")
        self.assertRegex(again, f"^INFO:.*:served again at 127.0.0.1:{self.server.port}$")

    def test_a_job_that_is_left_for_another_worker_is_told_in_one_line(self):
        def leave(job):
            raise LeftForAnother("b is left for another worker")

        with self.logged("WARNING") as said:
            self.assert_reports(Report(again=1), f"{GIVES_B}; FAIL 1 > AGAIN 2 5; {LAST}", handler=leave)
        self.assertEqual(said.output, ["WARNING:rb_broker_client.worker:b is left for another worker"])

    def test_the_first_session_is_not_served_again(self):
        with self.logged(logging.INFO) as said:
            self.work(f"{GIVES_B}; FAIL 1 > AGAIN 2 5; {LAST}").run()
        (text,) = said.output
        self.assertRegex(text, "^WARNING:.*:attempt 1 of job b failed\n")


@for_both_kinds
class StopTest(WorkerCase):
    def test_before_it_runs(self):
        worker = self.make(self.handle, free_port())
        worker.stop()
        self.assertEqual(worker.run(), Report())
        worker.stop()

    def test_a_worker_runs_once(self):
        worker = self.work(f"{A}; {LAST}")
        self.assertEqual(worker.run(), Report(done=1))
        self.assertRaisesRegex(RuntimeError, "^a worker runs once", worker.run)

    def test_by_another_thread_in_a_pause(self):
        wait = "POLLFOR 60000000000"
        self.soon = lambda _: self.stop_later(0.3)
        for steps in (f"{wait} > soon: STOPPED", f"{wait} > ITEM 0 0 1 b; FAIL 0 > soon: ERR 7 memory", None):
            port = self.play(f"AT 0; {steps}; QUIT").port if steps else free_port()
            worker = self.make(self.handle, port, pause=60, wait=60)
            if steps is None:
                self.stop_later(0.3)
            began = time.monotonic()
            worker.run()
            self.assertLess(time.monotonic() - began, PATIENCE / 2)

    def test_by_a_signal(self):
        worker = self.work("AT 0 > nothing")
        self.addCleanup(signal.signal, signal.SIGALRM, signal.signal(signal.SIGALRM, worker.stop))
        signal.setitimer(signal.ITIMER_REAL, 0.2)
        self.assertEqual(worker.run(), Report())


class ForkTest(WorkerCase):
    """Workers that were made before their processes were forked."""

    def test_a_worker_has_no_descriptor_before_it_runs(self):
        before = os.listdir("/proc/self/fd")
        workers = [Worker(self.handle, 7011) for _ in range(5)]
        self.assertEqual((len(os.listdir("/proc/self/fd")), len(workers)), (len(before), 5))

    def test_nothing_is_said_of_one_that_gets_no_descriptor(self):
        with patch("socket.socketpair", side_effect=OSError), patch("sys.unraisablehook") as says:
            self.assertRaises(OSError, lambda: Worker(self.handle, 7011).run())
            gc.collect()
        self.assertFalse(says.called)

    def test_each_process_hears_its_own_stop(self):
        """If no stop ends a process another signal does."""
        worker = Worker(self.handle, free_port(), pauses=Pauses(60.0, 60.0))
        self.addCleanup(signal.signal, signal.SIGTERM, signal.signal(signal.SIGTERM, worker.stop))
        children = [fork(lambda: 7 if worker.run() == Report() else 8) for _ in range(4)]
        time.sleep(0.5)
        for child in children:
            child.terminate()
        self.assertEqual([*map(status_of, children)], [7] * 4)


class PausesTest(unittest.TestCase):
    def test_each_is_twice_as_long_up_to_the_longest_until_a_success(self):
        for _ in range(100):
            pauses = Pauses(first=1.0, longest=10.0)
            for most in (1.0, 2.0, 4.0, 8.0, 10.0, 10.0):
                self.assertTrue(most / 2 <= pauses.next() <= most)
            pauses.reset()
            self.assertLessEqual(pauses.next(), 1.0)

    def test_clients_do_not_come_back_together(self):
        self.assertGreater(len({Pauses().next() for _ in range(100)}), 90)

    def test_limits_that_make_no_sense(self):
        for first, longest in ((0.0, 1.0), (-1.0, 1.0), (1.0, 0.0)):
            self.assertRaises(ValueError, Pauses, first, longest)
