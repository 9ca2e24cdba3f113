"""Tasks in this process, at moments that the tests set, and what is in their file."""
import asyncio
import contextlib
import os
import sqlite3
import sys
import threading
import time
from concurrent.futures import ThreadPoolExecutor
from datetime import datetime, timedelta, timezone
from functools import partial
from pathlib import Path
from runpy import run_path
from unittest.mock import Mock, patch

import pytest
from scripted import Awaitable, ScriptedTest, fork, free_port, wait_for
from test_command import run
from rb_broker_client import Greeting, Job, RefusedError, Report, task_store, tasks, waiting
from rb_broker_client.task_runners import Processes
from rb_broker_client.tasks import Middleware, RetryLater, Tasks, exponential
from rb_broker_client.worker import LeftForAnother

EXAMPLES = run_path(str(Path(__file__).parents[2] / "examples/middleware.py"))

app = None  # that of a test, for the command


class TasksTest(ScriptedTest):
    def setUp(self):
        global app
        super().setUp()
        app = self.app = Tasks(self.path, free_port(), patience=0.05)
        self.addCleanup(app.close)
        self.seen, self.raises = [], []  # what each call raises, the first first
        self.note = app.task(attempts=3, backoff=exponential("10s", most="15s", jitter=0), name="note")(self.noted)

    def noted(self, *words, **options):
        self.seen.append((*words, *options.values()))
        if self.raises and (fault := self.raises.pop(0)):
            raise fault

    def passes(self, moments, *steps):
        """After each of these times so many calls were made."""
        for delay, count in steps:
            moments.pass_by(delay)
            self.assertEqual(len(self.seen), count, (delay, self.seen))

    def test_a_task_is_called_once_with_its_arguments_when_it_is_due(self):
        with self.app.testing() as moments:
            self.note.later("2h", 17, text="é" * 100_000)
            self.note.at(datetime.now(timezone.utc) + timedelta(days=1), 18)
            self.note(19)
            self.passes(moments, ("1.9h", 1), ("0.1h", 2), ("1d", 3), ("9d", 3))
        self.assertEqual(self.seen, [(19,), (17, "é" * 100_000), (18,)])

    def test_failures_are_tried_again_later_until_the_task_is_dead(self):
        self.raises = [ValueError("first"), RetryLater("5m"), ValueError("last"), None]
        with self.app.testing() as moments:
            self.note.later(0, 17)
            self.passes(moments, (0, 1), (9, 1), (1, 2), (299, 2), (1, 3), ("9d", 3))
            (dead,) = self.app.dead()
            self.assertEqual((dead.name, dead.arguments, dead.failures), ("note", "[[17], {}]", 3))
            self.assertRegex(dead.error, r"(?s)\ATraceback .* in noted\n.*ValueError: last\n\Z")
            self.assertEqual((self.app.again(dead.id, "other"), self.app.dead()), (1, []))
            self.passes(moments, (0, 4), ("9d", 4))

    def test_delays_double_and_vary(self):
        self.assertEqual([*map(exponential(1, most=5, jitter=0), (1, 2, 3, 4, 2_000))], [1, 2, 4, 5, 5])
        varied = {exponential(10, jitter=0.2)(1) for _ in range(100)}
        self.assertTrue(len(varied) > 90 and 8 <= min(varied) and max(varied) <= 12)

    def test_one_task_of_a_key_waits_and_can_be_cancelled(self):
        with self.app.testing() as moments:
            self.assertIsNotNone(self.note.later(5, 1, key="one"))
            self.assertIsNone(self.note.later(5, 2, key="one"))
            self.assertEqual((self.app.cancel("one"), self.app.cancel("one")), (True, False))
            self.assertIsNotNone(self.note.later(6, 3, key="one"))
            self.passes(moments, (10, 1))
            self.assertIsNotNone(self.note.later(0, 4, key="one"))
        self.assertEqual(self.seen, [(3,)])

    def test_what_is_wrong_is_said_when_it_is_offered(self):
        one = self.app.task(name="one")(lambda number: None)
        for it in (lambda: one.later(0), lambda: one.later(0, object()), lambda: self.app.task()(lambda key: None)):
            self.assertRaises(TypeError, it)
        for it in ("soon", "999999999d"):
            self.assertRaises(ValueError, one.later, it, 1)
        self.assertRaises(ValueError, one.at, datetime(2030, 1, 1), 1)  # which has no zone
        self.assertRaises(ValueError, self.app.task(name="one"), run)
        self.assertEqual(self.moments(self.app._store)(60).overdue(60), [])

    def test_a_task_is_in_the_file_before_it_is_offered_and_only_one_process_runs_it(self):
        """There is no server, and the file is read as other processes would."""
        id = self.note.later(0, 17, key="one")
        after = self.moments(Tasks(self.path, free_port())._store)
        self.assertEqual([it.id for it in after(6).overdue(60)], [id])
        self.assertEqual([after(0).claim(id, 1, it).state for it in ("this", "other")], ["claimed", "running"])
        self.assertFalse(self.app.cancel("one"))
        after(9).beat("this", id)
        self.assertEqual(after(18).overdue(60), [])
        self.assertEqual([it.id for it in after(20).overdue(60)], [id])
        after(20).done(after(20).claim(id, 1, "other"))
        self.assertIsNone(after(20).claim(id, 1, "this"))

    def test_a_moment_is_read_once_the_file_can_be_written(self):
        """A process that waited long for others is not taken for a dead one."""
        id, store = self.note.later(0, 17), self.app._store
        store.now = lambda: time.time() + 6 * store._opened[-1][1].in_transaction
        store.claim(id, 1, "this")
        self.assertGreater(store.running("this")[0][0], time.time() + 5)
        self.assertEqual(store.claim(id, 1, "other").state, "running")

    def moments(self, store):
        """Gives the store so many seconds from now."""
        now = time.time()
        return lambda seconds: setattr(store, "now", lambda: now + seconds) or store

    def test_a_function_that_is_not_known_and_a_task_of_another_file_are_left_for_others(self):
        with self.app.testing() as moments:
            self.note.later(0, 17)
            with patch.dict(self.app._tasks, clear=True):
                self.passes(moments, (5, 0))
            self.passes(moments, (10, 1))
            self.assertRaises(LeftForAnother, self.app._claim, Job(0, 0, 1, "00000000.0000.1"))

    def test_after_a_lost_run_what_is_not_known_to_wait_is_offered_again(self):
        """Each task is named by the run that it was offered in, or is done, dead or runs."""
        store, ids = self.app._store, {}
        after, ends = self.moments(store), {"done": store.done, "dead": partial(store.bury, error=""), "runs": Mock()}
        for name, run in {"7": 7, "8": 8, "done": 8, "runs": 8, "dead": 8, "none": None, "9": 9}.items():
            task = after(0).add("note", "[]", name, time.time())
            ids[task.id] = name
            store.sent(task, run and Greeting(run, 4 + (run > 8), 0))
            if name in ends:
                ends[name](store.claim(task.id, 1, "other"))
        self.assertEqual({ids[it.id] for it in store.overdue(60)}, {"8", "none"})
        late = store.add("note", "[]", None, time.time())
        store.sent(late, Greeting(8, 4, 0))  # which was lost before it was known to be accepted
        self.assertIn(late.id, [it.id for it in after(6).overdue(60)])
        heard = [(9, 5), (10, 5), (12, 5), (11, 5), (11, 4), (12, 5)]  # of which two come late
        self.assertEqual([after(0).greeted(Greeting(*it, 0)) for it in heard], [0] * len(heard))
        self.assertEqual((store.greeted(Greeting(1, 0, 0)), {ids[it.id] for it in store.overdue(60)}),
                         (2, {"7", "9"}))  # another service

    def test_coroutine_functions(self):
        @self.app.task(name="wait", attempts=1, timeout=0.2)
        async def wait(seconds):
            self.seen.append(seconds)
            await asyncio.sleep(seconds)

        with self.app.testing() as moments:
            for seconds in (0, 5):
                wait.later(0, seconds)
            self.passes(moments, (0, 2))
            (dead,) = self.app.dead()
        self.assertEqual((sorted(self.seen), dead.arguments), ([0, 5], "[[5], {}]"))
        self.assertRegex(dead.error, "TimeoutError\n$")

    def test_what_leaves_its_work_to_nobody_or_exits_has_failed_and_a_back_off_that_raises_is_the_end(self):
        forgets = partial(asyncio.sleep, 0, Awaitable())  # which gives it
        with self.app.testing() as moments:
            self.app.task(name="4", backoff=lambda failures: [][failures])(lambda: 1 / 0).later(0)
            for number, it in enumerate((Awaitable, forgets, lambda: (it for it in ()), lambda: sys.exit(3))):
                self.app.task(name=str(number), attempts=1)(it).later(0)
            moments.pass_by(0)
            told = {it.name: it.error.splitlines()[-1].partition(":")[0] for it in self.app.dead()}
        self.assertEqual(told, {**dict.fromkeys("012", "TypeError"), "3": "SystemExit", "4": "IndexError"})

    def test_middleware_is_told_of_each_attempt_and_changes_nothing(self):
        told = []
        note = lambda name, what, task, *fault: told.append(" ".join([name, what, task.name, *map(str, fault)]))
        tells = lambda name: Mock(**{it: partial(note, name, it) for it in ("before", "after", "failed")})
        self.app.use(tells("one"), Middleware(), tells("other"))
        self.raises = [ValueError("a")]
        with self.app.testing() as moments:
            self.note.later(0)
            self.passes(moments, (0, 1), (10, 2))
            self.assertEqual(told, ["one before note", "other before note", "other failed note a", "one failed note a",
                                    "one before note", "other before note", "other after note", "one after note"])
            self.app.use(Mock(spec=Middleware, before=Mock(side_effect=OSError)))
            self.note.later(0)
            with self.logged() as said:
                self.passes(moments, (0, 3), ("1d", 3))
            self.assertRegex(said.output[0], "(?s)before of .*OSError")

    def run_with(self, middleware):
        """Runs two tasks that are done, one of them a coroutine, and one that fails and then is done."""
        self.app.use(middleware)
        self.raises = [ValueError("once")]
        with self.app.testing() as moments:
            for name, it in (("fails", self.noted), ("waits", partial(asyncio.sleep, 0)), ("<lambda>", lambda: None)):
                self.app.task(name=name)(it).later(0)
            moments.pass_by("1h")

    def test_metrics_of_prometheus(self):
        prometheus = pytest.importorskip("prometheus_client")
        registry = prometheus.CollectorRegistry()
        self.run_with(EXAMPLES["Metrics"](registry))
        told = prometheus.generate_latest(registry).decode()
        for line in ('tasks_done_total{task="fails"} 1.0', 'tasks_failed_total{task="fails"} 1.0',
                     'tasks_done_total{task="waits"} 1.0', 'tasks_running{task="fails"} 0.0',
                     'tasks_seconds_count{task="fails"} 2.0', 'tasks_done_total{task="<lambda>"} 1.0'):
            self.assertIn(f"\n{line}\n", told)

    def test_spans_of_a_tracer_that_has_the_one_method_of_opentelemetrys(self):
        spans = []

        @contextlib.contextmanager
        def start(name, attributes):
            try:
                yield
            finally:
                spans.append((name, attributes["task.attempt"], str(sys.exc_info()[1])))

        self.run_with(EXAMPLES["Spans"](Mock(spec=["start_as_current_span"], start_as_current_span=start)))
        self.assertEqual(sorted(spans), [
            ("<lambda>", 1, "None"), ("fails", 1, "once"), ("fails", 2, "None"), ("waits", 1, "None")])

    def test_four_tasks_that_hang_are_ended_with_their_processes_and_stop_nobody(self):
        """The processes take their tasks out of the file: there is no server."""
        hang = self.app.task(name="hang", attempts=1, timeout="200ms")(lambda: time.sleep(60))
        dies = self.app.task(name="dies", attempts=1)(lambda: os._exit(3))
        touches = self.app.task(name="touch")(lambda name: open(f"{self.path}.{name}", "w").close())
        for it in (*[hang] * 4, dies):
            it.later(0)
        for number in range(8):
            touches.later(0, number)
        is_done = lambda: len(self.app.dead()) == 5 and all(os.path.exists(f"{self.path}.{it}") for it in range(8))
        stop = lambda: (wait_for(is_done), self.app.stop())
        with patch.object(self.app, "_run", self.run_from_file), patch.multiple(task_store, AT_ONCE=1, UNSENT=0):
            threading.Thread(target=stop, daemon=True).start()
            self.assertEqual(self.app.run(2, processes=2), Report(done=2))
        self.assertTrue(is_done())
        self.assertEqual({it.error.strip().splitlines()[-1] for it in self.app.dead()}, {
            "TimeoutError: it took too long, and was ended with its process",
            "TimeoutError: its process ended with status 3"})

    def test_a_coroutine_that_can_be_cancelled_is_not_ended_with_its_process(self):
        child, store = Mock(owner="one", process=Mock(exitcode=None)), self.app._store
        store.claim(self.app.task(name="waits", timeout=1)(asyncio.sleep).later(0, 60), 1, "one")
        for seconds, is_killed in ((2, False), (20, True)):
            self.moments(store)(seconds)
            Processes(self.app, 1, 1)._look_after(child)
            self.assertEqual(child.process.kill.called, is_killed)

    def test_a_process_ends_with_the_one_that_watches_it(self):
        """Whatever its tasks do."""
        pid = Path(f"{self.path}.pid")
        hangs = lambda threads, owner: (pid.write_text(f"{os.getpid()}\n"), time.sleep(60))
        with patch.object(self.app, "_run", hangs):
            parent = fork(lambda: self.app.run(1, processes=1))
        self.assertTrue(wait_for(lambda: pid.exists() and pid.read_text()))
        parent.kill()
        parent.join()
        stat = Path(f"/proc/{pid.read_text().strip()}/stat")
        self.assertTrue(wait_for(lambda: not stat.exists() or stat.read_text().split(") ")[1][0] == "Z"))

    def run_from_file(self, threads, owner):
        def work():
            while not self.app._is_over.wait(0.01):
                for it in self.app._store.overdue(60):
                    task = self.app._store.claim(it.id, it.turn, owner)
                    waiting.run(self.app._attempt(waiting.Blocking(), task))

        with ThreadPoolExecutor(threads) as pool:
            for _ in range(threads):
                pool.submit(work)
        return Report(done=1)

    def test_who_keeps_tasks_goes_on_when_the_file_can_not_be_used(self):
        full = sqlite3.OperationalError("database or disk is full")
        text = "ERROR:rb_broker_client.tasks:the file of tasks can't be used now"
        look_after = partial(Processes(self.app, 1, 1)._look_after, Mock(process=Mock(exitcode=None)))
        for name, keep, is_over, count in (("beat", self.app._keep_alive, [False, False, True], 2),
                                           ("overdue", self.app._keep_offered, [False, True], 2),
                                           ("running", look_after, [], 1)):
            with patch.object(self.app._is_over, "wait", side_effect=is_over), \
                    patch.object(self.app._store, name, side_effect=full), self.logged() as said:
                keep()
            self.assertEqual([it.splitlines()[0] for it in said.output], [text] * count)

    def test_a_task_that_no_broker_takes_holds_up_no_other(self):
        for number in range(3):
            self.note.later(0, number)
        self.moments(self.app._store)(6)
        faults = [RefusedError("ERR 3 range"), ValueError("of a back-off that is infinite"), None]
        with patch.object(self.app, "_send", side_effect=faults) as send:
            threading.Timer(0.5, self.app._is_over.set).start()
            self.app._keep_offered()
        self.assertEqual(send.call_count, 3)

    def test_a_task_whose_end_could_not_be_written_is_run_again(self):
        store, id = self.app._store, self.note.later(0, 17)
        with patch.object(store, "done", side_effect=sqlite3.OperationalError("database is locked")):
            self.assertRaises(sqlite3.OperationalError, waiting.run,
                              self.app._attempt(waiting.Blocking(), store.claim(id, 1, "one")))
        self.moments(store)(60)
        self.app._owner = "one"
        with patch.object(tasks, "STALE", 0.01):
            threading.Timer(0.2, self.app._is_over.set).start()
            self.app._keep_alive()  # as long as it runs other tasks
        self.assertEqual([it.id for it in store.overdue(60)], [id])

    def test_dead_tasks_by_the_command(self):
        store, id = self.app._store, self.note.later(0, 17)
        store.bury(store.claim(id, 1, "one"), "Traceback\nValueError: last\n")
        told = f"{id} note [[17], {{}}] 1 ValueError: last\n"
        self.assertEqual(run("tasks", "dead", "test_tasks:app"), (0, told, ""))
        self.assertEqual(run("tasks", "again", "test_tasks:app", id)[:2], (0, "offered 1\n"))
        self.assertEqual(run("tasks", "dead", "test_tasks:app"), (0, "", ""))
        status, _, errors = run("tasks", "run", "test_tasks:run")
        self.assertEqual(status, 2)
        self.assertIn("test_tasks:run is a function, ", errors)
