"""A day on which all that tasks need is killed: their service, its server, workers, and what offers them, by themselves
and all at once.

Each task that was accepted is done. One that did not fail is run again only if the process that ran it was killed,
which is counted, and no such process has more of these than threads.
"""
import os
import random
import signal
import sqlite3
import sys
from collections import Counter, defaultdict
from contextlib import closing, suppress
from pathlib import Path

from records import process_of
from server import PATIENCE, ServedTest
from serving.server import free_port, started
from servicing.tests.process import Service

TASKS = int(os.environ.get("RB_BROKER_TASKS", 150))
IS_BRIEF = TASKS < 1_000
KILLS, OF_ALL = max(10, TASKS // 100), 5  # how many, and how many of these are of all at once
THREADS, PROCESSES = 4, (0, 1, 2)  # of each worker
PAUSE = 1.0  # seconds at most between two offers of a thread
LONGEST = 300 + TASKS  # seconds
SERVICE = ("--every", "1h" if IS_BRIEF else "30s", "--stop-within", "5s", "--sessions", 400, "--delay", "1s",
           "--attempts", 100, "--keep", 3)
HERE = os.path.dirname(os.path.realpath(__file__))


class HostileTasksTest(ServedTest):
    def setUp(self):
        super().setUp()
        self.port, self.killed, self.services, self.processes = free_port(), Counter(), [], {}
        self.settings = {**os.environ, "TASKS_ROOM": self.room, "TASKS_PORT": str(self.port),
                         "TASKS_BRIEF": "1" * IS_BRIEF}
        for name in ("offers", "runs"):
            self.file(name, "")
        self.addCleanup(self.kill_all)

    def test_none_is_lost_and_only_what_was_killed_is_run_twice(self):
        self.begin()
        for number in range(1, KILLS + 1):
            self.wait_until(lambda: self.offered() >= TASKS * number // (KILLS + 1), LONGEST)
            kinds = ("server", "service", "offers", *PROCESSES)
            self.kill("all" if number % (KILLS // OF_ALL) == 0 else random.choice(kinds))
            self.begin()
        self.wait_until(lambda: self.processes["offers"].poll() == 0, LONGEST)
        self.wait_until(lambda: self.left() == 0, LONGEST)
        ended = self.end_workers()
        self.assertEqual(self.services[-1].stop(), 0)
        self.judge(ended)

    def begin(self):
        """Begins what does not run."""
        if not self.services or self.services[-1].process.poll() is not None:
            self.services.append(Service(self.path("service"), *SERVICE, port=self.port))
        run = ["-m", "rb_broker_client", "tasks", "run", "hostile_tasks:app", "--threads", THREADS, "--processes"]
        offer = ["-c", f"import hostile_tasks; hostile_tasks.offer({self.offered()}, {TASKS}, {PAUSE})"]
        for name, words in {**{it: [*run, it] for it in PROCESSES}, "offers": offer}.items():
            if name not in self.processes:
                with open(self.path(f"log-{name}"), "ab") as log:
                    self.processes[name] = started([sys.executable, *map(str, words)], HERE, log, env=self.settings,
                                                   start_new_session=True)

    def kill(self, what):
        """Kills the process of this name with those that it began, or the server, the service, or all at once."""
        self.killed[what if isinstance(what, str) else "worker"] += 1
        if what == "server":
            with suppress(ProcessLookupError, IndexError):  # there is none yet, or the next one is to begin
                os.kill(self.services[-1].server, signal.SIGKILL)
        elif what == "service":
            self.services[-1].kill()
        elif what == "all":
            self.kill_all()
        else:
            self.kill_process(what)

    def kill_all(self):
        for it in [*self.processes]:
            with suppress(ProcessLookupError):
                os.killpg(self.processes[it].pid, signal.SIGKILL)
        for it in self.services[-1:]:
            it.kill_all()
        for it in [*self.processes]:
            self.kill_process(it)

    def kill_process(self, name):
        process = self.processes.pop(name)
        with suppress(ProcessLookupError):
            os.killpg(process.pid, signal.SIGKILL)
        process.communicate()

    def lines(self, name):
        return [it.split() for it in Path(self.path(name)).read_text("ascii").splitlines()]

    def offered(self):
        """The number of the first task that nobody has begun to offer."""
        with open(self.path("offers"), "rb") as file:
            file.seek(max(file.seek(0, os.SEEK_END) - 4_096, 0))
            lines = file.read().splitlines()
        return max((int(it.split()[1]) for it in lines if it.startswith(b"begins ")), default=-1) + 1

    def left(self):
        """How many tasks are not done."""
        with closing(sqlite3.connect(f"file:{self.path('tasks.db')}?mode=ro", uri=True, timeout=PATIENCE)) as db:
            return db.execute("SELECT count(*) FROM tasks").fetchone()[0]

    def end_workers(self):
        """Ends them in good order. Gives which processes these are."""
        workers = [self.processes[it] for it in PROCESSES]
        ended = {process_of(pid) for it in workers for pid in (it.pid, *children_of(it.pid))}
        for it in workers:
            it.terminate()
        self.assertEqual([it.wait(PATIENCE) for it in workers], [0] * len(workers))
        return ended

    def judge(self, ended):
        began, accepted = ({int(number) for what, number in self.lines("offers") if what == it}
                           for it in ("begins", "ends"))
        runs = defaultdict(dict)  # of each task, in the order of their beginnings, what became of them
        for what, number, *run in self.lines("runs"):
            runs[int(number)][tuple(run)] = what
        done = {it for it, its in runs.items() if "ends" in its.values()}
        self.assertEqual((accepted - done, done - began), (set(), set()))
        again = [(run, what) for its in runs.values() for run, what in [*its.items()][:-1] if what != "fails"]
        by_process = Counter(process for (process, _), _ in again)
        self.assertLessEqual(max(by_process.values(), default=0), THREADS, by_process)
        self.assertEqual(ended & {*by_process}, set())
        twice = sum(what == "ends" for _, what in again)
        lost = sum(len(it.all("lost-run")) for it in self.services)
        print(f"tasks: {len(accepted)} accepted and done, {len(done - accepted)} of {len(began - accepted)} in doubt; "
              f"killed {dict(self.killed)}, {lost} runs lost; {len(again)} run again, whose handler was killed, {twice} "
              "of which had done their work", flush=True)


def children_of(pid):
    return map(int, Path(f"/proc/{pid}/task/{pid}/children").read_text("ascii").split())
