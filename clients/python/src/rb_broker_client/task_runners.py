"""Other ways to run the tasks of an app: in processes, and in a test."""

import asyncio
import heapq
import multiprocessing
import os
import signal
import threading
import time
import uuid
from concurrent.futures import ThreadPoolExecutor
from dataclasses import astuple
from multiprocessing.connection import Connection
from typing import TYPE_CHECKING, Any, NamedTuple

from .answers import Job, Report
from .durations import Duration, from_text
from .task_store import going_on
from .waiting import Blocking, Looping, run

if TYPE_CHECKING:
    from .tasks import Tasks

LOOK = 0.5  # seconds between two looks at the processes


class _Child(NamedTuple):
    owner: str  # of its tasks, in the file
    process: Any
    report: Connection


class Processes:
    """So many processes, each of which runs tasks in so many threads. One is killed when a task of it takes longer than
    its `timeout`, whatever it does, and one that has ended is replaced. That task has failed; the others that the
    process ran are offered again. If a process dies by itself, each task that it ran has failed."""

    def __init__(self, app: "Tasks", threads: int, count: int) -> None:
        self._app, self._threads, self._count = app, threads, count
        self._children: list[_Child] = []

    def run(self) -> Report:
        """Runs them until the app is stopped. The report has what the processes told that were not killed."""
        reports = [Report()]
        while not self._app._is_over.is_set():
            for child in [*self._children]:
                self._look_after(child)
            while len(self._children) < self._count:
                self._children.append(self._begin())
            time.sleep(LOOK)  # and waits for no lock, which the handler of a signal could want
        for child in self._children:
            child.process.terminate()
        while self._children:
            for child in [*self._children]:
                child.process.join(LOOK / len(self._children))
                self._look_after(child)
                if child.process.exitcode == 0:
                    reports.append(child.report.recv())
        return Report(*map(sum, zip(*map(astuple, reports))))

    def _begin(self) -> _Child:
        context = multiprocessing.get_context("fork")
        owner, (reader, writer) = uuid.uuid4().hex, context.Pipe(duplex=False)
        process = context.Process(target=self._work, args=[owner, writer, os.getpid()])
        process.start()
        writer.close()
        return _Child(owner, process, reader)

    def _work(self, owner: str, report: Connection, parent: int) -> None:
        signal.signal(signal.SIGINT, signal.SIG_IGN)  # a terminal's is for all, and the parent tells
        signal.signal(signal.SIGTERM, self._app.stop)

        def watch() -> None:
            while os.getppid() == parent:
                time.sleep(LOOK)
            os._exit(1)  # the parent was killed, and nobody would end this process if it hangs

        threading.Thread(target=watch, daemon=True).start()
        report.send(self._app._run(self._threads, owner))

    @going_on()
    def _look_after(self, child: _Child) -> None:
        app, has_ended = self._app, child.process.exitcode is not None
        hung = [it for began, it in app._store.running(child.owner) if not has_ended and it.name in app._tasks
                and app._store.now() - began > app._tasks[it.name].longest]
        if hung:
            child.process.kill()
            child.process.join()
        if child.process.exitcode is None:
            return
        self._children.remove(child)
        text = "it took too long, and was ended with its process"
        for _, task in app._store.running(child.owner):
            if hung and task not in hung:
                app._store.release(task)
                app._offer(task)
                continue
            fault = TimeoutError(text if hung else f"its process ended with status {child.process.exitcode}")
            app._tell(app._middleware[::-1], "failed", task, fault)
            app._fail(task, fault)


class Testing:
    """Tasks that are offered to it are kept in memory, and run by `pass_by` alone."""

    def __init__(self, app: "Tasks") -> None:
        self._app, self._due, self.now = app, list[tuple[float, str]](), time.time()

    def pass_by(self, delay: Duration | str = 0) -> None:
        """Lets this time pass, and runs what falls due, in order."""
        until = self.now + from_text(delay)
        while self._due and self._due[0][0] <= until:
            due, payload = heapq.heappop(self._due)
            self.now = max(due, self.now)
            task = self._app._claim(Job(0, 0, 1, payload))
            if task is not None and self._app._tasks[task.name].is_async:
                with ThreadPoolExecutor(1) as thread:  # the caller's may have an event loop
                    thread.submit(lambda it: asyncio.run(self._app._attempt(Looping(), it)), task).result()
            elif task is not None:
                run(self._app._attempt(Blocking(), task))
        self.now = until

    def offer(self, payload: str, delay: float) -> None:
        """Keeps a task until its moment."""
        heapq.heappush(self._due, (self.now + delay, payload))
