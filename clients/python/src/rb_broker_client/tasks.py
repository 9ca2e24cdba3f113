"""Durable tasks: functions that are called later, over a file of SQLite and a broker."""

import asyncio
import inspect
import json
import logging
import math
import os
import random
import ssl
import threading
import traceback
import uuid
from collections.abc import Callable, Iterator
from contextlib import contextmanager
from datetime import datetime
from functools import partial
from typing import Any

from .answers import BrokerError, Greeting, Job, RefusedError, Report
from .durations import Duration, from_text, seconds
from .producer import Producer
from .servers import LOOPBACK
from .task_runners import Processes, Testing
from .task_store import STALE, Store, StoredTask, going_on
from .waiting import Blocking, Kind, Looping, blocking
from .worker import AsyncWorker, LeftForAnother, Worker, check_has_run

__all__ = ["Backoff", "Middleware", "RetryLater", "StoredTask", "Task", "Tasks", "Testing", "exponential"]

log = logging.getLogger(__name__)

Backoff = Callable[[int], float]  # the seconds until the next attempt, after so many that failed


class RetryLater(Exception):
    """A task that raises it has failed, and is tried again after this delay, unless it was its last attempt."""

    def __init__(self, delay: Duration | str) -> None:
        super().__init__(f"to be tried again after {delay}")
        self.delay = from_text(delay)


def exponential(first: Duration | str, most: Duration | str = "1h", jitter: float = 0.2) -> Backoff:
    """Delays that double, up to `most`, and then are longer or shorter by up to this part, at random."""
    least, longest = from_text(first), from_text(most)

    def backoff(failures: int) -> float:
        return min(least * 2.0 ** min(failures - 1, 60), longest) * random.uniform(1 - jitter, 1 + jitter)

    return backoff


class Middleware:
    """Is told of each attempt of a task, in the thread or loop in which it runs. What it raises is only logged."""

    def before(self, task: StoredTask) -> None:
        """The function is to be called."""

    def after(self, task: StoredTask) -> None:
        """It has returned."""

    def failed(self, task: StoredTask, fault: BaseException) -> None:
        """It has raised this. That it took too long, or that its process died, is told in the process that watches."""


class Task:
    """A function that can be called later. To call it calls the function now."""

    def __init__(self, app: "Tasks", function: Callable[..., Any], name: str | None, attempts: int, backoff: Backoff,
                 timeout: Duration | str | None) -> None:
        self.name = name or f"{function.__module__}.{function.__qualname__}"
        self.timeout = math.inf if timeout is None else seconds(from_text(timeout))
        self.function, self.attempts, self.backoff, self._app = function, attempts, backoff, app
        self.is_async, self._signature = inspect.iscoroutinefunction(function), inspect.signature(function)
        self.longest = self.timeout + STALE * self.is_async  # until its process is killed, if it can't be cancelled
        if inspect.isgeneratorfunction(function) or inspect.isasyncgenfunction(function):
            raise TypeError(f"a task is a function that runs to its end, not {function!r}")
        if "key" in self._signature.parameters:
            raise TypeError(f"`key` is the key of a task, and no parameter of {function!r}")

    def __call__(self, *words: Any, **options: Any) -> Any:
        return self.function(*words, **options)

    def later(self, delay: Duration | str, *words: Any, key: str | None = None, **options: Any) -> str | None:
        """Calls the function after this delay, such as `"2h"`. The task is in the file when this returns. Gives its id,
        or None if one of its key waits or runs. Raises `TypeError` for arguments that it, or JSON, can't take."""
        self._signature.bind(*words, **options)
        arguments, due = json.dumps([words, options]), self._app._store.now() + from_text(delay)
        task = self._app._store.add(self.name, arguments, key, due)
        if task is not None:
            self._app._offer(task)
        return task.id if task else None

    def at(self, moment: datetime, *words: Any, key: str | None = None, **options: Any) -> str | None:
        """The same at a moment, which must have a time zone. One that has passed is now."""
        if moment.tzinfo is None:
            raise ValueError(f"a moment has a time zone: {moment}")
        return self.later(max(moment.timestamp() - self._app._store.now(), 0), *words, key=key, **options)


class Tasks:
    """The tasks of a file, and the broker that says when each is due.

    A task is in the file before it is offered to the broker, and is out of it before the broker is told that it is
    done. What the broker or a worker loses is offered again. That no task is lost rests on this file and on SQLite, and
    on no proof. One can be run twice: if its worker is killed after its work, or stands still for ten seconds."""

    def __init__(self, path: str | os.PathLike[str], port: int | str, host: str = LOOPBACK, *, patience: Duration = 5.0,
                 overdue: Duration = 60.0, tls: ssl.SSLContext | None = None) -> None:
        """`port` may be addresses, as a worker's. `patience` is how long an offer looks for the broker; a worker offers
        later what was not. A task that is `overdue` by so much is offered again, since the broker may have lost it."""
        self._store, self._overdue = Store(path), seconds(overdue)
        self._producer = Producer(port, host, patience=patience, may_double=True, tls=tls)
        self._place: Any = {"port": port, "host": host, "tls": tls}
        self._send: Callable[[str, float], Greeting | None] = lambda payload, delay: self._producer.offer(
            payload, delay=delay).greeting
        self._tasks: dict[str, Task] = {}
        self._middleware: list[Middleware] = []
        self._owner, self._in_hand, self._is_over = "", set[str](), threading.Event()
        self._worker: Worker | AsyncWorker | None = None
        self._producer._run.on_greeting = self._greeted

    def task(self, *, attempts: int = 8, backoff: Backoff = exponential("10s"),
             timeout: Duration | str | None = None, name: str | None = None) -> Callable[[Callable[..., Any]], Task]:
        """Makes a task of a function or a coroutine function. `backoff` says how long after a failed attempt the next
        one is. One that takes longer than `timeout` fails: a coroutine is cancelled, and any other function ends with
        its process, if `run` has `processes`. Its name, by default with that of its module, is in the file: keep it."""
        def make(function: Callable[..., Any]) -> Task:
            task = Task(self, function, name, attempts, backoff, timeout)
            if self._tasks.setdefault(task.name, task) is not task:
                raise ValueError(f"there is a task of this name: {task.name}")
            return task

        return make

    def use(self, *middleware: Middleware) -> None:
        """Tells these of each attempt, the first one first; and the last one first of what became of it."""
        self._middleware += middleware

    def cancel(self, key: str) -> bool:
        """Cancels the task of this key. Gives whether there was one that had not begun."""
        return self._store.cancel(key)

    def dead(self) -> list[StoredTask]:
        """The tasks that failed in their last attempt, the oldest first. `error` has its traceback."""
        return self._store.dead()

    def again(self, *ids: str) -> int:
        """Offers dead tasks again, with all their attempts. Gives how many: not one whose key another task has."""
        revived = [it for it in (self._store.revive(id) for id in ids) if it is not None]
        for it in revived:
            self._offer(it)
        return len(revived)

    @contextmanager
    def testing(self) -> Iterator[Testing]:
        """Has tasks run in this process alone, for a test: `with app.testing() as moments: ..`."""
        moments, kept = Testing(self), (self._store, self._send)
        self._store, self._send = Store(":memory:", lambda: moments.now), moments.offer
        try:
            yield moments
        finally:
            self._store, self._send = kept

    def run(self, threads: int = 4, processes: int = 0) -> Report:
        """Runs tasks until `stop`, so many at the same time, in threads, or in an event loop if there are coroutine
        functions; in each of so many `processes`, if there are any. Several such calls may run the tasks of a file."""
        return Processes(self, threads, processes).run() if processes else self._run(threads, uuid.uuid4().hex)

    def stop(self, *_: object) -> None:
        """Lets `run` end once the tasks in hand have ended. It can be a signal's handler."""
        self._is_over.set()
        if self._worker is not None:
            self._worker.stop()

    def close(self) -> None:
        """Ends the session of what offers."""
        self._producer.close()

    def _run(self, threads: int, owner: str) -> Report:
        worker: Worker | AsyncWorker = (
            AsyncWorker(partial(self._handle, Looping()), concurrency=threads, **self._place)
            if any(it.is_async for it in self._tasks.values())
            else Worker(blocking(partial(self._handle, Blocking())), concurrency=threads, **self._place))
        worker._run_known.on_greeting = self._greeted
        self._owner, self._worker = owner, worker
        keepers = [threading.Thread(target=it, name="rb_broker_client-keeps", daemon=True)
                   for it in (self._keep_alive, self._keep_offered)]
        for it in keepers:
            it.start()
        try:
            if self._is_over.is_set():
                return Report()
            return asyncio.run(worker.run()) if isinstance(worker, AsyncWorker) else worker.run()
        finally:
            self._is_over.set()
            for it in keepers:
                it.join()

    def _offer(self, task: StoredTask) -> bool:
        try:
            greeting = self._send(f"{self._store.file}.{task.id}.{task.turn}", max(task.due - self._store.now(), 0))
        except (BrokerError, OSError, ValueError) as fault:
            log.warning("task %s of %s is offered later, from the file: %s", task.id, task.name, fault)
            return isinstance(fault, ValueError) or type(fault) is RefusedError  # which is of this task alone
        self._store.sent(task, greeting)
        return True

    def _greeted(self, greeting: Greeting) -> None:
        if lost := self._store.greeted(greeting):
            log.warning("the broker has lost a run, and %d tasks that it may have had are offered again", lost)

    async def _handle(self, kind: Kind, job: Job) -> None:
        task = await kind.apart(partial(self._claim, job))
        if task is not None:
            await self._attempt(kind, task)

    async def _attempt(self, kind: Kind, task: StoredTask) -> None:
        end: Callable[[], None] = partial(self._store.done, task)
        self._in_hand.add(task.id)
        try:
            await self._call(kind, task, self._tasks[task.name])
        except (Exception, SystemExit) as fault:
            end = partial(self._fail, task, fault)
        except BaseException:  # such as a cancellation
            await kind.apart(partial(self._store.release, task))
            raise
        finally:
            self._in_hand.discard(task.id)
        await kind.apart(end)

    async def _call(self, kind: Kind, task: StoredTask, function: Task) -> None:
        words, options = json.loads(task.arguments)
        if function.is_async:
            with self._told(task):
                async with asyncio.timeout(None if function.timeout == math.inf else function.timeout):
                    check_has_run(await function.function(*words, **options))
        else:
            await kind.apart(self._told(task)(lambda: check_has_run(function.function(*words, **options))))

    @contextmanager
    def _told(self, task: StoredTask) -> Iterator[None]:
        self._tell(self._middleware, "before", task)
        try:
            yield
        except BaseException as fault:
            self._tell(self._middleware[::-1], "failed", task, fault)
            raise
        self._tell(self._middleware[::-1], "after", task)

    def _tell(self, middleware: list[Middleware], what: str, *words: object) -> None:
        for it in middleware:
            try:
                getattr(it, what)(*words)
            except Exception:
                log.exception("%s of %r failed", what, it)

    def _claim(self, job: Job) -> StoredTask | None:
        file, _, rest = job.payload.partition(".")
        id, _, turn = rest.partition(".")
        if file != self._store.file or not turn.isdecimal():
            raise LeftForAnother(f"{job.payload} is no task of this file, and is left for another worker")
        task = self._store.claim(id, int(turn), self._owner)
        if task is None or task.state == "claimed" and task.name in self._tasks:
            return task  # None if it was done, or is cancelled, or was offered more than once
        if task.state == "claimed":
            log.warning("task %s is left for another worker: no function here is named %s", task.id, task.name)
            self._store.release(task)
        # Or else it runs elsewhere: if that was killed nobody else would come back to it so soon.
        self._store.sent(task, self._send(job.payload, STALE))
        return None

    def _fail(self, task: StoredTask, fault: BaseException) -> None:
        known, failures = self._tasks[task.name], task.failures + 1
        error, is_last = "".join(traceback.format_exception(fault)), failures >= known.attempts
        try:
            delay = fault.delay if isinstance(fault, RetryLater) else 0 if is_last else float(known.backoff(failures))
        except Exception as wrong:  # as it would each time, and the task would never die
            is_last, error = True, error + "".join(traceback.format_exception(wrong))
        if is_last:
            log.error("task %s of %s failed in its last attempt, %d\n%s", task.id, task.name, failures, error)
            self._store.bury(task, error)
            return
        log.warning("attempt %d of task %s of %s failed; the next is in %.1f seconds\n%s", failures, task.id, task.name,
                    delay, error)
        self._offer(self._store.retry(task, self._store.now() + delay, error))

    def _keep_alive(self) -> None:
        while not self._is_over.wait(STALE / 5):
            with going_on():
                self._store.beat(self._owner, *self._in_hand)

    def _keep_offered(self) -> None:
        while True:
            with going_on():
                while found := self._store.overdue(self._overdue):
                    if self._is_over.is_set() or not all(self._offer(it) for it in found):
                        break  # the rest later
            if self._is_over.wait(STALE / 2):
                return
