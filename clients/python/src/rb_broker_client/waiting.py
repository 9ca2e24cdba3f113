"""How clients of both kinds wait, which are made of the same coroutines: those of one that blocks never suspend.

A worker takes turns. Each does what is to be done now, and waits for nothing. It gives within how many seconds the next
one is due though nothing happens, or None when all is done. The next one is taken as soon as something happens.
"""

import asyncio
import contextvars
import queue
import selectors
import socket
import threading
import time
import weakref
from collections.abc import Callable, Coroutine
from concurrent.futures import ThreadPoolExecutor
from contextlib import suppress
from functools import partial, wraps
from typing import Any, ParamSpec, TypeVar

Result = TypeVar("Result")
Words = ParamSpec("Words")
Task = Coroutine[Any, Any, object]
Turn = Callable[[], float | None]


def run(coroutine: Coroutine[Any, Any, Result]) -> Result:
    """Runs a coroutine that never suspends."""
    try:
        coroutine.send(None)
    except StopIteration as ended:
        return ended.value  # type: ignore[no-any-return]
    raise RuntimeError("a blocking client is to wait for an event loop")


def blocking(coroutine: Callable[Words, Coroutine[Any, Any, Result]]) -> Callable[Words, Result]:
    """The function that runs what this one gives."""

    @wraps(coroutine)
    def call(*words: Words.args, **options: Words.kwargs) -> Result:
        return run(coroutine(*words, **options))

    return call


class Blocking:
    """How a client waits that blocks its thread. A bell is acquired once it has been released."""

    is_async, lock, bell = False, threading.Lock, staticmethod(partial(threading.Semaphore, 0))

    async def apart(self, function: Callable[[], Result]) -> Result:
        return function()

    async def ready(self, of: socket.socket, is_to_send: bool, seconds: float | None) -> bool:
        selector: Any = getattr(selectors, "PollSelector", selectors.SelectSelector)()  # no descriptor more
        selector.register(of, selectors.EVENT_READ | selectors.EVENT_WRITE if is_to_send else selectors.EVENT_READ)
        return bool(selector.select(seconds))

    async def acquire(self, lock: Any, seconds: float) -> bool:
        return bool(lock.acquire(timeout=seconds))

    async def sleep(self, seconds: float) -> None:
        time.sleep(seconds)


class Looping:
    """How a client of asyncio waits."""

    is_async, lock, bell = True, asyncio.Lock, staticmethod(partial(asyncio.Semaphore, 0))
    sleep = staticmethod(asyncio.sleep)

    async def apart(self, function: Callable[[], Result]) -> Result:
        thread = ThreadPoolExecutor(1)  # those of the loop's executor may be busy
        running = asyncio.get_running_loop().run_in_executor(thread, function)
        thread.shutdown(wait=False)  # it ends once it has run this
        return await running

    async def ready(self, of: socket.socket, is_to_send: bool, seconds: float | None) -> bool:
        loop, bell = asyncio.get_running_loop(), self.bell()
        loop.add_reader(of, bell.release)  # which is always waited for
        if is_to_send:
            loop.add_writer(of, bell.release)
        try:
            return await self.acquire(bell, seconds)
        finally:
            loop.remove_reader(of)
            loop.remove_writer(of)

    async def acquire(self, lock: Any, seconds: float | None) -> bool:
        try:
            async with asyncio.timeout(seconds):
                return bool(await lock.acquire())
        except TimeoutError:
            return False


Kind = Blocking | Looping


class ThreadTurns:
    """Takes turns in the thread that calls `run`. Tasks run in this thread, or `apart`, in others. No lock is here: a
    signal handler would wait for ever for one that its thread holds. A byte in a socket does it."""

    has_started = False  # nothing that is waited for

    def __init__(self, is_apart: bool) -> None:
        self._is_apart, self._threads = is_apart, 0
        self._tasks: queue.SimpleQueue[Task | None] = queue.SimpleQueue()
        self._is_rung = True  # whether a byte is in the socket or about to be: one is enough. There is none yet

    async def run(self, turn: Turn) -> None:
        """Takes turns until all is done. Descriptors are made here: a process that was forked before has its own."""
        self._reader, self._writer = socket.socketpair()
        self._selector = selectors.DefaultSelector()
        for it in (self._reader, self._writer):
            weakref.finalize(self, it.close).atexit = False  # only once nobody can wake any more
        self._selector.register(self._reader, selectors.EVENT_READ, self._hear)
        self._is_rung = False  # before the first turn looks whether it is to stop
        while (pause := turn()) is not None:
            for key, _ in self._selector.select(pause):
                key.data()

    def wake(self) -> None:
        """Something has happened. Other threads and signal handlers may call it."""
        if not self._is_rung:
            self._is_rung = True
            self._writer.send(b".")

    def _hear(self) -> None:
        self._reader.recv(1)
        self._is_rung = False  # before the turn looks what happened: what comes then rings again

    def watch(self, session: Any) -> None:
        """Takes a turn when something comes in this session too, and reads it."""
        self._selector.register(session, selectors.EVENT_READ, session.receive)
        session.at_end.callback(self._selector.unregister, session)

    def begin(self, task: Task) -> None:
        """Runs a task of the worker itself."""
        run(task)

    def start(self, task: Task, running: int) -> Any:
        """Runs a task, beside so many others. Gives what cancels it, or None, as no thread can be cancelled."""
        if not self._is_apart:
            run(task)
            return
        self._tasks.put(task)
        if running >= self._threads:
            self._threads += 1
            # Those of an executor would be waited for at the end of the program, even if one hangs.
            threading.Thread(target=self._work, name=f"rb_broker_client-{self._threads}", daemon=True).start()

    def _work(self) -> None:
        for task in iter(self._tasks.get, None):
            run(task)

    def ended(self) -> None:
        if self._is_apart:
            self.wake()

    async def close(self) -> None:
        """Lets nothing run any more: threads end, each once its task has ended, and tasks of a loop are cancelled."""
        for _ in range(self._threads):
            self._tasks.put(None)


class LoopTurns:
    """As `ThreadTurns`, in callbacks of an event loop. A turn that starts tasks is followed by another as soon as each
    has run up to where it waits: what ends at once is told in one piece, and its place is free again."""

    def __init__(self, is_apart: bool) -> None:
        self._tasks: set[Any] = set()
        self._loop: Any = None  # the one in which it runs
        self._is_rung = self.has_started = False  # whether a turn is due in it, and whether this one has started tasks
        self._timer: asyncio.TimerHandle | None = None

    async def run(self, turn: Turn) -> None:
        self._turn, self._context = turn, contextvars.copy_context()  # in a copy of which each task runs
        self._loop = asyncio.get_running_loop()
        self._over = self._loop.create_future()
        self._take()
        await self._over

    def _take(self) -> None:
        self._is_rung = self.has_started = False
        if self._over.done():
            return
        try:
            pause = self._turn()
        except BaseException as fault:  # for the caller of `run`
            self._over.set_exception(fault)
            return
        if pause is None:
            self._over.set_result(None)
        elif self.has_started:
            self._ring()
        else:
            self._take_within(pause)

    def _ring(self) -> None:
        if not self._is_rung:
            self._is_rung = True
            self._loop.call_soon(self._take)

    def _take_within(self, pause: float) -> None:
        # A timer that is due too early takes a turn for nothing, which costs less than a timer for each turn.
        if self._timer is not None:
            if self._timer.when() <= self._loop.time() + pause:
                return
            self._timer.cancel()
        self._timer = self._loop.call_later(pause, self._on_time)

    def _on_time(self) -> None:
        self._timer = None
        self._take()

    def wake(self) -> None:
        if self._loop is not None:
            with suppress(RuntimeError):  # the loop is closed, and nothing runs any more
                self._loop.call_soon_threadsafe(self._take)

    def watch(self, session: Any) -> None:
        self._loop.add_reader(session.fileno(), self._feed, session)
        session.at_end.callback(self._loop.remove_reader, session.fileno())

    def _feed(self, session: Any) -> None:
        session.receive()
        self._take()

    def start(self, task: Task, running: int = 0) -> Any:
        self.has_started = True
        self._tasks.add(started := self._loop.create_task(task, context=self._context.copy()))
        return started.cancel

    begin = start

    def ended(self) -> None:
        self._tasks.discard(asyncio.current_task())
        self._ring()

    async def close(self) -> None:
        if self._timer is not None:
            self._timer.cancel()
        for it in self._tasks:
            it.cancel()
        await asyncio.gather(*self._tasks, return_exceptions=True)
