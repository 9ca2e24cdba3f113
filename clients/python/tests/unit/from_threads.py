"""The clients of asyncio as the tests of the others use them: a coroutine runs in the loop of a thread, to its end."""
import asyncio
import functools
import inspect
import sys
import threading

import rb_broker_client
from scripted import PATIENCE
from rb_broker_client import AsyncBroker, AsyncWorker


class FromThreads:
    """An object whose coroutine functions can be called from threads, as if they were functions."""

    def __init__(self, run, thing):
        self._run, self.thing = run, thing

    def __getattr__(self, name):
        value = getattr(self.thing, name)
        if not inspect.iscoroutinefunction(value):
            return value
        return lambda *words, **options: self._run(value(*words, **options))

    def __enter__(self):
        self._run(self.thing.__aenter__())
        return self

    def __exit__(self, *fault):
        self._run(self.thing.__aexit__(*fault))


def settle(client, of_job):
    """Calls `done` or `fail` of a job that this broker took."""
    return client._run(of_job()) if isinstance(client, FromThreads) else of_job()


def made(run, kind, *words, **options):
    """A client, which runs in a loop: a broker connects at once, and handlers of a worker are functions."""
    if kind is AsyncWorker:
        words = in_thread(words[0]), *words[1:]
        options = {name: in_thread(it) if name == "on_dead" and it else it for name, it in options.items()}
    client = FromThreads(run, kind(*words, **options))
    return client.__enter__() if kind is AsyncBroker else client


def in_thread(function):
    """A coroutine function that runs this function in a thread."""
    return lambda job: asyncio.get_running_loop().run_in_executor(None, function, job)


class LoopCase:
    """A test whose client is one of asyncio, of the kind `of`."""

    def setUp(self):
        loop = asyncio.new_event_loop()
        thread = threading.Thread(target=loop.run_forever, daemon=True)
        thread.start()
        for end in (loop.close, lambda: thread.join(PATIENCE), lambda: loop.call_soon_threadsafe(loop.stop)):
            self.addCleanup(end)
        run = lambda coroutine: asyncio.run_coroutine_threadsafe(coroutine, loop).result(10 * PATIENCE)
        self.kind = functools.partial(made, run, self.of)
        super().setUp()


def for_both_kinds(case):
    """Adds to the module of this test case one of the same tests, whose client is that of asyncio."""
    members = {"__module__": case.__module__, "of": getattr(rb_broker_client, f"Async{case.kind.__name__}")}
    twin = type(f"Async{case.__name__}", (LoopCase, case), members)
    setattr(sys.modules[case.__module__], twin.__name__, twin)
    return case
