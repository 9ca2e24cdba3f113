"""Takes jobs and runs a handler on each."""

import asyncio
import inspect
import logging
import math
import ssl
import threading
import time
from collections import deque
from collections.abc import Awaitable, Callable
from dataclasses import dataclass
from typing import Any, ClassVar, Generic, TextIO, TypeVar

from rb_broker_formats.protocol import MOST_HELD

from .answers import Job, LostRun, Report
from .broker import AsyncBroker, Broker, Session
from .dead_letters import DeadLetters
from .durations import FOR_EVER, Duration, Pauses, seconds
from .run import Run
from .servers import LOOPBACK, Servers
from .waiting import LoopTurns, ThreadTurns, blocking
from .work import Work

log = logging.getLogger(__name__)

LONG = 60.0  # seconds after which a handler that runs is logged, and may hang
SOON = 0.01  # seconds after which what the connection did not take is tried again

Function = Callable[[Job], object]
Handler = TypeVar("Handler", bound=Function)  # as callers give it: one that returns nothing, or is to be awaited
OnDead = TypeVar("OnDead", bound=Function)


class LeftForAnother(LookupError):
    """Why a job is none of a worker's: it fails, and another worker may know it. No traceback tells more."""


@dataclass(eq=False)
class _Call:
    """A handler that runs, or what is told of a dead job, which is of no session any more."""

    function: Function
    job: Job
    work: Work | None
    long: float  # when it is to be logged that it takes long
    late: float  # when it takes longer than a handler may
    is_told: bool = False  # whether it has ended as far as the server is told
    cancel: Callable[[], object] | None = None


def check_has_run(given: object) -> None:
    """Raises `TypeError` if what a function gives is yet to be run."""
    if given is not None and (inspect.isawaitable(given) or inspect.isgenerator(given) or inspect.isasyncgen(given)):
        raise TypeError(f"nothing awaits or runs what the function gives: {given!r}")


class BaseWorker(Generic[Handler, OnDead]):
    _session_of: ClassVar[type[Session]]
    _turns_of: ClassVar[Any]

    def __init__(self, handler: Handler, port: int | str, host: str = LOOPBACK, *, concurrency: int = 1,
                 wait: Duration = 1.0, patience: Duration = 10.0, timeout: Duration | None = None,
                 on_dead: OnDead | None = None, attempts: int | None = None,
                 on_lost_run: Callable[[LostRun], object] | None = None, tls: ssl.SSLContext | None = None,
                 pauses: Pauses | None = None, record: TextIO | None = None) -> None:
        """Connects to nothing yet. `wait` is how long the worker waits for a job at a time, which is a call, and so how
        long a stop takes at most while it is idle. While jobs run a wait is a fifth of that, since a server reads
        nothing behind a wait: the end of a job is told so much later at most. A reply that is `patience` late is taken
        for a lost session. A job that takes longer than `timeout` fails; its place is free once the handler returns.

        `port` may be `"gateway-1:7011,gateway-2:7011"`, gateways of one queue, whose `--wait` is no shorter. When one
        ends or gives a wait up, the worker fetches at the next one at once, and pauses only after a round in which none
        served. Jobs in hand are told where they were fetched. Beside them jobs are fetched one by one.

        `on_dead` is called with each job that failed and won't come back: the server said so, or its run is full; and
        with `attempts`, those of the server, also if the last one ended with a lost session, of which no reply tells.
        `on_lost_run` is called, in a thread of its own, when the server has lost a run."""
        if not 1 <= concurrency <= MOST_HELD:
            raise ValueError(f"from 1 to {MOST_HELD} jobs can run at the same time")
        self._handler, self._concurrency = handler, concurrency
        self._on_dead: Function | None = on_dead
        for it in (handler, on_dead or handler):
            self._check(it)
        if isinstance(on_dead, DeadLetters) and self._session_of._kind.is_async:
            self._on_dead = on_dead.keep
        self._servers = Servers(port, host, tls=tls, record=record)
        self._wait, self._patience = seconds(wait), seconds(patience)
        self._timeout = math.inf if timeout is None else seconds(timeout)
        self._attempts = math.inf if attempts is None else attempts
        self._pauses, self._run_known = pauses or Pauses(), Run(log, self._servers.current.name, on_lost_run)
        self._turns = self._turns_of(concurrency > 1 or timeout is not None)
        self._has_run = self._is_stopping = self._is_connecting = False
        self._visit: Work | None = None  # that of the session that fetches
        self._visits: tuple[Work, ...] = ()  # with those that fetch no more, while another one does
        self._next_visit = 0.0  # when the next may begin
        self._calls: set[_Call] = set()  # that run
        self._ends: deque[tuple[_Call, bool | None]] = deque()  # whether the job is done, or None if it ends the worker
        self._fault: BaseException | None = None  # of a handler or of the host, for the caller of `run`
        self.report = Report()

    def stop(self, *_: object) -> None:
        """Lets `run` end once the jobs in hand are settled. Other threads and signal handlers may call it, and it can
        be a signal's handler itself: `signal.signal(signal.SIGTERM, worker.stop)`."""
        self._is_stopping = True
        self._turns.wake()

    def _check(self, function: object) -> None:
        if not callable(function):
            raise TypeError(f"a function is to be called with each job, not {function!r}")
        if inspect.isgeneratorfunction(function) or inspect.isasyncgenfunction(function):
            raise TypeError(f"nothing runs a generator: {function!r}")
        if inspect.iscoroutinefunction(function) and not self._session_of._kind.is_async:
            raise TypeError(f"only an AsyncWorker awaits a coroutine function: {function!r}")

    async def _work(self) -> Report:
        """Works until `stop`, once for each worker. At the end no job is held, and the session has ended. What a
        handler raised that is no `Exception`, such as `SystemExit`, is raised once the other jobs in hand were told."""
        if self._has_run:
            raise RuntimeError("a worker runs once: make another one")
        self._has_run = True
        is_over = threading.Event()
        threading.Thread(target=self._watch, args=[is_over], name="rb_broker_client-watches", daemon=True).start()
        try:
            await self._turns.run(self._turn)
        finally:
            is_over.set()
            for work in self._visits:
                self._end(work)
            await self._turns.close()
        return self.report

    def _watch(self, is_over: threading.Event) -> None:
        # In a thread of its own: there is no turn while a handler hangs in the thread of `run`, or holds up the loop.
        while not is_over.wait(LONG / 4):
            for it in [*self._calls]:
                if it.long <= time.monotonic():
                    it.long = math.inf
                    log.warning("%s of job %s, attempt %d, has been running for %g seconds",
                                "the handler" if it.work else "on_dead", it.job.payload, it.job.attempt, LONG)

    def _turn(self) -> float | None:
        if self._may_connect() and time.monotonic() >= self._next_visit:
            self._is_connecting = True
            self._turns.begin(self._connect())
        self._settle()
        for work in self._visits:
            self._go_on(work)
        is_over = self._is_stopping and not (self._visits or self._is_connecting)
        return None if is_over and all(it.is_told for it in self._calls) else self._pause()

    def _may_connect(self) -> bool:
        return not (self._visit or self._is_stopping or self._is_connecting or len(self._calls) >= self._concurrency)

    def _go_on(self, work: Work) -> None:
        try:
            self._receive(work)
            if not self._turns.has_started:
                self._attend(work)
        except OSError as fault:
            text = "the session at %s was lost: %s"
            if work is not self._visit:
                if work.held:
                    log.warning(text, work.place, fault)
            elif work.session.greeting is None or work.held or not isinstance(fault, ConnectionError):
                self._run_known.away(text, fault)
            self._end(work)

    async def _connect(self) -> None:
        try:
            self._run_known.place = self._servers.current.name
            session = self._servers.session(self._session_of, self._patience)
            await session._connect()
            self._turns.watch(session)
            self._visit = Work(session, self._servers, self._wait, self.report, self._pauses, self._run_known,
                               self._bury, self._attempts)
            self._visits += (self._visit,)
        except OSError as fault:
            self._run_known.away("no server at %s: %s", fault)
            self._move_on()
        except Exception as fault:  # as of a host that is none
            self._break_off(fault)
        self._is_connecting = False
        self._turns.ended()

    def _move_on(self) -> None:
        # Another session is to fetch, unless the worker stops.
        self._visit = None
        pause = self._pauses.next() if self._servers.move_on() else 0
        self._next_visit = max(self._next_visit, time.monotonic() + pause)

    def _pause(self) -> float:
        now = time.monotonic()
        pause = FOR_EVER if self._timeout == math.inf else min([FOR_EVER, *(it.late - now for it in self._calls)])
        if self._next_visit > now or self._may_connect():
            pause = min(self._next_visit - now, pause)
        for work in self._visits:
            pause = min(self._late(work) - now, work.pause(), SOON if work.session.unsent else pause)
        return max(pause, 0)

    def _late(self, work: Work) -> float:
        # Even a reply to a wait.
        return work.session.due_since + self._patience + self._wait if work.is_served else math.inf

    def _receive(self, work: Work) -> None:
        answers = work.session.received()
        for answer in answers:
            work.answered(answer)
        if not answers and time.monotonic() >= self._late(work):
            raise TimeoutError(f"the server did not answer within {self._patience} seconds")
        for job in work.given:
            self._start(self._handler, job, work)
        work.given.clear()
        self._settle()

    def _bury(self, job: Job) -> None:
        if self._on_dead is not None:
            self._start(self._on_dead, job, None)

    def _attend(self, work: Work) -> None:
        running = len(self._calls)
        free = self._concurrency - running - sum(it.fetching for it in self._visits)
        questions = work.ask(free, running, self._is_stopping)
        if questions or work.session.unsent:
            work.session.post(*questions)
        if work.is_left or self._is_stopping and not work.is_served:
            self._end(work)
        elif work.is_used_up and work is self._visit and len(self._servers) > 1:
            self._move_on()

    def _end(self, work: Work) -> None:
        work.lost()
        work.session.close()
        self._visits = tuple(it for it in self._visits if it is not work)
        if work is self._visit:
            self._move_on()

    def _start(self, function: Function, job: Job, work: Work | None) -> None:
        now = time.monotonic()
        call = _Call(function, job, work, now + LONG, now + self._timeout if work else math.inf)
        self._calls.add(call)
        call.cancel = self._turns.start(self._run(call), len(self._calls) - 1)

    async def _run(self, call: _Call) -> None:
        job = call.job
        is_done: bool | None = False
        try:
            called = call.function(job)
            check_has_run(await called if self._session_of._kind.is_async and inspect.isawaitable(called) else called)
            is_done = True
        except LeftForAnother as fault:
            log.warning("%s", fault)
        except Exception:
            if call.work is None:
                log.error("on_dead failed for job %s", job.payload, exc_info=True)
            else:
                log.warning("attempt %d of job %s failed", job.attempt, job.payload, exc_info=True)
        except asyncio.CancelledError:
            if call.work is not None and not call.is_told:
                log.warning("attempt %d of job %s was cancelled", job.attempt, job.payload)
        except BaseException as fault:
            is_done = None
            self._break_off(fault)
        self._ends.append((call, is_done))
        self._turns.ended()

    def _break_off(self, fault: BaseException) -> None:
        self._fault, self._is_stopping = self._fault or fault, True

    def _settle(self) -> None:
        while self._ends:
            call, is_done = self._ends.popleft()
            self._calls.discard(call)
            if call.work is not None and not call.is_told:
                call.work.ended(call.job, is_done)
        if self._fault is not None and not (self._calls or any(it.held for it in self._visits)):
            raise self._fault
        for it in [*self._calls] if self._timeout < math.inf else ():
            if it.work and it.late <= time.monotonic():
                log.error("the handler of job %s, attempt %d, takes longer than %g seconds: the job fails",
                          it.job.payload, it.job.attempt, self._timeout)
                it.is_told, it.late = True, math.inf
                it.work.ended(it.job, False)
                if it.cancel:
                    it.cancel()


class AsyncWorker(BaseWorker[Callable[[Job], Awaitable[object]], Function]):
    """A `Worker` for asyncio, whose handler is a coroutine function, as `on_dead` may be. Each job is a task, which is
    cancelled after `timeout`. If `run` is cancelled so are these tasks, and the session ends with their jobs."""

    _session_of, _turns_of = AsyncBroker, LoopTurns
    run = BaseWorker._work


class Worker(BaseWorker[Callable[[Job], None], Callable[[Job], None]]):
    """Takes jobs and runs the handler on each, up to `concurrency` of them at the same time. A job is done when the
    handler returns, and fails when it raises an `Exception`. One of which the server has not read so comes back.

    With a `concurrency` of 1 and no `timeout` the handler runs in the thread of `run`, and else in up to 64 threads, so
    it must be safe to call several at a time. It begins sessions anew, after pauses that grow while none is served."""

    _session_of, _turns_of = Broker, ThreadTurns
    run = blocking(BaseWorker._work)
