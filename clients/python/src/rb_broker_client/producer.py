"""Offers jobs to a server that may be replaced by another."""

import copy
import logging
import os
import ssl
import time
from collections.abc import Callable
from contextlib import AbstractAsyncContextManager, AbstractContextManager, ExitStack
from dataclasses import replace
from typing import Any, ClassVar, TextIO
from weakref import WeakSet

from .answers import EndedError, FullError, Greeting, InDoubtError, LostRun, NotOfferedError, Offered, OutOfMemoryError
from .broker import AsyncBroker, Broker, Session
from .durations import FOR_EVER, Duration, Pauses, nanoseconds, seconds
from .pipeline import Pipeline
from .request import Request
from .run import Run
from .servers import LOOPBACK, Servers
from .waiting import blocking

log = logging.getLogger(__name__)

LEAST = 1e-3  # seconds of a try whose time is over


class BaseProducer:
    _session_of: ClassVar[type[Session]]

    def __init__(self, port: int | str, host: str = LOOPBACK, *, may_double: bool = False, patience: Duration = 30.0,
                 on_lost_run: Callable[[LostRun], object] | None = None, tls: ssl.SSLContext | None = None,
                 pauses: Pauses | None = None, record: TextIO | None = None) -> None:
        """Connects to nothing yet. `port` may be `"gateway-1:7011,gateway-2:7011"`, gateways of one queue: where one is
        lost, the next session is at the next. An offer takes `patience` at most, whatever it waits for. `on_lost_run`
        is called, in a thread of its own, when the server has lost a run. `tls` and `record` are a `Broker`'s."""
        self._servers = Servers(port, host, tls=tls, record=record)
        self._may_double, self._patience, self._is_direct = may_double, seconds(patience), tls is None
        self._pauses = copy.copy(pauses or Pauses(longest=2.0))  # of which each offer has a copy of its own
        self._pauses.reset()
        self._run, self._kind = Run(log, self._servers.current.name, on_lost_run), self._session_of._kind
        self._is_closed = False
        self._turn: Any = self._kind.lock()
        self._pipeline: Pipeline | None = None  # changed in turn alone
        _PRODUCERS.add(self)

    async def _offer(self, payload: str, *, delay: Duration = 0) -> Offered:
        """Offers a job that expires this delay after the server has accepted it."""
        request, delay_ns = Request.offer(payload, delay=delay), nanoseconds(delay)
        deadline, doubt, pauses = time.monotonic() + self._patience, None, copy.copy(self._pauses)
        while True:
            try:
                return await self._try(request, deadline,
                                       lambda it: self._run.offered(it.id, it.expires_at_ns - delay_ns))
            except (InDoubtError, NotOfferedError, FullError, OutOfMemoryError) as fault:
                if isinstance(fault, InDoubtError):
                    doubt = doubt or fault
                pause = pauses.next()
                if doubt and not self._may_double or time.monotonic() + pause > deadline:
                    raise doubt or fault  # once a try is in doubt, no later one takes that back
            await self._kind.sleep(pause)

    async def _close(self) -> None:
        """Ends the session, if there is one, once the offers of others are answered."""
        self._is_closed = True
        await self._kind.acquire(self._turn, FOR_EVER)
        pipeline, self._pipeline = self._pipeline, None
        self._turn.release()
        if pipeline is not None:
            pipeline.leave()
            await self._kind.acquire(pipeline.end, FOR_EVER)

    async def _try(self, request: Request[Offered], deadline: float, see: Callable[[Offered], None]) -> Offered:
        while True:
            pipeline = await self._served(request, deadline)
            try:
                offered = await pipeline.ask(request, deadline, see)
                if offered is not None:  # or else it was left, or lost, since it was had
                    return replace(offered, greeting=pipeline.session.greeting)
            except FullError:
                pipeline.leave()  # nothing more comes of this run, which ends when its clients have left
                raise
            except OSError as fault:
                ended = pipeline.session.greeting if isinstance(fault, EndedError) else None
                if not await self._is_continued(ended, request, deadline):
                    raise InDoubtError(f"{request} was accepted or not: {fault}") from fault

    async def _is_continued(self, ended: Greeting | None, request: Request[Offered], deadline: float) -> bool:
        # A run that ends in good order answers what it carries out. Behind TLS a proxy may have taken a reply with it.
        pauses = copy.copy(self._pauses)
        while ended is not None and self._is_direct:
            try:
                pipeline = await self._served(request, deadline)
                now = pipeline.session.greeting
                if now is None or now.run != ended.run:
                    return (now is not None and now.run > ended.run and now.lost == ended.lost
                            and now.at_ns >= ended.at_ns)
                if pipeline.session.is_lost():  # a run that ends lets clients in for some more milliseconds
                    pipeline.leave()
            except NotOfferedError:
                pass  # the next server is not there yet
            if time.monotonic() + (pause := pauses.next()) > deadline:
                break
            await self._kind.sleep(pause)
        return False

    async def _served(self, request: Request[Offered], deadline: float) -> Pipeline:
        # One that is served already, so that an offer is in doubt only while it is answered.
        while (pipeline := self._pipeline) is None or pipeline.is_left:
            began = time.monotonic()
            if not await self._kind.acquire(self._turn, max(deadline - began, 0)):
                raise NotOfferedError(f"{request} was not offered: another offer has been looking for the server at "
                                      f"{self._run.place} for {time.monotonic() - began:.1f} seconds")
            try:
                if self._is_closed:
                    raise RuntimeError("the producer is closed")
                if self._pipeline is pipeline:  # nobody has begun the next one meanwhile
                    await self._go_on(deadline)
            except OSError as fault:
                raise NotOfferedError(f"{request} was not accepted: {fault}") from fault
            finally:
                self._turn.release()
        return pipeline

    async def _go_on(self, deadline: float) -> None:
        # At the next server, if one has served, and at once at each further one. They share the time that is left.
        if self._pipeline is not None:
            self._servers.move_on()
        for left in range(len(self._servers), 0, -1):
            now = time.monotonic()
            try:
                return await self._begin_pipeline(now + max(deadline - now, LEAST) / left)
            except OSError:
                self._servers.move_on()
                if left == 1:
                    raise

    async def _begin_pipeline(self, deadline: float) -> None:
        self._run.place = self._servers.current.name
        session = self._servers.session(self._session_of, max(deadline - time.monotonic(), LEAST))
        with ExitStack() as undo:
            undo.callback(session.close)
            await session._connect()
            began = time.monotonic()
            session.patience = max(deadline - began, LEAST)
            try:
                await session._ask(Request.greeting())
            except TimeoutError:
                raise TimeoutError(f"connected, but all workers of the server at {self._run.place} were busy for "
                                   f"{time.monotonic() - began:.1f} seconds") from None
            undo.pop_all()
        self._pipeline = Pipeline(session)
        self._servers.served()
        self._run.served(session.greeting)

    def _begin_anew(self) -> None:
        # In a forked process, whose other threads are gone, whatever they were at. The session is the other process's.
        self._turn = self._kind.lock()
        pipeline, self._pipeline = self._pipeline, None
        if pipeline is not None:
            pipeline.session.at_end.close()


_PRODUCERS: WeakSet[BaseProducer] = WeakSet()  # of this process
if hasattr(os, "register_at_fork"):
    os.register_at_fork(after_in_child=lambda: [*map(BaseProducer._begin_anew, _PRODUCERS)])


class AsyncProducer(BaseProducer, AbstractAsyncContextManager["AsyncProducer"]):
    """A `Producer` for asyncio, which tasks of one event loop may share."""

    _session_of = AsyncBroker
    offer, close = BaseProducer._offer, BaseProducer._close

    async def __aexit__(self, *fault: object) -> None:
        await self.close()


class Producer(BaseProducer, AbstractContextManager["Producer"]):
    """Offers jobs, and connects again when its connection is lost. Threads may share it: their offers go out as they
    come, over one session, which an offer begins if there is none. An offer that was surely not accepted is tried
    again, for up to `patience`. If the connection is lost before the reply nobody can tell. Then it raises
    `InDoubtError`, or with `may_double=True` offers again: each job at least once, and perhaps twice."""

    _session_of = Broker
    offer, close = blocking(BaseProducer._offer), blocking(BaseProducer._close)

    def __exit__(self, *fault: object) -> None:
        self.close()
