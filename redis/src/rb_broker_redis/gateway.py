"""A gateway: serves clients over TCP from a queue that stands in a Redis."""
from __future__ import annotations

import asyncio
import logging
import ssl
from collections.abc import Sequence

from .address import Address
from .calls import Calls
from .claim import claim_shards
from .link import is_set_in_time
from .protocol import SECOND
from .replicas import MOST_REPLICAS
from .session import Session
from .sharded_calls import ShardedCalls
from .upkeep import Upkeep
from .waits import Waits

LOG = logging.getLogger(__name__)

SECONDS_TO_END = 10.0
"""If no session ends for so long, those that are left are closed, and end with the gateway's lease."""


class Gateway:
    """Sessions of one queue, or of one name over several queues. Durations are nanoseconds."""

    def __init__(self, names: list[str], *, wait: int, patience: int, replicas: int | None) -> None:
        """`replicas` have each call before it is answered; for None all that are up."""
        self.asks_all_replicas = replicas is None
        first = MOST_REPLICAS if replicas is None else replicas
        self._queues = {it: Calls(it, replicas=first, patience=patience / SECOND) for it in names}
        queues = list(self._queues.values())
        self.calls: Calls | ShardedCalls
        if len(queues) == 1:
            self.calls, self.waits = queues[0], Waits(queues, wait)
        else:
            self.calls = ShardedCalls(queues, names)
            self.waits = Waits(queues, wait, self.calls.front_of, self.calls.seen)
        self._upkeeps: list[Upkeep] = []
        self._sessions: set[Session] = set()
        self._server: asyncio.base_events.Server
        self._unseated: dict[Session, int] = {}
        """Sessions that have no seat yet, with their numbers."""
        self._count = self._lost = 0
        self._all_ended = asyncio.Event()

    @property
    def replicas(self) -> int:
        """How many replicas have to have a call before it is answered."""
        return max(it.replicas for it in self._queues.values())

    @property
    def client_count(self) -> int:
        """How many clients it has."""
        return len(self._sessions)

    @property
    def numbers(self) -> list[int]:
        """Its number at each queue."""
        return [it.number for it in self._upkeeps]

    @property
    def is_joined(self) -> bool:
        """Whether all queues know this gateway."""
        return bool(self._upkeeps) and all(it.is_joined for it in self._upkeeps)

    @property
    def clock_fault(self) -> str:
        """What was last wrong with a node's clock."""
        return next((it.clock_fault for it in self._upkeeps if it.clock_fault), "")

    async def join(
        self, address: Address, queue: str, lease: int, policy: tuple[str, str, str], mode: str, most: Sequence[str],
        may_evict: bool,
    ) -> None:
        """Joins the queue of this name, or its shards. `policy`, `mode` and `most` are as `rb_join` of broker.lua takes
        them. Raises `OSError`, `ErrorAnswer`."""
        await claim_shards(address, queue, len(self._queues), next(iter(self._queues.values())).patience)
        self._upkeeps = [
            Upkeep(self, shard, address, name, calls, lease=lease // 1_000, policy=policy, mode=mode, most=most,
                   may_evict=may_evict)
            for shard, (name, calls) in enumerate(self._queues.items())]
        try:
            for upkeep in self._upkeeps:
                await upkeep.start()
        except BaseException:
            await self.leave()
            raise

    async def listen(self, host: str, port: int, tls: ssl.SSLContext | None) -> int:
        """Serves clients at this port, or at one of the system's choice for 0. Returns the port."""
        loop = asyncio.get_running_loop()
        self._server = await loop.create_server(
            lambda: Session(self), host, port, ssl=tls, backlog=1_024, reuse_address=True)
        return int(self._server.sockets[0].getsockname()[1])

    async def stop(self, grace: int) -> tuple[int, int]:
        """Ends in good order: no further client is served, waits are answered STOPPED, and sessions end, as soon as
        they hold nothing or when the time of grace is over. Returns how many sessions there were, and how many jobs
        were lost."""
        self._server.close()
        self._all_ended.clear()
        if grace:
            for session in list(self._sessions):
                session.retire()
            if self._sessions:
                await is_set_in_time(self._all_ended, grace / SECOND)
        self.stop_all()
        await self._let_end()
        if self._sessions:
            LOG.warning("%d sessions did not end, and will when the lease is over", len(self._sessions))
        await self.leave()
        return self._count, self._lost

    async def _let_end(self) -> None:
        """Waits until all sessions have ended, or none does any more."""
        before = len(self._sessions) + 1
        while self._sessions and len(self._sessions) < before:
            before = len(self._sessions)
            await is_set_in_time(self._all_ended, SECONDS_TO_END)

    async def leave(self) -> None:
        """Leaves the queues."""
        for upkeep in self._upkeeps:
            await upkeep.stop()

    def begin(self, session: Session) -> None:
        """A session begins. It is given a seat, at once or when the queues know this gateway again."""
        self._sessions.add(session)
        self._count += 1
        self._unseated[session] = self._count
        self.seat_all()

    def end(self, session: Session, lost: int) -> None:
        """A session has ended."""
        self._sessions.discard(session)
        self._unseated.pop(session, None)
        self._lost += lost
        if not self._sessions:
            self._all_ended.set()

    def seat_all(self) -> None:
        """Gives sessions their seats, if all queues know this gateway."""
        if self.is_joined:
            while self._unseated:
                session, number = self._unseated.popitem()
                session.sit(self.calls.seat_of(number) + b" ")

    def stop_all(self) -> None:
        """Ends all sessions in good order."""
        for session in list(self._sessions):
            session.stop()
