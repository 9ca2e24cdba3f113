"""Keeps a gateway connected to its queue: the links, the functions, the lease."""
from __future__ import annotations

import asyncio
import contextlib
import logging
import re
import time
from collections.abc import Awaitable, Callable, Sequence
from secrets import token_hex
from typing import TYPE_CHECKING, Any, cast
from uuid import uuid4

from rb_broker_formats.dates import date_text

from .address import Address
from .calls import UNKNOWN, Calls, needs_new_link
from .clock import NodeClock
from .keys import channel_of, keys_of
from .leases import Leases
from .library import load_functions, name_of
from .link import Link, closed_on_failure, is_set_in_time
from .place import connect_to_queue
from .replicas import Replicas
from .resp import Answer, ErrorAnswer
from .words import NO_POLICY

if TYPE_CHECKING:
    from .gateway import Gateway

LOG = logging.getLogger(__name__)

SECONDS_BETWEEN_TRIES = 0.2
SECONDS_BETWEEN_PINGS = 5.0
SECONDS_BETWEEN_LOOKS = 0.5
"""At what the Sentinels say of the replicas."""


class Upkeep:
    """Of one queue of a gateway. That is told what is published about the queue, when a publish may be lost, when the
    sessions have ended that there are, and when others may begin."""

    def __init__(
        self, gateway: Gateway, shard: int, address: Address, queue: str, calls: Calls, *, lease: int,
        policy: tuple[str, str, str], mode: str, most: Sequence[str], may_evict: bool,
    ) -> None:
        self._gateway, self._shard = gateway, shard
        self._address, self._queue, self._calls = address, queue, calls
        self._lease, self._policy, self._mode, self._most, self._may_evict = lease, policy, mode, most, may_evict
        self.number = 0
        """The gateway's at this queue."""
        self.clock_fault = ""
        """What was wrong with the node's clock when that was last seen."""
        self._token = token_hex(32)
        """What tells it from another that gets this number, if the Redis loses what it knows. A value of the queue's state
        that is so long makes that a table, in which each field is found at once."""
        self._leases, self._clock = Leases(lease / 3), NodeClock()
        self._name = f"rb_broker-{uuid4().hex}".encode()
        """That of its links, which no other gateway has."""
        self._keys = keys_of(queue)
        self._link: Link | None = None
        self.is_joined = False
        """Whether the queue knows this gateway."""
        self._tasks: list[asyncio.Task[None]] = []
        self._must_join = asyncio.Event()
        calls.gateway_is_unknown = self._is_unknown

    async def start(self) -> None:
        """Connects, and joins the queue. Raises `OSError`, `ErrorAnswer`."""
        link = await self._connect()
        try:
            await self._join(link)
        except BaseException:
            link.close()
            await link.lost.wait()
            raise
        self._link = link
        tasks = [self._keep_link(link), self._keep_subscribed(), self._keep_lease(), self._watch()]
        if self._gateway.asks_all_replicas:
            tasks.append(self._follow_replicas())
        self._tasks = [asyncio.ensure_future(it) for it in tasks]

    async def stop(self) -> None:
        """Leaves the queue."""
        if self._link:
            with contextlib.suppress(OSError, ErrorAnswer):  # the lease ends by itself
                await self._call(self._link, "rb_leave", self.number)
        for task in self._tasks:
            task.cancel()
        await asyncio.gather(*self._tasks, return_exceptions=True)
        self._close_link()

    async def _connect(self) -> Link:
        link = await connect_to_queue(self._address, self._queue, self._calls.patience)
        with closed_on_failure(link):
            await self._cut_off(link)
            await self._find_evicting(link)
            await self._warn_of_losses(link)
            await load_functions(link)
        return link

    async def _cut_off(self, link: Link) -> None:
        """Ends the link before at the node's side too. What it was sent and has not carried out yet, it never does; so
        the ends of the sessions that are in doubt come after all that they did."""
        for client in (await link.ask("CLIENT", "LIST", "TYPE", "NORMAL")).split(b"\n"):
            if b" name=%b " % self._name in client:
                await link.ask("CLIENT", "KILL", "ID", client.partition(b" ")[0][len(b"id="):])
        await link.ask("CLIENT", "SETNAME", self._name)

    async def _find_evicting(self, link: Link) -> None:
        """Raises an `ErrorAnswer` EVICTS if this Redis may throw queues away, and was not said to."""
        if not self._may_evict:
            found = re.search(rb"^maxmemory_policy:(.*)\r$", await link.ask("INFO", "memory"), re.M)
            if found and found[1] != b"noeviction":
                raise ErrorAnswer(f"EVICTS {found[1].decode()}")

    async def _warn_of_losses(self, link: Link) -> None:
        """Says it where the Redis has no file of all that it did, and where replies don't wait for all replicas: then
        one that starts again, or takes over, may not have what was done."""
        if re.search(rb"^aof_enabled:0\r$", await link.ask("INFO", "persistence"), re.M):
            LOG.warning("the Redis of queue %s has appendonly no: it may lose what was answered when it is killed",
                        self._queue)
        if not self._gateway.asks_all_replicas:
            found = re.search(rb"^connected_slaves:(\d+)", await link.ask("INFO", "replication"), re.M)
            if found and int(found[1]) > self._calls.replicas:
                LOG.warning("--replicas %d, but the Redis of queue %s has %d: a fail-over to another may lose what was"
                            " answered", self._calls.replicas, self._queue, int(found[1]))

    async def _call(self, link: Link, function: str, *args: bytes | str | int) -> Any:
        return await link.ask("FCALL", name_of(function), len(self._keys), *self._keys, *args)

    async def _join(self, link: Link) -> None:
        """Gives the gateway a new number."""
        joined = await self._call(link, "rb_join", self._lease, *self._policy, self._mode, self._token, *self._most)
        number, pace, period, attempts = joined
        self.number = int(number)
        self._policy = pace.decode(), period.decode(), attempts.decode()
        self._mode, self._most = self._mode.replace("change", ""), self._most[:1]
        self._calls.join(self.number)
        self._leases.forget()
        self.is_joined = True
        self._gateway.seat_all()

    async def _join_anew(self, link: Link) -> None:
        """Joins again. If the queue has been given another policy meanwhile, that is kept."""
        try:
            await self._join(link)
        except ErrorAnswer as fault:
            if fault.code != "POLICY":
                raise
            self._policy = NO_POLICY
            await self._join(link)

    def _close_link(self) -> None:
        if self._link:
            self._link.close()

    async def _keep_link(self, link: Link) -> None:
        while True:
            self._link = link
            self._leases.forget()  # others may not have found the Redis again
            self._calls.use(link)
            self._gateway.waits.look_now(self._shard)
            await link.lost.wait()
            self._link = None
            self._calls.use(None)
            LOG.warning("the Redis of queue %s is lost", self._queue)
            link = await self._until_done(self._connect_again)
            LOG.warning("the Redis of queue %s is back", self._queue)

    async def _connect_again(self) -> Link:
        link = await self._connect()
        with closed_on_failure(link):
            if self.is_joined:
                await self._renew_known(link)
            if not self.is_joined:
                await self._join_anew(link)
        return link

    async def _renew_known(self, link: Link) -> None:
        """Renews the lease, if the queue knows this gateway: a Redis that has lost calls may have lost its joining."""
        try:
            await self._renew(link)
        except ErrorAnswer as fault:
            if fault.code not in UNKNOWN:
                raise
            self._is_unknown()

    async def _renew(self, link: Link, *late: bytes) -> list[bytes]:
        """Renews the lease, and ends sessions of a late gateway. Gives what is told of the others."""
        clients = self._gateway.client_count
        renewed = await self._call(link, "rb_renew", self.number, self._lease, self._token, clients, *late)
        ended, clock, last, *others = cast(list[bytes], renewed)
        if fault := self._clock.look(int(clock), int(last), time.monotonic_ns()):
            self.clock_fault = f"at {date_text(time.time_ns())[:19]} the clock of the node of {self._queue} {fault}"
            LOG.warning("the clock at queue %s %s", self._queue, fault)
        if ended:
            LOG.warning("a gateway's lease is over: its sessions have ended, and their jobs come back")
        return others

    async def _keep_subscribed(self) -> None:
        while True:
            link = await self._until_done(self._subscribe)
            self._gateway.waits.look_now(self._shard)
            try:
                while not await is_set_in_time(link.lost, SECONDS_BETWEEN_PINGS):
                    await link.ask("PING")
            except (OSError, ErrorAnswer):
                pass  # nothing is heard for another reason than that nothing is published
            finally:
                link.close()

    async def _subscribe(self) -> Link:
        link = await connect_to_queue(
            self._address, self._queue, self._calls.patience,
            lambda message: self._gateway.waits.heard(message, self._shard))
        with closed_on_failure(link):
            await link.ask("SUBSCRIBE", channel_of(self._queue))
        return link

    async def _keep_lease(self) -> None:
        while True:
            await is_set_in_time(self._must_join, self._lease / 3e6)
            self._must_join.clear()
            link = self._link
            if not link:
                continue
            try:
                if not self.is_joined:
                    await self._join_anew(link)
                self._leases.look(await self._renew(link))
                while late := self._leases.late():
                    self._leases.update(await self._renew(link, *late))
                self._gateway.waits.look_now(self._shard)  # the node's clock may have been set
            except OSError:
                link.close()
            except ErrorAnswer as fault:
                if fault.code in UNKNOWN:
                    self._is_unknown()
                elif needs_new_link(fault):
                    self._calls.leave()
                else:
                    LOG.warning("the lease is not renewed: %s", fault)

    def _is_unknown(self) -> None:
        """The Redis does not know this gateway, as after FLUSHALL, or when another has found its lease to be over. Its
        sessions have ended, and it joins again."""
        if self.is_joined:
            LOG.error("queue %s does not know this gateway any more: its sessions have ended", self._queue)
            self.is_joined = False
            self._gateway.stop_all()
            self._must_join.set()

    async def _watch(self) -> None:
        """Gives a Redis up that doesn't answer."""
        while True:
            await asyncio.sleep(0.5)
            if self._calls.is_late():
                self._close_link()

    async def _follow_replicas(self) -> None:
        """Lets replies wait for all replicas that are up, and leaves a primary that the Sentinels have replaced."""
        replicas = Replicas(self._address)

        def see(role: Answer) -> None:
            replicas.see(role)
            if self._link:
                self._calls.replicas = replicas.wanted_at(self._link.place)

        self._calls.saw_role = see
        try:
            while True:
                await replicas.look()
                with contextlib.suppress(OSError, ErrorAnswer):
                    if self._link:
                        replicas.follow(await self._link.ask("INFO", "replication"))
                if self._link and replicas.primary not in (None, self._link.place):
                    self._link.close()
                if replicas.primary:  # to which this link leads, or the next one
                    self._calls.replicas = replicas.wanted_at(replicas.primary)
                await asyncio.sleep(SECONDS_BETWEEN_LOOKS)
        finally:
            await replicas.close()

    async def _until_done(self, make: Callable[[], Awaitable[Link]]) -> Link:
        told = ""
        while True:
            try:
                return await make()
            except (OSError, ErrorAnswer) as fault:
                if str(fault) != told:
                    LOG.warning("the Redis of queue %s can't be reached: %s", self._queue, fault)
                told = str(fault)
                await asyncio.sleep(SECONDS_BETWEEN_TRIES)
