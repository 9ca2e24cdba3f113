"""How many replicas have to have what is done, before it is answered, so that none that takes over lacks it.

All have to that a Sentinel can reach, since each of those may take over: also one that is back, and has not got all yet,
since a Sentinel may know of its state before that; and one that was chosen to take over and stands still, since it will
once it goes on. A primary that is replaced, and does not know it yet, has lost the replica that replaces it: so it can
answer nothing any more. Once a majority names the new one it may not, either: what is wanted is of the new one then, and
as many may still follow the one before. That need not have what is done itself before it follows the new one: the
Sentinels know that it has less.

Who follows the primary by its own word is waited for in any case, from the first call on that it answers with that
replica. A Sentinel may not reach one that follows, or not know yet that the primary before follows now. Both words are
of the same nodes, and only those that are in neither are not waited for: two counts would not do, since a replica that
only one of them counts would stand for one that only the other counts, and that one may take over.
"""
from __future__ import annotations

import asyncio
import re
from collections import Counter
from collections.abc import Sequence
from typing import Any, NamedTuple

from redis.asyncio import Redis
from redis.asyncio.sentinel import Sentinel
from redis.exceptions import RedisError

from .address import Address
from .resp import Answer

MOST_REPLICAS = 100
"""None are as many: nothing is answered before it is known how many there are."""

SECONDS_TO_ANSWER = 1.0
MOST_LAG = 2
"""A replica tells each second what it has. One that has told nothing for more seconds does not follow."""

Place = tuple[str, int]


class Replica(NamedTuple):
    """What a Sentinel says of a replica."""

    place: Place
    is_down: bool
    """Whether it can't be reached, and was not chosen to take over."""
    follows: bool
    """Whether it has the primary's data, and gets what is new."""


class Told(NamedTuple):
    """What a Sentinel says."""

    primary: Place
    replicas: list[Replica]


class Replicas:
    """Asks the Sentinels of an address."""

    def __init__(self, address: Address) -> None:
        login: dict[str, Any] = {**address.sentinel_login, "socket_timeout": SECONDS_TO_ANSWER}
        self._master, self._sentinels = address.master, Sentinel(list(address.hosts), sentinel_kwargs=login).sentinels
        self.named: Place | None = None
        """The node that most of those named that answered last."""
        self.primary: Place | None = None
        """The node that a majority named last."""
        self._least: int | None = None
        """How many replicas are a majority with the primary, once a majority of the Sentinels has said it."""
        self._known: set[Place] = set()
        """The replicas that Sentinels know, and those of them that one reaches."""
        self._reached: set[Place] = set()
        self._following: set[Place] = set()
        """Those that follow by the primary's own word."""
        self._still: dict[Place, int] = {}
        """Those that the primary has not heard for a while, and what they had then."""
        self._replaced: set[Place] = set()
        """Those that were the primary, and do not follow yet."""

    @property
    def wanted(self) -> int | None:
        """How many replicas have to have what is done, or None if that is not known yet."""
        if self._least is None:
            return None
        reached, following = self._reached - self._replaced, self._following - {self.primary}
        if following.isdisjoint(self._known):  # as where the Sentinels have other names for them
            return max(self._least, len(reached), len(following))
        return max(self._least, len(reached | following))

    def wanted_at(self, place: Place) -> int:
        """How many replicas have to have what this node does: more than there are if it is not the one that a majority
        named last, or that is not known."""
        wanted = self.wanted if place == self.primary else None
        return MOST_REPLICAS if wanted is None else wanted

    async def look(self) -> None:
        """Asks them."""
        told = await asyncio.gather(*map(self._told_by, self._sentinels), return_exceptions=True)
        self.take([it for it in told if not isinstance(it, BaseException)])

    def take(self, told: Sequence[Told]) -> None:
        """Takes what some of them say, which counts if they are a majority."""
        least = len(self._sentinels) // 2 + 1
        self.named, votes = next(iter(Counter(it.primary for it in told).most_common(1)), (None, 0))
        if self.named and votes >= least:
            if self.primary and self.primary != self.named:
                self._replaced.add(self.primary)
            self.primary = self.named
        if len(told) >= least:
            replicas = [it for one in told for it in one.replicas]
            self._replaced -= {it.place for it in replicas if it.follows and not it.is_down}
            self._known = {it.place for it in replicas} - {self.primary}
            self._reached = {it.place for it in replicas if not it.is_down} - {self.primary}
            self._least = (len(self._known) + 1) // 2

    def follow(self, info: bytes) -> None:
        """Takes what the primary's INFO says of its replicas."""
        lines = re.findall(rb"^slave\d+:ip=(.*),port=(\d+),state=online,offset=(\d+),lag=(\d+)\r$", info, re.M)
        self._still = {_place(host, int(port)): int(offset) for host, port, offset, lag in lines if int(lag) > MOST_LAG}
        self._following = {_place(host, int(port)) for host, port, _, _ in lines} - self._still.keys()
        self._replaced -= self._following

    def see(self, role: Answer) -> None:
        """Takes what the primary's ROLE says of its replicas. None that follows is forgotten before the next INFO."""
        if isinstance(role, list) and role[0] == b"master":
            places = ((_place(host, int(port)), int(offset)) for host, port, offset in role[2])
            following = {place for place, offset in places if self._still.get(place) != offset}
            self._following |= following
            self._replaced -= following

    async def _told_by(self, sentinel: Redis[bytes]) -> Told:
        async with asyncio.timeout(SECONDS_TO_ANSWER):
            # The replicas first: of a Sentinel that learns of another primary meanwhile, that one is not among them.
            replicas = await sentinel.sentinel_slaves(self._master)  # type: ignore[no-untyped-call]
            primary = await sentinel.sentinel_get_master_addr_by_name(self._master)  # type: ignore[no-untyped-call]
            if primary is None:
                raise RedisError("it knows no such primary")
            return Told(_place(*primary), [*map(_replica, replicas)])

    async def close(self) -> None:
        """Closes the connections."""
        for it in self._sentinels:
            await it.close()


def _replica(it: dict[str, Any]) -> Replica:
    follows = (_text(it["role-reported"]), _text(it["master-link-status"])) == ("slave", "ok")
    is_down = (it["is_sdown"] or it["is_odown"]) and "promoted" not in it["flags"]
    return Replica(_place(it["ip"], it["port"]), is_down, follows)


def _place(host: bytes | str, port: object) -> Place:
    return _text(host), int(str(port))


def _text(word: bytes | str) -> str:
    return word.decode() if isinstance(word, bytes) else word
