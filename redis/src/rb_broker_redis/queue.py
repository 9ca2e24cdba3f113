"""One queue of a Redis, for the commands: each call waits for its reply. The gateway has a way of its own (`link`)."""
from __future__ import annotations

from collections.abc import Iterable, Sequence
from typing import Any, Union

import redis
from redis.cluster import ClusterNode, RedisCluster
from redis.exceptions import NoPermissionError
from redis.sentinel import Sentinel

from rb_broker_formats.queue import FollowedQueue

from .address import Address, Kind
from .keys import channel_of, keys_of
from .library import SOURCE, name_of

COMMANDS_SEAT = 0
"""The seat of the commands: no session of a gateway has it."""

CHUNK = 500  # elements that are loaded in one step

PATIENCE = 60.0  # seconds that an answer may take: a queue may be large

Client = Union["redis.Redis[bytes]", RedisCluster]


def connect(address: Address) -> Client:
    """A client for the Redis at this address. It connects when it is used."""
    login: dict[str, Any] = {"username": address.username, "password": address.password, "socket_timeout": PATIENCE}
    if address.is_tls:
        login["ssl"] = True
        login.update((name, value) for name, value in address.options.items() if name.startswith("ssl_"))
        login["ssl_check_hostname"] = address.checks_name
    if address.kind is Kind.CLUSTER:
        return RedisCluster(startup_nodes=[ClusterNode(*host) for host in address.hosts], **login)
    if address.kind is Kind.SENTINEL:
        for_sentinels: dict[str, Any] = {**address.sentinel_login, "socket_timeout": PATIENCE}
        sentinels = Sentinel(list(address.hosts), sentinel_kwargs=for_sentinels)
        client: redis.Redis[bytes] = sentinels.master_for(address.master, db=address.database, **login)
        return client
    host, port = address.hosts[0]
    return redis.Redis(host, port, address.database, **login)


class Queue:
    """The functions of broker.lua for one queue."""

    def __init__(self, client: Client, name: str) -> None:
        self.client, self.name = client, name
        self.keys, self.channel = keys_of(name), channel_of(name)
        self.due, self.ids, self.held, self.state, self.history, self.dead, self.gateways, self.opening = self.keys

    def command(self, *words: bytes | str | int) -> Any:
        """Makes one command at the queue's node."""
        if isinstance(self.client, RedisCluster):
            node = self.client.get_node_from_key(self.due)
            return self.client.execute_command(*words, target_nodes=node)  # type: ignore[no-untyped-call]
        return self.client.execute_command(*words)

    def load_functions(self) -> None:
        """Gives the node the functions, unless it has them."""
        try:
            self.command("FCALL", name_of("rb_version"), 0)
        except redis.ResponseError as fault:
            if "not found" not in str(fault):
                raise
            try:
                self.command("FUNCTION", "LOAD", "REPLACE", SOURCE)
            except NoPermissionError:
                raise redis.RedisError("the Redis does not have the functions of this version, which this user may not "
                                       "load: start a gateway first") from None

    def call(self, function: str, *args: bytes | str | int) -> Any:
        """Calls one function with the queue's keys and these arguments."""
        return self.command("FCALL", name_of(function), len(self.keys), *self.keys, *args)

    def shards(self, *count: int) -> int:
        """How many queues are there under this name, or 0 if none is. Sets the number, if none is set."""
        return int(self.call("rb_shards", *count) or 0)

    def load(self, token: str, left: FollowedQueue) -> None:
        """Gives the queue, which nobody has used, what is left of another one. Goes on where another load of this token
        was broken off."""
        self.add(left.elements.values(), token)
        self.call("rb_loaded", token, left.next_id, left.last)

    def add(self, elements: Iterable[bytes], token: str) -> None:
        """Gives the queue elements, by the words of their `keep` lines."""
        lines = [b"keep " + it for it in elements]
        there = int(self.call("rb_load", token, 0))
        while there < len(lines):
            there = int(self.call("rb_load", token, there, *lines[there:there + CHUNK]))

    def make(self, calls: Sequence[bytes | str], moment: str = "", gateway: int | str = "") -> list[bytes]:
        """Makes these calls of `rb_calls`, in as many steps as it takes. The replies."""
        replies: list[bytes] = []
        while len(replies) < len(calls):
            made = self.call("rb_calls", moment, gateway, *calls[len(replies):len(replies) + CHUNK])
            replies += made.split(b"\0")
        return replies

    def request(self, line: str, seat: int = COMMANDS_SEAT) -> str:
        """Makes one call by the node's time, also of a Redis that is full. The reply is without its last line feed."""
        words = "", "", f"{seat} {line}"
        try:
            reply = self.call("rb_calls", *words)
        except redis.ResponseError as fault:
            if not str(fault).startswith("OOM "):
                raise
            reply = self.call("rb_spare", *words)
        return str(reply.decode()[:-1])
