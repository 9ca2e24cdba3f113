"""What is seen of a queue in its Redis at one look. Moments are nanoseconds of its node."""
from __future__ import annotations

from collections.abc import Iterator
from typing import NamedTuple

from .protocol import SECOND
from .queue import Queue

MOST_DEAD = 100
"""So many dead jobs are told one by one."""


class DeadJob(NamedTuple):
    """A job whose last attempt failed, by the id of that."""

    id: int
    died: int
    attempt: int
    payload: str


class GatewaySeen(NamedTuple):
    """A gateway of a queue."""

    number: int
    lease: float
    """Seconds."""
    clients: int | None
    held: int
    """How many jobs its clients hold."""


class RedisSeen(NamedTuple):
    """The node of a queue."""

    role: str
    lags: list[float]
    """How many seconds ago each replica that follows was heard."""
    memory: int
    memory_limit: int
    """Bytes, or 0."""


class QueueSeen(NamedTuple):
    """A queue. Counts without another word are those of now, `total_` ones are over its whole life."""

    name: str
    elements: int
    late: float
    """Seconds since the first element expired, below 0 before that, 0 without one."""
    held: int
    dead: int
    events: int
    events_limit: int
    refuses: bool
    """Whether offers are refused at that limit."""
    total_offered: int
    total_given: int
    total_returned: int
    total_died: int
    gateways: list[GatewaySeen]
    dead_jobs: list[DeadJob]
    redis: RedisSeen


FIELDS = ("next", "fetched", "returned", "died", "most")


def look(queue: Queue) -> QueueSeen:
    """What is there now. Raises what redis-py does."""
    *counts, most = queue.command("HMGET", queue.state, *FIELDS)
    offered, given, returned, died = (int(it or 0) for it in counts)
    events_limit, _, at_limit = (most or b"0").partition(b" ")
    return QueueSeen(
        queue.name, queue.command("ZCARD", queue.due), _lateness(queue), queue.command("ZCARD", queue.held),
        queue.command("ZCARD", queue.dead), queue.command("LLEN", queue.history), int(events_limit),
        at_limit == b"refuse", offered, given, returned, died, list(_gateways(queue)), list(_dead_jobs(queue)),
        _redis(queue))


def _lateness(queue: Queue) -> float:
    head = queue.command("ZRANGE", queue.due, 0, 0)
    if not head:
        return 0.0
    seconds, microseconds = map(int, queue.command("TIME"))
    return ((seconds * 1_000_000 + microseconds) * 1_000 - int(head[0][:20])) / SECOND


def _gateways(queue: Queue) -> Iterator[GatewaySeen]:
    for number in sorted(map(int, queue.command("ZRANGE", queue.gateways, 0, -1))):
        lease, clients = queue.command("HMGET", queue.state, f"lease:{number}", f"clients:{number}")
        held = queue.command("ZLEXCOUNT", queue.held, *(f"[{it * 10**9:020}:" for it in (number, number + 1)))
        seconds = int(lease.split(b" ")[0]) / 1_000_000 if lease else 0.0
        yield GatewaySeen(number, seconds, None if clients is None else int(clients), held)


def _dead_jobs(queue: Queue) -> Iterator[DeadJob]:
    for member in queue.command("ZRANGEBYLEX", queue.dead, "-", "+", "LIMIT", 0, MOST_DEAD):
        id, died, _, _, _, attempt, payload = member.decode("ascii").split(" ")
        yield DeadJob(int(id), int(died), int(attempt), payload)


def _redis(queue: Queue) -> RedisSeen:
    about, memory = queue.command("INFO", "replication"), queue.command("INFO", "memory")
    replicas = (about[f"slave{it}"] for it in range(about.get("connected_slaves", 0)))
    lags = [float(it["lag"]) for it in replicas if it["state"] == "online"]
    return RedisSeen(about["role"], lags, memory["used_memory"], memory["maxmemory"])
