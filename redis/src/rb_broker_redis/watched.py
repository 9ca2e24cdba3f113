"""All that a gateway shows at one moment, as texts and numbers: the page, the metrics and the health lay it out."""
from __future__ import annotations

from collections.abc import Iterator
from dataclasses import dataclass
from typing import Any, NamedTuple

from rb_broker_formats.dates import date_text

from .looks import MOST_DEAD, DeadJob, QueueSeen
from .shards import outer_id
from .watching.metrics import Number, date, span_of, told
from .watching.tables import Table
from .watching.units import counted, number

OVERDUE = 60.0  # seconds from which on a job that nobody takes is an alert
SILENT = 5.0  # seconds without an answer of the Redis
LAGGING = 5.0  # seconds since a replica was heard
NEARLY = 0.8  # of a limit


class Alert(NamedTuple):
    """Something that an operator has to know of, for as long as it is so."""

    name: str
    text: str


@dataclass(frozen=True)
class State:
    """Spans are seconds, dates are seconds since 1970. What is not known is None, or no queue."""

    queue: str
    port: int
    at: float
    since: float
    """When the gateway began."""
    seen_at: float | None
    """When the Redis last answered."""
    queues: tuple[QueueSeen, ...]
    """The queue, or its shards."""
    own: frozenset[int]
    """The gateway's numbers at them."""
    is_joined: bool
    clients: int
    replicas_asked: int
    clock_fault: str
    offered_a_second: float | None = None
    given_a_second: float | None = None
    failed_a_second: float | None = None

    elements = property(lambda self: self._sum("elements"))
    held = property(lambda self: self._sum("held"))
    dead = property(lambda self: self._sum("dead"))
    events = property(lambda self: self._sum("events"))
    offered = property(lambda self: self._sum("total_offered"))
    given = property(lambda self: self._sum("total_given"))
    died = property(lambda self: self._sum("total_died"))
    failed = property(lambda self: None if not self.queues else self.died + self._sum("total_returned"))
    events_limit = property(lambda self: self._sum("events_limit") or None)
    late = property(lambda self: max((it.late for it in self.queues if it.elements), default=0.0))
    gateways = property(lambda self: max((len(it.gateways) for it in self.queues), default=None))
    all_clients = property(lambda self: sum(it.clients or 0 for it in self.queues[0].gateways) if self.queues else None)
    replicas = property(lambda self: min((len(it.redis.lags) for it in self.queues), default=None))
    lag = property(lambda self: max((lag for it in self.queues for lag in it.redis.lags), default=None))
    memory = property(lambda self: max((it.redis.memory for it in self.queues), default=None))
    memory_limit = property(lambda self: max((it.redis.memory_limit for it in self.queues), default=0) or None)

    def _sum(self, name: str) -> int | None:
        return sum(getattr(it, name) for it in self.queues) if self.queues else None

    @property
    def is_healthy(self) -> bool:
        """Whether clients are served."""
        return self.is_joined and self.seen_at is not None and self.at - self.seen_at < SILENT

    def alerts(self) -> Iterator[Alert]:
        """What is wrong."""
        if not self.is_healthy:
            heard = f"was heard {span_of(self.at - self.seen_at)} ago" if self.seen_at else "has not been heard yet"
            yield Alert("no-redis", f"nobody is served: the Redis {heard}")
        if self.late > OVERDUE:
            yield Alert("overdue", f"no worker has taken the first job for {span_of(self.late)} since it expired")
        if self.dead:
            yield Alert("dead-jobs", f"{counted(self.dead, 'job')} failed for the last time, and wait for a decision")
        if self.clock_fault:
            yield Alert("clock", self.clock_fault)
        for it in self.queues:
            yield from _alerts_of(it, self.replicas_asked)


def _alerts_of(it: QueueSeen, replicas_asked: int) -> Iterator[Alert]:
    """What is wrong with a queue."""
    if it.refuses and it.events > NEARLY * it.events_limit:
        yield Alert("history-full", f"the history of {it.name} has {number(it.events)} events, and offers are refused "
                    f"from {number(it.events_limit)} on: let an archive take them")
    if len(it.redis.lags) < replicas_asked:
        yield Alert("few-replicas", f"{counted(len(it.redis.lags), 'replica')} of {it.name} can be heard, and replies "
                    f"wait for {replicas_asked}")
    for lag in it.redis.lags:
        if lag > LAGGING:
            yield Alert("replica-lags", f"a replica of {it.name} was heard {span_of(lag)} ago")
    if it.redis.memory_limit and it.redis.memory > NEARLY * it.redis.memory_limit:
        yield Alert("memory", f"the Redis of {it.name} uses {number(it.redis.memory)} of "
                    f"{number(it.redis.memory_limit)} bytes; once it is full, offers are refused")


# The name of each number, which attribute of the state it is, and what it means.
NUMBERS: tuple[tuple[str, str, str], ...] = (
    ("elements", "elements", "Elements in the queue, expired or not"),
    ("head_late_seconds", "late", "Time since the first element expired, below 0 before it does, 0 without one"),
    ("queue_time_seconds", "seen_at", "When the Redis last answered about its queue"),
    ("offered_a_second", "offered_a_second", "Elements offered a second, in the last minute"),
    ("given_a_second", "given_a_second", "Jobs given a second, in the last minute"),
    ("failed_a_second", "failed_a_second", "Failures a second, in the last minute"),
    ("jobs_held", "held", "Jobs in the hands of clients"),
    ("jobs_dead", "dead", "Jobs whose last attempt failed, and about which nobody has decided"),
    ("clients_served", "clients", "Clients of this gateway"),
    ("clients_of_all", "all_clients", "Clients of all gateways, as each told when it renewed its lease"),
    ("gateways", "gateways", "Gateways"),
    ("offered_total", "offered", "Elements that were offered, including jobs that came back"),
    ("given_total", "given", "Jobs that were given"),
    ("failed_total", "failed", "Jobs that failed, or whose session ended"),
    ("died_total", "died", "Jobs that failed for the last time"),
    ("history_events", "events", "Events in the Redis that no archive has taken"),
    ("history_events_limit", "events_limit", "Events that it may have"),
    ("replicas", "replicas", "Replicas that follow"),
    ("replica_lag_seconds", "lag", "Time since the replica was heard that was not heard for longest"),
    ("redis_memory_bytes", "memory", "Memory that the Redis uses"),
    ("redis_memory_limit_bytes", "memory_limit", "Memory that it may use"),
)


def numbers(state: State) -> Iterator[Number]:
    """The name, the meaning and the value of each number that is known."""
    for name, attribute, meaning in NUMBERS:
        value: Any = getattr(state, attribute)
        if value is not None and (state.queues or attribute in ("seen_at", "clients")):
            yield name, meaning, round(value, 3) if isinstance(value, float) else value


def headline(state: State) -> str:
    """The state in a line."""
    count = sum(1 for _ in state.alerts())
    return ", ".join(filter(None, (
        counted(count, "alert") if count else "", "serving" if state.is_healthy else "no Redis",
        counted(state.elements, "element") if state.queues else "",
        f"the first {span_of(state.late)} late" if state.late > 1 else "",
        counted(state.dead, "dead job") if state.dead else "", counted(state.clients, "client"))))


def since(state: State) -> str:
    """How long it has served."""
    phase = "serving" if state.is_healthy else "without a Redis, begun"
    return f"{phase} for {span_of(state.at - state.since)}, as of {date(state.at)} UTC"


def tables(state: State) -> tuple[Table, ...]:
    """The tables but for the dead jobs."""
    rows = [(meaning, told(name, value)) for name, meaning, value in numbers(state)]
    return (
        Table("Numbers", ("what", "value"), rows, left=2),
        Table("Queues", ("queue", "elements", "in hand", "dead", "events", "its Redis"), [*map(_queue, state.queues)],
              left=6),
        Table("Gateways", ("gateway", "queue", "lease", "clients", "in hand", ""), [
            [str(it.number), queue.name, span_of(it.lease), "?" if it.clients is None else number(it.clients),
             number(it.held), "this one" if it.number in state.own else ""]
            for queue in state.queues for it in queue.gateways], left=6),
    )


def _queue(it: QueueSeen) -> list[str]:
    limit = f" of {number(it.events_limit)}" if it.events_limit else ""
    lags = ", ".join(f"{lag:g} s" for lag in it.redis.lags)
    follow = counted(len(it.redis.lags), "replica") + (f", heard {lags} ago" if lags else "")
    return [it.name, *map(number, (it.elements, it.held, it.dead)), f"{number(it.events)}{limit}",
            f"{it.redis.role}, {follow}"]


def dead_table(state: State) -> Table:
    """The dead jobs, the earliest first."""
    more = (state.dead or 0) - sum(len(it.dead_jobs) for it in state.queues)
    notes = [f"{number(more)} more are not listed: each queue has at most {MOST_DEAD} here."] if more > 0 else []
    jobs = [(shard, it) for shard, queue in enumerate(state.queues) for it in queue.dead_jobs]
    return Table("Dead jobs", ("job", "failed", "attempt", "payload", ""), [
        [str(shown_id(state, shard, it)), date_text(it.died)[:19].replace("T", " "), number(it.attempt), it.payload, ""]
        for shard, it in jobs], left=5, notes=notes)


def shown_id(state: State, shard: int, job: DeadJob) -> int:
    """The id that clients see."""
    return outer_id(shard, job.id) if len(state.queues) > 1 else job.id


def attention(state: State) -> list[str]:
    """What an operator has to know of."""
    return [it.text for it in state.alerts()]


def text(state: State) -> str:
    """All of it, for a terminal."""
    lines = [f"queue {state.queue}, port {state.port}: {headline(state)}", since(state),
             *(f"! {it}" for it in attention(state))]
    for it in (*tables(state), dead_table(state)):
        lines += ["", *it.lines]
    return "\n".join(lines) + "\n"
