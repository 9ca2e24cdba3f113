"""The service's own sessions with its server: how many elements wait, how late the first is, and the moment."""
from __future__ import annotations

import contextlib
import select
import socket
import time
from collections import deque
from typing import NamedTuple

from servicing.connections import Unwatchable, look_at
from servicing.opening import PROBE, PROBE_DELAY
from servicing.state import Queue
from rb_broker_client import Broker, BrokerError, FullError, Job, Request
from rb_broker_redis.watching.units import SECOND

PATIENCE, REPLY = 0.05, 2.0  # seconds that a look waits for a worker, and for a reply of one
MOST_PORTS = 8


class Told(NamedTuple):
    """What the server told at one look."""

    queue: Queue
    next_id: int
    moment: int


class OwnSession:
    """A session for each look, which offers an element and removes it: that shows the moment and the next id. It asks
    for nothing before the server has greeted it: a connection that still waits is carried out later, even if its client
    has gone, and would leave the element behind."""

    def __init__(self, port: int, before: OwnSession | None = None) -> None:
        self.port = port
        self._broker: Broker | None = None
        # Of the last sessions, which the system lists for a while.
        self.ports: deque[int] = before.ports if before else deque(maxlen=MOST_PORTS)
        self._since: float | None = None  # when it was tried first to have a worker, since one last served this
        self.calls = self.probes = 0  # that were made
        self.is_full = False  # whether the run takes no further calls

    @property
    def waits(self) -> float:
        """For how many seconds the server has left this session without a worker."""
        return 0.0 if self._since is None else time.monotonic() - self._since

    def look(self) -> Told | None:
        """Asks the server. None if it does not answer soon, since no worker is free, if the run is full, or if the
        session is lost: the server has ended, or another session will do."""
        told = None
        with contextlib.suppress(OSError, BrokerError):
            broker = self._begun()
            if not select.select([broker], [], [], PATIENCE)[0]:
                return None
            broker.receive()
            if broker.greeting is not None:
                self._since = None
                told = self._told(broker)
                broker.quit()  # or the server would take the end for a fault
        self.drop()
        return told

    def begin(self) -> None:
        """Waits for a worker from now on, unless this does already. Raises an `OSError`."""
        if self._broker is not None and select.select([self._broker], [], [], 0)[0]:
            self.drop()  # a server that was about to end took it
        self._begun()

    def _begun(self) -> Broker:
        if self._broker is None:
            self._since = self._since or time.monotonic()
            self._broker = Broker(self.port, patience=PATIENCE)
            self._broker.patience = REPLY
            with socket.fromfd(self._broker.fileno(), socket.AF_INET, socket.SOCK_STREAM) as it:
                self.ports.append(it.getsockname()[1])
        return self._broker

    def drop(self) -> None:
        if self._broker is not None:
            self._broker.close()
        self._broker = None

    def withdraw(self, door: socket.socket) -> None:
        """Waits no more. Whoever listens next, as systemd does, would take that for a client. What comes out of a door
        is the first who waits, so nothing is taken out of it while others wait, too."""
        self.drop()
        with contextlib.suppress(OSError, Unwatchable):
            waiting = [it.port for it in look_at(self.port) if not it.is_served]
            door.setblocking(False)
            for _ in waiting if {*waiting} <= {*self.ports} else ():
                door.accept()[0].close()

    def _told(self, broker: Broker) -> Told | None:
        probe = Request.offer(PROBE, delay=PROBE_DELAY // SECOND)
        size, head, offered = answers = broker.ask_all([Request.size(), Request.peek(), probe])
        self.calls += sum(not isinstance(it, BrokerError) for it in answers)
        self.is_full = self.is_full or isinstance(offered, FullError)
        if isinstance(offered, BrokerError):
            return None
        broker.remove(offered.id)
        self.calls, self.probes = self.calls + 1, self.probes + 1
        moment = offered.expires_at_ns - PROBE_DELAY
        return Told(Queue(time.time(), size, _late(head, moment)), offered.id + 1, moment)


def _late(head: Job | None, moment: int) -> float:
    """The seconds since the first element expired. One of a service's own does not count."""
    return 0.0 if head is None or head.payload == PROBE else (moment - head.expires_at_ns) / SECOND
