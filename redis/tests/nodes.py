"""Servers of Redis for tests: a node, a primary with replicas under Sentinel, a Cluster. Each is a process of its own in
a folder of its own, and may be killed at any moment."""
from __future__ import annotations

import atexit
import contextlib
import os
import random
import signal
import socket
import subprocess
import threading
import time
from collections import deque
from collections.abc import Callable, Sequence
from pathlib import Path
from typing import IO, Any

import redis

from serving import HOST
from serving.server import END, FIRST

_given: deque[int] = deque(maxlen=10)  # the ports that were given last
PATIENCE = 180  # seconds that anything may take, on a busy machine

LONGEST = 50_000
"""Microseconds that a command may take on a processor of its own."""
LOGS_SLOW = ("--slowlog-log-slower-than", str(LONGEST), "--slowlog-max-len", "10000")

ALWAYS = ("--appendonly", "yes", "--appendfsync", "always")
EVERYSEC = ("--appendonly", "yes", "--appendfsync", "everysec")
FORGETFUL = ("--appendonly", "no")


class NotReady(Exception):
    """Something did not come about in time."""


def free_port() -> int:
    """A port at which nobody listens, nor at the one that belongs to it in a Cluster, 10,000 above it, and nobody is
    just to begin."""
    while True:
        port = random.choice([it for it in range(FIRST, END) if it not in _given])
        _given.append(port)
        with contextlib.suppress(OSError), socket.socket() as one, socket.socket() as other:
            one.bind((HOST, port))
            other.bind((HOST, port + 10_000))
            return port


def wait_until(is_so: Callable[[], object], what: str, patience: float = PATIENCE) -> None:
    """Waits until it is so. While a Redis is away, or a gateway whose lease is over cuts its sessions, it is not."""
    until = time.monotonic() + patience
    while time.monotonic() < until:
        with contextlib.suppress(redis.RedisError, ConnectionError):
            if is_so():
                return
        time.sleep(0.02)
    raise NotReady(what)


def write_all(file: IO[bytes], text: bytes) -> None:
    """Writes this, unless the reader ends before, and ends the file. It may have ended already, as its process was."""
    with contextlib.suppress(BrokenPipeError, ValueError), file:
        file.write(text)


class Process:
    """A process that can be killed and started again."""

    def __init__(self, words: Sequence[str], log: Path, environment: dict[str, str] | None = None) -> None:
        self._words, self._log, self._environment = list(words), log, environment
        self._process: subprocess.Popen[bytes] | None = None
        self._began = 0  # where in the log begins what it says since it was started
        atexit.register(self.kill)  # where the tests are broken off

    def start(self) -> None:
        """Starts it. What it says goes to its log, and its standard input stays open."""
        with open(self._log, "ab") as log:
            self._began = log.tell()
            environment = {**os.environ, **(self._environment or {})}
            self._process = subprocess.Popen(self._words, stdin=subprocess.PIPE, stdout=log, stderr=log,
                                             env=environment)

    def give(self, text: str) -> None:
        """Gives it this on standard input, which ends, and waits for none of it to be read."""
        assert self._process and self._process.stdin
        threading.Thread(target=write_all, args=(self._process.stdin, text.encode()), daemon=True).start()

    def end(self, number: int = signal.SIGTERM) -> int:
        """Ends it by a signal, and gives its status. One that has ended already stays so."""
        self.signal(number)
        process, self._process = self._process, None
        if process is None:
            return 0
        try:
            return process.wait(PATIENCE)
        finally:
            with contextlib.suppress(BrokenPipeError):
                process.stdin.close()

    def kill(self) -> None:
        """Ends it at once."""
        self.end(signal.SIGKILL)

    def pause(self) -> None:
        """Lets it do nothing until `go_on`, or until it is killed."""
        self.signal(signal.SIGSTOP)

    def go_on(self) -> None:
        self.signal(signal.SIGCONT)

    def signal(self, number: int) -> None:
        if self._process:
            self._process.send_signal(number)

    @property
    def pid(self) -> int:
        assert self._process
        return self._process.pid

    @property
    def is_alive(self) -> bool:
        return self._process is not None and self._process.poll() is None

    @property
    def said(self) -> str:
        """What it has said since it was started."""
        return self._log.read_bytes()[self._began:].decode()


class Node(Process):
    """A redis-server, which answers once it is started."""

    def __init__(self, folder: Path, options: Sequence[object] = ALWAYS,
                 environment: dict[str, str] | None = None) -> None:
        folder.mkdir(parents=True)
        self.port = free_port()
        words = ["redis-server", "--port", self.port, "--bind", HOST, "--dir", folder, "--save", "", *LOGS_SLOW, *options]
        super().__init__([*map(str, words)], folder / "log", environment)
        self.start()

    def start(self) -> None:
        super().start()
        wait_until(lambda: self.ask("PING"), f"the node at {self.port} does not answer")

    @property
    def url(self) -> str:
        return f"redis://{HOST}:{self.port}"

    def client(self, **options: Any) -> redis.Redis[bytes]:
        return redis.Redis(HOST, self.port, **options)

    def ask(self, *words: object) -> Any:
        """The answer to a command, over a connection of its own."""
        with self.client() as client:
            return client.execute_command(*words)

    def slow(self) -> list[tuple[int, str]]:
        """The commands that took too long, with their microseconds. Where the node has had to wait for a processor, they
        may have taken as many times longer, and some of them several times that."""
        ran, waited = map(int, Path(f"/proc/{self.pid}/schedstat").read_text().split()[:2])
        times = 1 + waited / max(ran, 1)
        most = LONGEST * (times if times < 1.5 else 5 * times)
        return [it for it in self.logged() if it[0] > most]

    def logged(self) -> list[tuple[int, str]]:
        """The commands that took longer than `LONGEST`, with their microseconds."""
        with self.client() as client:
            return [(it["duration"], it["command"].decode()[:200]) for it in client.slowlog_get(10_000)]

    def replication(self) -> dict[str, Any]:
        """What it says about its replicas, or as one."""
        with self.client() as client:
            return client.info("replication")


class Nodes:
    """Servers that end together."""

    nodes: Sequence[Process]

    def kill(self) -> None:
        for it in self.nodes:
            it.kill()


class Replicas(Nodes):
    """A primary with replicas, which may have this in their environment."""

    def __init__(self, folder: Path, count: int, options: Sequence[object] = ALWAYS,
                 environment: dict[str, str] | None = None) -> None:
        options = [*options, "--repl-diskless-sync-delay", 0]  # it need not wait for more replicas
        self.primary = Node(folder / "primary", options)
        to = ("--replicaof", HOST, self.primary.port)
        self.replicas = [Node(folder / f"replica-{it}", [*options, *to], environment) for it in range(count)]
        self.nodes = [self.primary, *self.replicas]
        wait_until(lambda: self.primary.replication()["connected_slaves"] == count
                   and all(it.replication()["master_link_status"] == "up" for it in self.replicas),
                   "the replicas do not follow")


class Sentinels(Nodes):
    """Three Sentinels that watch a primary with its replicas, under a name. They are told of each other, which they would
    find out within two seconds."""

    def __init__(self, folder: Path, watched: Replicas, name: str = "main") -> None:
        self.name, self.watched, self.nodes = name, watched, []
        self.ports = [free_port() for _ in range(3)]
        self.url = f"redis+sentinel://{','.join(f'{HOST}:{it}' for it in self.ports)}/{name}"
        for port in self.ports:
            place = folder / f"sentinel-{port}"
            place.mkdir(parents=True)
            (place / "conf").write_text(
                f"port {port}\nbind {HOST}\ndir {place}\nsentinel myid {port:040x}\n"
                f"sentinel monitor {name} {HOST} {watched.primary.port} 2\n"
                f"sentinel down-after-milliseconds {name} 1000\nsentinel failover-timeout {name} 5000\n" + "".join(
                    f"sentinel known-sentinel {name} {HOST} {it} {it:040x}\n" for it in self.ports if it != port))
            process = Process(["redis-sentinel", str(place / "conf")], place / "log")
            process.start()
            self.nodes.append(process)
        wait_until(lambda: all(self._sees_all(it) for it in self.ports), "the Sentinels do not find each other")

    def _sees_all(self, port: int) -> bool:
        state = redis.Redis(HOST, port).sentinel_master(self.name)
        return state["num-other-sentinels"] == 2 and state["num-slaves"] == len(self.watched.replicas)

    def primary(self) -> Node:
        """The node that is the primary now, as a Sentinel says."""
        _, port = redis.Redis(HOST, self.ports[0]).execute_command("SENTINEL", "GET-MASTER-ADDR-BY-NAME", self.name)
        return next(it for it in self.watched.nodes if it.port == int(port))

    def ask(self, *words: object) -> Any:
        """The answer of the primary."""
        return self.primary().ask(*words)


class Cluster(Nodes):
    """A Cluster of three primaries, which share the slots evenly, and may have this in their environment."""

    def __init__(self, folder: Path, options: Sequence[object] = ALWAYS,
                 environment: dict[str, str] | None = None) -> None:
        words = [*options, "--cluster-enabled", "yes", "--cluster-node-timeout", 3000]
        self.nodes = [Node(folder / f"node-{it}", words, environment) for it in range(3)]
        addresses = [f"{HOST}:{it.port}" for it in self.nodes]
        self.url = f"redis+cluster://{','.join(addresses)}"
        subprocess.run(["redis-cli", "--cluster", "create", *addresses, "--cluster-yes"], check=True,
                       stdout=subprocess.DEVNULL, timeout=PATIENCE)
        wait_until(self.is_ready, "the Cluster is not ready")

    def is_ready(self) -> bool:
        """Whether all nodes say so."""
        return all(b"cluster_state:ok" in it.ask("CLUSTER", "INFO") for it in self.nodes)

    def ask(self, *words: object) -> Any:
        """Asks all nodes. The answer of one that has the slot."""
        answers = []
        for it in self.nodes:
            try:
                answers.append(it.ask(*words))
            except redis.ResponseError as fault:
                if not str(fault).startswith("MOVED "):
                    raise
        return answers[0]

    def slot_of(self, queue: str) -> int:
        return int(self.nodes[0].ask("CLUSTER", "KEYSLOT", f"{{{queue}}}"))

    def owner_of(self, slot: int) -> Node:
        """The node that has a slot, by its own word."""
        return next(it for it in self.nodes if any(
            int(first) <= slot <= int(last) and int(place[1]) == it.port
            for first, last, place, *_ in it.ask("CLUSTER", "SLOTS")))

    def move(self, slot: int, target: Node) -> None:
        """Moves a slot with its keys, while they are used, as `redis-cli --cluster reshard` does."""
        source = self.owner_of(slot)
        ids = {it: it.ask("CLUSTER", "MYID").decode() for it in self.nodes}
        target.ask("CLUSTER", "SETSLOT", slot, "IMPORTING", ids[source])
        source.ask("CLUSTER", "SETSLOT", slot, "MIGRATING", ids[target])
        while keys := source.ask("CLUSTER", "GETKEYSINSLOT", slot, 1):
            source.ask("MIGRATE", HOST, target.port, "", 0, 1_000 * PATIENCE, "KEYS", *keys)
        for it in (target, source, *self.nodes):
            it.ask("CLUSTER", "SETSLOT", slot, "NODE", ids[target])
