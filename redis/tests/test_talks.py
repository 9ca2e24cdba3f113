"""What clients and gateways say to each other, by talks.txt."""
from __future__ import annotations

import re
import signal
import socket
import time
from collections.abc import Callable, Iterator, Mapping
from pathlib import Path

from gateway_test import GatewayTest
from nodes import ALWAYS, Node, Process, wait_until
from serving import HOST
from talker import Talker

TALKS = Path(__file__).with_name("talks.txt")

OF_PROCESSES: Mapping[str, Callable[[Process], object]] = {
    "is killed": Process.kill, "starts": lambda it: it.start(), "stands still": Process.pause, "goes on": Process.go_on,
    "is asked to end": lambda it: it.signal(signal.SIGTERM),
}
OF_CLIENTS: Mapping[str, Callable[[Talker], object]] = {
    "hangs up": Talker.hang_up, "resets": Talker.reset, "sends no more": lambda it: it.socket.shutdown(socket.SHUT_WR),
}


class TalkTest(GatewayTest):
    def setUp(self) -> None:
        super().setUp()
        self.processes: dict[str, Process] = {"redis": self.node}
        self.clients: dict[str, Talker] = {}
        self.sessions: dict[str, int] = {}
        """How many each gateway has."""

    def play(self, lines: list[str]) -> None:
        """Takes one line after the other."""
        for line in lines:
            subject, _, rest = line.partition(" ")
            if subject == "gateway":
                name, *options = rest.split(" ")
                self.processes[name], self.sessions[name] = self.serve(*options), 0
            elif subject == "sleep":
                time.sleep(float(rest))
            elif rest in OF_PROCESSES:
                OF_PROCESSES[rest](self.processes[subject])
            elif subject == "redis":
                self.ask(*rest.partition(" = ")[::2])
            elif subject in self.processes:
                number = 0 if rest == "has ended" else signal.SIGTERM
                self.assert_ends_well(self.processes[subject], self.sessions[subject], number)
            else:
                for step in rest.split(" | "):
                    self.talk(self.client(subject, step), step, line)

    def ask(self, command: str, answer: str) -> None:
        """Asks the Redis something, which must give this answer if one is named."""
        found = self.node.ask(*command.replace("{q}", f"{{{self.name}}}").split(" "))
        self.assertIn(answer, ("", str(found)), command)

    def client(self, name: str, rest: str) -> Talker:
        """The client of a name, which connects when it is named first."""
        if name not in self.clients:
            gateway = rest[len("at "):] if rest.startswith("at ") else [*self.sessions][-1]
            self.clients[name] = self.talker(self.processes[gateway])
            self.sessions[gateway] += 1
        return self.clients[name]

    def talk(self, client: Talker, rest: str, line: str) -> None:
        """What a client does, or finds."""
        if rest in OF_CLIENTS:
            OF_CLIENTS[rest](client)
        elif rest == "ends":
            self.assertEqual(client.rest(), [], line)
        elif rest == "..":
            self.assertTrue(client.is_silent(0.3), line)
        elif rest.startswith("> "):
            client.send(f"{rest[2:]}\n".replace(" / ", "\n").replace("\\\n", ""))
        elif not rest.startswith("at "):
            times, row = re.fullmatch(r"(?:(\d+)\* )?(.*)", rest).groups("1")
            self.assert_talk(client, *[row] * int(times))


class FaultyRedisTest(TalkTest):
    """With a Redis of its own for each test."""

    def setUp(self) -> None:
        super().setUp()
        self.node = self.processes["redis"] = self.till_end(Node(self.room / "node", ALWAYS))

    def test_too_few_replicas_leave_a_call_in_doubt(self) -> None:
        self.play(["gateway g --replicas 1 --timeout 3s", "c > OFFER 0 a", "c ends"])
        for count in (1, 2):
            self.till_end(Node(self.room / f"replica-{count}", [*ALWAYS, "--replicaof", HOST, self.node.port]))
            wait_until(lambda: self.node.replication()["connected_slaves"] == count, "no replica")
            self.play([f"gateway g{count} --replicas 1", f"c{count} OFFER 0 again = OFFERED .*"])
        few = "--replicas 1, but the Redis of queue .* has 2: a fail-over to another may lose what was answered"
        self.assertNotRegex(self.processes["g1"].said, few)
        self.assertRegex(self.processes["g2"].said, few)

    def test_a_gateway_needs_its_redis_to_begin(self) -> None:
        self.node.kill()
        self.assert_refused(3, f"{self.node.url}: Connection refused", "serve", "--port", 0)


class SoundRedisTest(TalkTest):
    """With a Redis for all."""


def talks() -> Iterator[tuple[str, list[str]]]:
    """The name of each talk, and its lines."""
    for part in re.split(r"^talk ", TALKS.read_text(), flags=re.M)[1:]:
        name, *lines = part.split("\n")
        yield name, [it for it in lines if it]


def playing(lines: list[str]) -> Callable[[TalkTest], None]:
    return lambda test: test.play(lines)


for _name, _lines in talks():
    _is_faulty = any(re.match("redis (?!ZCARD)", it) for it in _lines)
    setattr(FaultyRedisTest if _is_faulty else SoundRedisTest, f"test_{_name.replace(' ', '_')}", playing(_lines))
