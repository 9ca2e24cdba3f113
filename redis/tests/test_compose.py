"""The services of compose.yaml, whose commands run here as they stand, with other folders and ports."""
from __future__ import annotations

import importlib.util
import sys
import unittest
from pathlib import Path

from redis import Redis
from redis.exceptions import AuthenticationError, ResponseError

from nodes import HOST, Process, free_port, wait_until
from redis_test import RoomTest
from talker import Talker

FOLDER = Path(__file__).parents[1]


@unittest.skipUnless(importlib.util.find_spec("yaml"), "there is no yaml for this Python")
class ComposeTest(RoomTest):
    def setUp(self) -> None:
        super().setUp()
        import yaml

        self.services = yaml.safe_load((FOLDER / "compose.yaml").read_text())["services"]
        self.ports = {it: free_port() for it in (6379, 7011, 7012, 7081, 7082)}
        for it in ("data", "archive"):
            (self.room / it).mkdir()

    def begun(self, name: str) -> Process:
        """A service as a process."""
        service = self.services[name]
        words = [self.here(it) for it in service["command"]]
        if words[0] == "redis-server":
            words += ["--port", str(self.ports[6379])]
        words[:1] = [sys.executable, "-B"] if words[0] == "python3" else words[:1]
        environment = {it: self.here(value) for it, value in service.get("environment", {}).items()}
        process = self.till_end(Process(words, self.room / f"{name}.log", environment))
        process.start()
        return process

    def here(self, word: str) -> str:
        """A word of a service, where its folders, ports and hosts are those of this test."""
        for there, here in (("/app/users.acl", FOLDER / "users.acl"), ("/data", self.room / "data"),
                            ("/archive", self.room / "archive"), ("@redis:6379", f"@{HOST}:{self.ports[6379]}"),
                            ("0.0.0.0", HOST), ("10m", "100ms")):
            word = str(here) if word == there else word.replace(there, str(here)) if there[0] in "@0" else word
        for there, port in self.ports.items():
            word = word.removesuffix(str(there)) + str(port) if word.endswith(str(there)) else word
        return word

    def ask(self, port: int, *requests: str) -> list[str]:
        """The replies of a gateway."""
        with Talker(self.ports[port]) as talker:
            return [talker.ask(it) for it in requests]

    def test_a_job_outlives_the_redis(self) -> None:
        """The user `default` is off, and has all rights: without them Redis 7.0 refuses, at its start, what is in its
        own file of calls. But nobody can be that user."""
        self.assertEqual([*self.services], ["redis", "gateway-1", "gateway-2", "archive"])
        redis = self.begun("redis")
        wait_until(lambda: "Ready to accept" in redis.said, "the Redis is not ready")
        gateways = [self.begun(it) for it in ("gateway-1", "gateway-2")]
        for it in gateways:
            wait_until(lambda: "page " in it.said or not it.is_alive, "a gateway does not listen")
        archive = self.begun("archive")
        self.assertRegex(self.ask(7011, "OFFER 0 letter-17")[0], "^OFFERED 0 ")
        redis.kill()
        redis.start()
        wait_until(lambda: self.ask(7012, "PEEK")[0].startswith("HEAD 0 "), "the gateway does not find the Redis again")
        self.assertRegex(self.ask(7012, "POLL")[0], "^ITEM 0 .* 1 letter-17$")
        wait_until(lambda: list((self.room / "archive").glob("*.txt")), "nothing is archived")
        self.assertEqual([it.end() for it in (archive, *gateways)], [0] * 3)

        with self.assertRaisesRegex(AuthenticationError, "Authentication required"):
            Redis(HOST, self.ports[6379]).ping()
        with self.assertRaisesRegex(ResponseError, "WRONGPASS"):
            Redis(HOST, self.ports[6379], username="default", password="").ping()

    def test_what_is_said_of_them(self) -> None:
        """The gateways' ports are those of this machine alone, and each has the time of its grace to end."""
        for name, service in self.services.items():
            self.assertEqual(service["restart"], "unless-stopped")
            self.assertTrue(all(it.startswith("127.0.0.1:") for it in service.get("ports", [])), name)
        self.assertGreater(int(self.services["gateway-1"]["stop_grace_period"].removesuffix("s")), 30)

