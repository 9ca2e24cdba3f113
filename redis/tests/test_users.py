"""The rights of users.acl: each command works with those of its user, uses each of them, and has no others."""
from __future__ import annotations

import re
import tempfile
from collections.abc import Iterator
from contextlib import contextmanager
from pathlib import Path

import redis
from redis.exceptions import NoPermissionError, ResponseError

from gateways import Gateway
from nodes import FORGETFUL, HOST, Node, wait_until
from rb_broker_redis.library import VERSION, name_of
from redis_test import RedisTest
from talker import Talker

USERS = (Path(__file__).parents[1] / "users.acl").read_text()
ROWS = dict(re.findall("^user (\\w+) on (.*)$", USERS, re.M))

ELSEWHERE = {"wait", "role", "cluster|slots", "command", "client|kill", "ping"}
"""What is used where there are replicas, a Cluster, a link that is half lost, or nothing is heard for seconds."""
OWN = {"acl|log", "config|resetstat", "info", "auth", "zcard"}
"""What these tests use themselves."""

NOBODY = (
    ("FLUSHALL",), ("KEYS", "*"), ("CONFIG", "SET", "maxmemory-policy", "allkeys-lru"), ("SHUTDOWN",), ("ACL", "LIST"),
    ("GET", "{jobs}:due"), ("DEL", "{jobs}:due"), ("HMGET", "{other}:state", "next"), ("SAVE",), ("FUNCTION", "FLUSH"),
    ("FCALL", f"rb_shards_{VERSION}", 1, "{other}:state"), ("REPLICAOF", "NO", "ONE"), ("MONITOR",),
    ("SUBSCRIBE", "{other}:head"), ("PUBLISH", "{other}:head", "5 5"), ("MIGRATE", HOST, 1, "{jobs}:due", 0, 1),
)
"""What no user may do."""


class UsersTest(RedisTest):
    @classmethod
    def setUpClass(cls) -> None:
        room = Path(cls.enterClassContext(tempfile.TemporaryDirectory(prefix="rb-test-")))
        (room / "users.acl").write_text(USERS.replace("default off", "default on nopass"))
        cls.node = Node(room / "node", (*FORGETFUL, "--aclfile", room / "users.acl"))
        cls.addClassCleanup(cls.node.kill)

    def setUp(self) -> None:
        super().setUp()
        self.name = "jobs"
        self.node.ask("FLUSHALL")

    def url(self, user: str) -> str:
        """The word of a command line that names the Redis for a user."""
        password = ROWS[user].split(" ")[0][1:]
        path = self.room / f"{user}.url"
        path.write_text(f"redis://{user}:{password}@{HOST}:{self.node.port}")
        return f"@{path}"

    @contextmanager
    def judged(self, user: str) -> Iterator[None]:
        """Nothing is refused that is done here, and each of the user's rights is used. What nobody may is refused."""
        for it in (("CONFIG", "RESETSTAT"), ("ACL", "LOG", "RESET")):
            self.node.ask(*it)
        yield
        self.assertEqual(self.node.ask("ACL", "LOG"), [])
        used = {name[len("cmdstat_"):] for name in self.node.client().info("commandstats")} - OWN | ELSEWHERE
        rights = {*re.findall(r"\+(\S+)", ROWS[user])}
        self.assertEqual((rights - used - OWN, used - rights - ELSEWHERE), (set(), set()))
        for words in NOBODY:
            with self.subTest(words=words), self.assertRaises(NoPermissionError):
                self.client(user).execute_command(*words)

    def client(self, user: str) -> redis.Redis[bytes]:
        return self.node.client(username=user, password=ROWS[user].split(" ")[0][1:])

    def gateway(self, *options: object) -> Gateway:
        words = "--attempts", 1, "--delay", "0s", "--lease", "1s", *options
        return self.till_end(Gateway(self.room, self.url("gateway"), self.name, words)).wait()

    def serve_once(self, *requests: str) -> None:
        """A gateway of a queue that keeps five events serves these, and ends."""
        served = self.gateway("--history-events", 5)
        served.ask(*requests)
        self.assertEqual(served.end(), 0)

    def test_a_gateway(self) -> None:
        self.node.ask("FUNCTION", "FLUSH")
        with self.judged("gateway"):
            killed, served = self.gateway("--history-events", 5), self.gateway("--http", "127.0.0.1:0")
            with Talker(killed.port) as talker:
                self.assertRegex(talker.ask("OFFER 0 a"), "OFFERED")
                self.assertRegex(talker.ask("POLL"), "ITEM")
                killed.kill()
            said = served.ask(
                "OFFER 0 b", "POLL", "FAIL 1", "OFFER 0 c", "POLL", "DONE 2", "OFFER 0 d", "DRAIN 1", "PEEK", "SIZE",
                "OFFER 5000000000 e", "REMOVE 4", "CLEAR", "POLLFOR 1000000")
            self.assertEqual([it.split()[0] for it in said], [
                "OFFERED", "ITEM", "DEAD", "OFFERED", "ITEM", "DONE", "OFFERED", "DRAINED", "ITEM", "NONE", "SIZE",
                "OFFERED", "REMOVED", "CLEARED", "NONE"])
            with Talker(served.port) as talker:
                talker.send("TAKE\n")
                wait_until(lambda: self.node.ask("HGET", "{jobs}:state", "wake") == b"~", "nobody waits")
                served.ask("OFFER 0 f")
                self.assertRegex(talker.read(), "ITEM")
            wait_until(lambda: self.node.ask("ZCARD", "{jobs}:dead") == 4, "the lease is not found to be over")
            self.assertEqual(served.end(), 0)

    def ran_by(self, user: str, *words: object) -> None:
        """A command of this user ends well."""
        status, _, errors = self.ran(*words, "--redis", self.url(user))
        self.assertEqual((status, errors), (0, ""))

    def test_an_archive(self) -> None:
        self.serve_once(*["SIZE"] * 6)
        with self.judged("archive"):
            for more in ((), ("--anew",), ()):
                self.ran_by("archive", "archive", self.room / "archive", *more)

    def test_a_load(self) -> None:
        history = self.room / "run.txt"
        history.write_text("history 3\nopen 0 0 0\n0 5 5 offer 0 9 0 9 1 a\nend 1\n")
        self.node.ask("FUNCTION", "FLUSH")
        with self.judged("load"):
            self.ran_by("load", "load", history, "--began", "@1")
            self.node.ask("HSET", "{jobs}:state", "loading", "another")
            self.ran_by("load", "load", "--abandon")

    def test_dead_jobs(self) -> None:
        for it in range(3):
            self.serve_once("OFFER 0 a", "POLL", f"FAIL {it}", "POLLFOR 1000000")
        with self.judged("dead"):
            for more in ((), (0, "--offer"), (1, "--drop")):
                self.ran_by("dead", "dead", *more)
            self.node.ask("HSET", "{jobs}:state", "most", "1000 refuse")
            self.ran_by("dead", "dead", 2, "--offer")

    def test_a_redis_without_functions(self) -> None:
        """These users may not load them. `archive --every` tries again, so it may start before the first gateway."""
        for words in (("archive", self.room / "archive"), ("dead",)):
            words = *words, "--redis", self.url(words[0])
            self.node.ask("FUNCTION", "FLUSH")
            status, said, errors = self.ran(*words)
            self.assertEqual((status, said), (3, []))
            self.assertIn("which this user may not load: start a gateway first", errors)
            self.serve_once("OFFER 0 a")
            self.assertEqual(self.ran(*words)[::2], (0, ""))

    def test_nobody_but_a_gateway_takes_a_job(self) -> None:
        self.serve_once("OFFER 0 a")
        queue = self.queue()
        for user in ROWS.keys() - {"gateway"}:
            with self.subTest(user=user), self.assertRaisesRegex(ResponseError, "can't run this command"):
                self.client(user).execute_command("FCALL", name_of("rb_calls"), 8, *queue.keys, "", "", "0 POLL")
            self.assertEqual(queue.command("ZCARD", queue.due), 1)

    def test_shards(self) -> None:
        self.serve_once("OFFER 0 a", "POLL", "FAIL 0", "OFFER 0 b")
        self.ran_by("archive", "archive", self.room / "archive")
        self.node.ask("FUNCTION", "FLUSH")
        with self.judged("shards"):
            for count in (2, 3, 1):
                self.ran_by("shards", "shards", count)
