"""Tests with gateways of their own."""
from __future__ import annotations

import signal
import ssl

from gateways import Gateway
from redis_test import RedisTest
from talker import Talker


class GatewayTest(RedisTest):
    def gateway(self, *options: object, redis: str | None = None, **environment: str) -> Gateway:
        """A gateway of this test's queue with these options, which listens."""
        redis = self.node.url if redis is None else redis
        return self.till_end(Gateway(self.room, redis, self.name, options, **environment)).wait()

    def serve(self, *options: object) -> Gateway:
        """A gateway whose failed jobs come back at once, with patience for a Redis on a busy machine."""
        return self.gateway("--delay", "0s", "--attempts", 3, "--timeout", "60s", "--grace", "0s", *options)

    def talker(
        self, served: Gateway | None = None, *options: object, tls: ssl.SSLContext | None = None
    ) -> Talker:
        """A client of a gateway, or of one of its own that is started with these options."""
        talker = Talker((served or self.serve(*options)).port, tls)
        self.addCleanup(talker.hang_up)
        return talker

    def assert_talk(self, talker: Talker, *rows: str) -> None:
        """Each row is `REQUEST = REPLY`: the request, if there is one, is sent, and a line comes of the reply's
        pattern."""
        for row in rows:
            request, _, reply = row.rpartition("= ")
            if request:
                talker.send(f"{request.rstrip()}\n")
            self.assertRegex(talker.read(), f"^{reply}$", row)

    def begin_wait(self, talker: Talker, request: str) -> None:
        """A request is made that has to wait. A line that is refused goes before it, since the gateway sends that
        refusal once the wait has begun."""
        talker.send(f"x\n{request}\n")
        self.assert_talk(talker, "= ERR 1 syntax")

    def assert_waits(self, talker: Talker, request: str) -> None:
        """A request gets no reply yet."""
        self.begin_wait(talker, request)
        self.assertTrue(talker.is_silent(0.3))

    def assert_ends_well(self, served: Gateway, sessions: int, number: int = signal.SIGTERM) -> None:
        """A gateway that had so many sessions ends in good order by this signal, and says that no job is lost."""
        self.assertEqual((served.end(number), served.told), (0, [f"sessions {sessions} lost 0"]))

    def held(self) -> int:
        """How many jobs of the queue are held."""
        return self.node.ask("ZCARD", self.queue().held)

    def events(self) -> list[list[bytes]]:
        """The words of the events of the queue."""
        return [it.split() for it in self.node.ask("LRANGE", self.queue().history, 0, -1)]
