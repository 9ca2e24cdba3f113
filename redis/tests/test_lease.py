"""Leases of gateways, as the functions of broker.lua keep them."""
from __future__ import annotations

from redis import ResponseError

from rb_broker_redis.queue import Queue
from redis_test import RedisTest

LEASE = 60_000_000  # microseconds
JOBS = 300  # more than one renewal ends
TOKEN = "token"


class LeaseTest(RedisTest):
    def join(self, queue: Queue, token: str = TOKEN) -> int:
        """A gateway joins. Gives its number."""
        return int(queue.call("rb_join", LEASE, "delay", f"{0:020}", 3, "", token)[0])

    def renew(self, queue: Queue, gateway: int, *late: bytes, token: str = TOKEN) -> list[bytes]:
        """Renews its lease. How many jobs are ended, and what is told of the others."""
        ended, _, _, *others = queue.call("rb_renew", gateway, LEASE, token, 7, *late)
        return [ended, *others]

    def assert_over(self, queue: Queue, gateway: int) -> None:
        for words in (("rb_calls", "", gateway, f"{gateway}000000001 SIZE"), ("rb_renew", gateway, LEASE, TOKEN, 7)):
            with self.assertRaisesRegex(ResponseError, "^LEASE "):
                queue.call(*words)

    def test_a_lease_is_over_once_another_gateway_has_found_it_so(self) -> None:
        queue = self.queue()
        late, other = self.join(queue), self.join(queue)
        queue.make(["0 OFFER 0 a"] * JOBS)
        fetches = [f"{late}{1 + number // 50:09} POLL" for number in range(JOBS)]
        given = queue.make(fetches, gateway=late)
        self.assertEqual({it.split(b" ")[0] for it in given}, {b"ITEM"})
        _, number, score, lease = self.renew(queue, other)
        self.assertEqual((int(number), int(lease)), (late, LEASE))
        self.assertEqual(queue.command("ZCARD", queue.held), JOBS)
        ended = [self.renew(queue, other, number, score)]
        while ended[-1][1:]:
            self.assertEqual(ended[-1][1:], [number, b"0", lease])
            self.assert_over(queue, late)
            ended.append(self.renew(queue, other, number, b"0"))
        self.assert_over(queue, late)
        self.assertEqual((ended[0][0], sum(it[0] for it in ended)), (200, JOBS))
        self.assertEqual((queue.command("ZCARD", queue.held), queue.request("SIZE")), (0, f"SIZE {JOBS}"))
        self.assertEqual(queue.command("ZRANGE", queue.gateways, 0, -1), [b"%d" % other])
        self.assertGreater(self.join(queue), other)

    def test_a_lease_is_renewed_before_that(self) -> None:
        queue = self.queue()
        late, other = self.join(queue), self.join(queue)
        _, number, score, _ = self.renew(queue, other)
        self.renew(queue, late)
        self.assertNotEqual(self.renew(queue, other, number, score)[2], score)
        self.assertEqual(queue.call("rb_calls", "", late, f"{late}000000001 SIZE"), b"SIZE 0\n")

    def test_a_gateway_that_left_has_none(self) -> None:
        queue = self.queue()
        gateway = self.join(queue)
        self.assertEqual(queue.call("rb_leave", gateway), 1)
        self.assert_over(queue, gateway)
        self.assertFalse({b"lease:%d" % gateway, b"clients:%d" % gateway} & {*queue.command("HKEYS", queue.state)})

    def test_a_number_that_two_have_got_is_that_of_the_second(self) -> None:
        queue = self.queue()
        first = self.join(queue, "one")
        queue.command("UNLINK", *queue.keys)  # the Redis has lost what it knew
        queue.command("HSET", queue.state, "gateway", first - 1)
        self.assertEqual(self.join(queue, "other"), first)
        self.assertEqual(self.renew(queue, first, token="other"), [0])
        with self.assertRaisesRegex(ResponseError, "^LEASE "):
            self.renew(queue, first, token="one")
