"""Many calls in one step of the Redis: what they change is written once for many, and is what each by itself does."""
from __future__ import annotations

import random

from rb_broker_redis.queue import Queue
from redis_test import RedisTest

STEPS = 40
MOST_CALLS = 120
SEATS = 4
GATEWAY, LEASE, TOKEN = 10**10, 60_000_000, "token"
ACTS = ("OFFER {soon} p-{n}", "OFFER 0 p-{n}", "POLL", "TAKE", "POLL", "DRAIN {few}", "DONE {id}", "FAIL {id}", "PEEK", "SIZE",
        "REMOVE {id}", "POLLFOR 0", "WAIT", "take", "pollfor 0", "wait")
RARE = ("CLEAR", "END", "OFFER {soon} p-{n}")


class StepsTest(RedisTest):
    def test_a_step_of_many_calls_does_what_each_by_itself_does(self) -> None:
        draw = random.Random(88)
        together, apart = self.served(), self.served("-apart")
        moment, offers = 10**9, 0
        for step in range(STEPS):
            moment += draw.choice((0, 5, 200))
            calls = []
            for _ in range(draw.randrange(1, MOST_CALLS)):
                act = draw.choice(RARE if draw.random() < 0.03 else ACTS)
                offers += act.startswith("OFFER")
                id = draw.randrange(max(offers - 40, 0), offers + 1)
                words = act.format(soon=draw.randrange(300), n=offers, few=draw.randrange(5), id=id)
                calls.append(f"{GATEWAY}{draw.randrange(1, SEATS):09} {words}")
            with self.subTest(step=step):
                told = self.made(together, moment, calls)
                self.assertEqual(told, [it for call in calls for it in self.made(apart, moment, [call])])
                self.assertEqual(self.seen(together), self.seen(apart))

    def served(self, more: str = "") -> Queue:
        """A queue that a gateway of the number GATEWAY serves."""
        queue = self.joined(4, f"{self.name}{more}")
        queue.command("HSET", queue.state, "gateway", GATEWAY - 1)
        queue.call("rb_join", LEASE, "", "", "", "", TOKEN)
        return queue

    def test_a_job_that_is_remembered_is_done_once_and_only_if_it_is_held(self) -> None:
        queue, seat, other = self.served(), f"{GATEWAY}000000001", f"{GATEWAY}000000002"

        def replies(*calls: str) -> list[bytes]:
            return [it.split(b" ")[0] for it in queue.make(calls, gateway=GATEWAY)]

        self.assertEqual(replies(*[f"{seat} OFFER 0 a"] * 6), [b"OFFERED"] * 6)
        self.assertEqual(replies(*[f"{seat} POLL"] * 6), [b"ITEM"] * 6)
        self.assertEqual(replies(f"{other} DONE 0", *[f"{seat} DONE 0"] * 2), [b"ERR", b"DONE", b"ERR"])
        self.assertEqual(replies(f"{seat} DONE 0", f"{seat} FAIL 1", f"{seat} DONE 1"), [b"ERR", b"AGAIN", b"ERR"])
        queue.command("ZREMRANGEBYRANK", queue.held, 0, 0)  # by hand, the job 2
        self.assertEqual(replies(f"{seat} DONE 2"), [b"ERR"])
        queue.call("rb_renew", GATEWAY, LEASE, TOKEN, 1)
        self.assertEqual(replies(f"{seat} DONE 3", f"{seat} DONE 3"), [b"DONE", b"ERR"])
        self.assertEqual(replies(f"{seat} END", f"{seat} DONE 4"), [b"ENDED", b"ERR"])
        self.assertEqual(queue.command("ZCARD", queue.held), 0)

    def made(self, queue: Queue, moment: int, calls: list[str]) -> list[bytes]:
        """The replies, in as many steps as it takes."""
        return queue.make(calls, f"{moment:020}", GATEWAY)

    def seen(self, queue: Queue) -> list[object]:
        """All that is in a queue."""
        sets = (queue.command("ZRANGE", it, 0, -1) for it in (queue.due, queue.held, queue.dead))
        state = queue.command("HMGET", queue.state, "next", "at", "calls", "fetched", "wake", "returned", "died")
        return [*sets, queue.command("HGETALL", queue.ids), queue.command("LRANGE", queue.history, 0, -1), state]
