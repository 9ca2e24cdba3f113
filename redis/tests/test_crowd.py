"""Crowds of clients that send much at once: no command of the Redis takes long, and nobody waits long for its turn."""
from __future__ import annotations

import time
import unittest

from gateway_test import GatewayTest
from nodes import wait_until
from rb_broker_redis.turns import FIRST_SHARE, LEAST, MOST, SHARE, Batch, Part, Turns

CROWD = 400
REQUESTS = 256  # of each
HELD = 64


class CrowdTest(GatewayTest):
    def test_a_crowd_that_sends_much_at_once(self) -> None:
        served = self.serve("--timeout", "2s")
        innocent, *crowd = [self.talker(served) for _ in range(CROWD + 1)]
        self.assert_talk(innocent, "SIZE = SIZE 0")
        for it in crowd:
            it.send("OFFER 0 a\n" * REQUESTS)
        due = self.queue().due
        wait_until(lambda: self.node.ask("ZCARD", due), "nothing is offered")
        began = time.monotonic()
        for _ in range(5):
            self.assertRegex(innocent.ask("SIZE"), r"^SIZE \d+$")
        took = time.monotonic() - began
        there = int(innocent.ask("SIZE").split(" ")[1])
        for it in crowd:
            self.assertEqual({it.read().split(" ")[0] for _ in range(REQUESTS)}, {"OFFERED"})
        self.assert_talk(innocent, f"SIZE = SIZE {CROWD * REQUESTS}")
        self.assertLess(there, CROWD * REQUESTS / 2, "the innocent one has waited for the crowd")
        print(f"crowd: {CROWD} clients with {REQUESTS} requests each; one with 5 took {took:.2f} s", flush=True)
        for it in crowd:
            it.send(f"DRAIN {HELD}\n")
            self.assert_talk(it, f"= DRAINED {HELD}", *["= ITEM .*"] * HELD)
        self.assert_ends_well(served, CROWD + 1)
        self.assertEqual(self.node.slow(), [])


class TurnsTest(unittest.TestCase):
    def setUp(self) -> None:
        self.turns, self.told = Turns(), []

    def add(self, name: str, count: int, sessions: int = 1) -> Part:
        calls = [f"{name} SIZE {it}".encode() for it in range(count)]
        part = Part(b"front", calls, lambda replies: self.told.append(name), sessions)
        self.turns.add(part)
        return part

    def taken(self) -> tuple[Batch, dict[str, int]]:
        """The next batch, and how many calls of each are in it."""
        batch = self.turns.take(b"rb_calls")
        return batch, {it.calls[0].decode().split(" ")[0]: it.count for it in batch.parts}

    def make(self, batch: Batch, count: int | None = None) -> None:
        """So many of its calls are made, or all."""
        batch.take([b"SIZE 0\n"] * (batch.count if count is None else count))
        self.turns.put_back(batch)

    def test_one_alone_gets_all(self) -> None:
        self.add("one", 200)
        batch, counts = self.taken()
        self.assertEqual((counts, len(batch.calls()), bool(self.turns)), ({"one": 200}, 200, False))

    def test_many_get_a_share_each_and_who_comes_anew_is_before_them(self) -> None:
        for it in range(1_000):
            self.add(f"c{it}", 256)
        self.add("innocent", 1)
        batches = [self.taken()]
        self.assertEqual(set(batches[0][1].values()), {FIRST_SHARE})
        while "innocent" not in batches[-1][1]:
            self.make(batches[-1][0])
            batches.append(self.taken())
        self.assertLess(len(batches), 8)
        self.make(batches[-1][0])
        self.add("another", 1)
        batch, counts = self.taken()
        self.assertIn("another", counts)
        self.assertEqual(max(counts.values()), SHARE)

    def test_calls_that_are_not_made_go_out_again_in_their_order(self) -> None:
        one, other = self.add("one", 10), self.add("other", 10)
        batch, _ = self.taken()
        calls = batch.calls()
        self.make(batch, 13)
        self.assertEqual((len(one.replies), len(other.replies)), (10, 3))
        batch, counts = self.taken()
        self.assertEqual((counts, batch.calls()), ({"other": 7}, calls[13:]))

    def test_who_had_none_made_is_first_again(self) -> None:
        for it in ("a", "b", "c"):
            self.add(it, 4)
        batch, _ = self.taken()
        self.make(batch, 4)
        self.add("d", 4)
        self.assertEqual(list(self.taken()[1]), ["b", "c", "d"])

    def test_those_who_were_served_are_not_forgotten(self) -> None:
        self.add("old", 300)
        self.make(self.taken()[0])
        for it in range(1_000):
            self.add(f"c{it}", 1)
        self.assertIn("old", self.taken()[1])

    def test_who_waits_together_is_tried_for_together(self) -> None:
        self.add("tries", 100, 100)
        self.add("other", 200)
        self.assertEqual(self.taken()[1], {"tries": 100, "other": 156})

    def test_a_batch_has_one_gateway(self) -> None:
        self.add("one", 1)
        self.turns.add(Part(b"later front", [b"x SIZE"], lambda replies: None, 1))
        self.assertEqual([self.taken()[0].count for _ in range(2)], [1, 1])

    def test_the_most_follows_what_the_redis_gets_done(self) -> None:
        self.add("one", 100_000)
        for sent, made, seconds, most in (
                (256, 256, 0.001, 512), (512, 512, 0.001, MOST), (MOST, 200, 0.01, 200), (200, 200, 0.1, 100),
                (100, 10, 0.01, LEAST), (LEAST, LEAST, 1.0, LEAST), (10, 10, 0.001, LEAST)):
            self.turns.adapt(sent, made, seconds)
            batch, _ = self.taken()
            self.assertEqual((batch.count, len(batch.calls())), (most, most))
            self.make(batch)
