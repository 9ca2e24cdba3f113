"""Which shard gets a payload, and the ids that clients see."""
from __future__ import annotations

import hashlib
import unittest

from rb_broker_redis.shards import MOST_SHARDS, Rendezvous, inner_id, outer_id, shard_names


class RendezvousTest(unittest.TestCase):
    def test_the_greatest_score_gets_the_payload(self) -> None:
        # By `printf 'a\nletter-17' | sha256sum` and the same with b: c26f.. and d394..
        self.assertEqual(hashlib.sha256(b"a\nletter-17").hexdigest()[:4], "c26f")
        self.assertEqual(hashlib.sha256(b"b\nletter-17").hexdigest()[:4], "d394")
        self.assertEqual(Rendezvous(["a", "b"]).shard_of(b"letter-17"), 1)
        self.assertEqual(Rendezvous(["b", "a"]).shard_of(b"letter-17"), 0)

    def test_payloads_whose_sums_were_made_by_hand(self) -> None:
        # By `printf 'NAME\nPAYLOAD' | sha256sum`: the names whose sums are the greatest for these payloads.
        two = {"ann": "b", "bob": "a", "letter-17": "b", "letter-18": "a"}
        three = {"letter-17": "b", "letter-18": "a", "letter-23": "a", "letter-25": "c", "": "c"}
        for names, expected in ((["a", "b"], two), (["a", "b", "c"], three), (["c", "b", "a"], three)):
            for payload, name in expected.items():
                self.assertEqual(names[Rendezvous(names).shard_of(payload.encode())], name, payload)

    def test_each_shard_has_its_share(self) -> None:
        shards = Rendezvous(shard_names("jobs", 4))
        counts = [0] * 4
        for number in range(4_000):
            counts[shards.shard_of(b"job-%d" % number)] += 1
        # Of 4,000 payloads a shard gets 1,000, with a deviation of 27.
        self.assertTrue(all(850 < it < 1_150 for it in counts), counts)

    def test_a_shard_more_takes_only_what_it_gets(self) -> None:
        before, after = (Rendezvous(shard_names("jobs", count)) for count in (3, 4))
        for number in range(1_000):
            payload = b"job-%d" % number
            self.assertIn(after.shard_of(payload), (before.shard_of(payload), 3))


class NamesTest(unittest.TestCase):
    def test_the_names(self) -> None:
        self.assertEqual(shard_names("jobs", 1), ["jobs"])
        self.assertEqual(shard_names("jobs", 3), ["jobs.0", "jobs.1", "jobs.2"])
        self.assertEqual(len(shard_names("jobs", 64)), 64)
        for count in (0, 65):
            self.assertRaises(ValueError, shard_names, "jobs", count)


class IdTest(unittest.TestCase):
    def test_an_id_and_its_shard_are_one_number(self) -> None:
        seen = {outer_id(shard, id) for shard in range(MOST_SHARDS) for id in range(10)}
        self.assertEqual(seen, set(range(640)))
        for shard, id in ((0, 0), (63, 0), (5, 2**40)):
            self.assertEqual(inner_id(outer_id(shard, id)), (shard, id))
        self.assertLess(outer_id(63, 2**40), 2**47)
