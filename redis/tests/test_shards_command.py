"""Another number of queues under one name."""
from __future__ import annotations

from collections import Counter

from judging import replay_chains
from rb_broker_redis.queue import Queue
from rb_broker_redis.shards import Rendezvous, shard_names
from redis_test import SEAT, RedisTest

JOBS = 300


class ShardsTest(RedisTest):
    """What is needed to move jobs to other queues."""

    def queues(self, count: int) -> list[Queue]:
        return [self.queue(it) for it in shard_names(self.name, count)]

    def make(self, count: int, jobs: int = JOBS) -> None:
        """So many queues with some jobs, of which some are in their second attempt, and some are dead."""
        names = shard_names(self.name, count)
        rendezvous = Rendezvous(names)
        self.queue().shards(count)
        for shard, name in enumerate(names):
            queue = self.joined(attempts=2, name=name)
            calls = [f"{SEAT} OFFER 0 job-{it}" for it in range(jobs) if rendezvous.shard_of(b"job-%d" % it) == shard]
            queue.make([*calls, f"{SEAT} DRAIN 20", f"{SEAT} END", *[f"{SEAT} POLL"] * (len(calls) // 2), f"{SEAT} END"])
            self.leave(queue)
        self.archive(count)

    def leave(self, queue: Queue) -> None:
        for it in queue.command("ZRANGE", queue.gateways, 0, -1):
            queue.call("rb_leave", it)

    def archive(self, count: int) -> None:
        self.assertEqual(self.ran("archive", self.room / "archive", "--shards", count)[::2], (0, ""))

    def jobs(self, count: int) -> tuple[Counter[bytes], Counter[bytes]]:
        """The jobs in so many queues without their ids, and the dead ones."""
        found = [[member for it in self.queues(count) for member in it.command("ZRANGE", key(it), 0, -1)]
                 for key in (lambda it: it.due, lambda it: it.dead)]
        return (Counter(it[:20] + it.split(b" ", 2)[2] for it in found[0]), Counter(it[20:] for it in found[1]))

    def assert_moved(self, before: int, count: int, jobs: int = JOBS) -> None:
        """The jobs are moved from so many queues to so many, each once, and are served."""
        self.make(before, jobs)
        expected = self.jobs(before)
        self.assertEqual({it.split(b" ")[1] for it in expected[0]} , {b"1", b"2"})
        status, lines, errors = self.ran("shards", count)
        self.assertEqual((status, errors, len(lines)), (0, "", count))
        self.assertEqual(self.jobs(count), expected)
        self.assert_served(before, count)

    def assert_served(self, before: int, count: int) -> None:
        names, old = shard_names(self.name, count), shard_names(self.name, before)
        for it in map(self.queue, {*old} - {*names}):
            self.assertEqual([it.command("ZCARD", key) for key in (it.due, it.dead)], [0, 0])
            self.assertEqual(it.command("HEXISTS", it.state, "loading"), 0)
        rendezvous = Rendezvous(names)
        for shard, name in enumerate(names):
            queue = self.joined(attempts=2, name=name)
            members = queue.command("ZRANGE", queue.due, 0, -1)
            self.assertEqual(queue.command("HLEN", queue.ids), len(members))
            if count < before:
                self.assertEqual({rendezvous.shard_of(it.rpartition(b" ")[2]) for it in members} | {shard}, {shard})
            queue.make([f"{SEAT} POLL", f"{SEAT} POLL", f"{SEAT} END", f"{SEAT} SIZE"])
        self.archive(count)
        for path in sorted((self.room / "archive").iterdir()):
            replay_chains(path, 0, 2)


class ShardsCommandTest(ShardsTest):
    def test_fewer(self) -> None:
        self.assert_moved(4, 2)

    def test_more(self) -> None:
        self.assert_moved(2, 3)

    def test_from_one_queue_and_to_one(self) -> None:
        self.assert_moved(1, 3)
        self.assertEqual(self.ran("shards", 1)[::2], (1, f"rb_broker_redis: {self.name}.0: a gateway serves it\n"))
        for it in self.queues(3):
            self.leave(it)
        self.assertEqual(self.ran("shards", 1)[::2], (0, ""))
        self.assert_served(3, 1)

    def test_a_queue_that_was_loaded_and_has_not_been_served(self) -> None:
        history = self.room / "run.txt"
        history.write_text("history 3\nopen 0 0 0\n0 5 5 offer 0 9 0 9 1 a\nend 1\n")
        self.assertEqual(self.ran("load", history, "--began", "@1")[::2], (0, ""))
        self.assertEqual(self.ran("shards", 2)[::2], (0, ""))
        self.assertEqual(sorted(it.command("ZCARD", it.due) for it in self.queues(2)), [0, 1])
        self.joined(attempts=2, name=f"{self.name}.0")  # a gateway is let in

    def test_kills_at_any_moment(self) -> None:
        self.make(4, 4_000)
        expected = self.jobs(4)
        self.assertGreater(self.kill_again_and_again("shards", 2), 2)
        self.assertEqual(self.jobs(2), expected)
        self.assert_served(4, 2)

    def test_queues_that_are_not_at_rest(self) -> None:
        self.make(2, 50)
        one, other = self.queues(2)
        gateway = int(self.joined(attempts=2, name=other.name).command("ZRANGE", other.gateways, 0, -1)[0])
        for why, undo in (
                ("a gateway serves it", lambda: other.call("rb_leave", gateway)),
                ("jobs of it are in hand", lambda: other.make([f"{SEAT} END"])),
                ("it has events that no archive has taken", lambda: self.archive(2))):
            if "hand" in why:
                other.make([f"{SEAT} POLL"])
            self.assertEqual(self.ran("shards", 1)[::2], (1, f"rb_broker_redis: {other.name}: {why}\n"))
            undo()
        self.assertEqual([it.command("HEXISTS", it.state, "loading") for it in (one, other)], [0, 0])
        self.assertEqual(self.ran("shards", 1)[::2], (0, ""))

    def test_a_queue_that_is_not_there(self) -> None:
        self.assert_refused(1, f"there is no queue {self.name}", "shards", 2)
