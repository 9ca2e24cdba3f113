"""Dead jobs: they are listed, offered again and dropped."""
from __future__ import annotations

from rb_broker_redis.protocol import SECOND
from rb_broker_redis.queue import Queue
from redis_test import SEAT, RedisTest


class DeadTest(RedisTest):
    def with_dead(self, count: int, name: str = "") -> Queue:
        """A queue of jobs with one attempt each, of which so many have died."""
        queue = self.joined(attempts=1, name=name)
        for first in range(0, count, 500):
            numbers = range(first, min(first + 500, count))
            calls = [f"{SEAT} {it}" for number in numbers for it in (f"OFFER 0 job-{number}", "POLL", f"FAIL {number}")]
            replies = [it.decode() for it in queue.make(calls)]
            self.assertEqual({it.split(" ")[0] for it in replies[1::3]}, {"ITEM"})
            self.assertEqual(replies[2::3], [f"DEAD {number}\n" for number in numbers])
        return queue

    def assert_listed(self, ids: list[str], *words: object) -> None:
        """These are the dead jobs."""
        self.assertEqual([line.split(" ")[0] for line in self.ran("dead", *words)[1]], ids)

    def test_a_list(self) -> None:
        self.with_dead(2)
        status, lines, errors = self.ran("dead")
        self.assertEqual((status, errors, len(lines)), (0, "", 2))
        for number, line in enumerate(lines):
            self.assertRegex(line, rf"^{number} 20\d\d-\d\d-\d\dT\d\d:\d\d:\d\d\.\d{{9}}Z attempt 1 job-{number}$")

    def test_a_queue_without_dead_jobs_and_one_that_is_not_there(self) -> None:
        self.assert_prints([], "dead")
        self.joined()
        self.assert_prints([], "dead")
        self.assert_prints([], "dead", "--offer", "--all")

    def test_an_offer_is_a_new_job(self) -> None:
        queue = self.with_dead(3)
        self.assert_prints(["1: offered as 3"], "dead", "--offer", 1)
        self.assertRegex(queue.request("POLL", SEAT), r"^ITEM 3 \d+ 1 job-1$")
        self.assert_listed(["0", "2"])

    def test_an_offer_with_a_delay(self) -> None:
        queue = self.with_dead(1)
        before = int(queue.request("OFFER 0 before", SEAT).split(" ")[2])
        self.assert_prints(["0: offered as 2"], "dead", "--offer", "--all", "--delay", "1h")
        after = int(queue.request("OFFER 0 after", SEAT).split(" ")[2])
        queue.request("DRAIN 2", SEAT)
        offered = int(queue.request("PEEK", SEAT).split(" ")[2]) - 3_600 * SECOND
        self.assertTrue(before <= offered <= after, (before, offered, after))

    def test_a_drop(self) -> None:
        queue = self.with_dead(3)
        self.assert_prints(["0: dropped", "2: dropped"], "dead", "--drop", 0, 2)
        self.assert_listed(["1"])
        self.assert_prints(["1: dropped"], "dead", "--drop", "--all")
        self.assertEqual(queue.request("SIZE", SEAT), "SIZE 0")

    def test_a_full_redis_lets_jobs_out(self) -> None:
        self.with_dead(2)
        self.addCleanup(self.node.ask, "CONFIG", "SET", "maxmemory", 0)
        self.node.ask("CONFIG", "SET", "maxmemory", 1)
        self.assertEqual(self.ran("dead", "--offer", 0), (1, [], "rb_broker_redis: 0: ERR 7 memory\n"))
        self.assert_prints(["1: dropped"], "dead", "--drop", 1)
        self.assert_listed(["0"])

    def test_more_than_are_read_at_a_time(self) -> None:
        self.with_dead(2_500)
        self.assertEqual(len(self.ran("dead")[1]), 2_500)
        self.assertEqual(len(self.ran("dead", "--offer", "--all")[1]), 2_500)
        self.assertEqual(self.joined(attempts=1).request("SIZE", SEAT), "SIZE 2500")

    def test_a_job_that_is_not_dead(self) -> None:
        self.with_dead(1)
        status, lines, errors = self.ran("dead", "--drop", 7, 0)
        self.assertEqual((status, lines, errors), (1, ["0: dropped"], "rb_broker_redis: 7: no such dead job\n"))

    def test_shards_show_the_ids_of_clients(self) -> None:
        self.with_dead(2, f"{self.name}.0")
        self.with_dead(1, f"{self.name}.1")
        shards = ("--shards", 2)
        self.assert_listed(["0", "64", "1"], *shards)
        self.assert_prints(["64: offered as 128"], "dead", *shards, "--offer", 64)
        self.assert_prints(["1: dropped"], "dead", *shards, "--drop", 1)
        self.assert_refused(1, "2: no such dead job", "dead", *shards, "--drop", 2)

    def test_words_that_are_refused(self) -> None:
        unnamed = "name the jobs by their ids, or write --all"
        self.assert_wrong_words(
            "dead", (["--offer"], unnamed), (["--drop", "1", "--all"], unnamed),
            (["1"], "ids and --all need --offer or --drop"), (["--offer", "--drop", "1"], "not allowed with"),
            (["--drop", "-1"], ""), (["--offer", "1", "--delay", "5x"], "'5x' is no duration"))
