"""One name over several queues, behind gateways."""
from __future__ import annotations

import random

from gateway_test import GatewayTest
from gateways import Gateway
from judging import replay_chains
from rb_broker_redis.queue import Queue
from talker import Talker

SHARDS = 3


class ShardedGatewayTest(GatewayTest):
    def serve(self, *words: object) -> Gateway:
        return super().serve("--shards", SHARDS, *words)

    def shards(self) -> list[Queue]:
        return [self.queue(f"{self.name}.{it}") for it in range(SHARDS)]

    def sizes(self) -> list[int]:
        """How many elements are in each queue."""
        return [it.command("ZCARD", it.due) for it in self.shards()]

    def offer(self, talker: Talker, count: int, delay: int = 0) -> dict[str, str]:
        """Offers so many jobs. The payload of each id."""
        replies = talker.asks(*(f"OFFER {delay} job-{it}" for it in range(count)))
        return {words[1]: f"job-{it}" for it, words in enumerate(replies)}

    def test_jobs_are_spread_and_each_is_given_once(self) -> None:
        talker = self.talker()
        payloads = self.offer(talker, 60)
        self.assertEqual(len(payloads), 60)
        self.assertGreater(min(self.sizes()), 5)
        self.assert_talk(talker, "SIZE = SIZE 60")
        taken = {}
        for _ in range(60):
            word, id, _, attempt, payload = talker.ask("TAKE").split()
            self.assertEqual((word, attempt), ("ITEM", "1"))
            taken[id] = payload
            self.assert_talk(talker, f"DONE {id} = DONE {id}")
        self.assertEqual(taken, payloads)
        self.assert_talk(talker, "SIZE = SIZE 0", "POLL = NONE", "PEEK = NONE")

    def test_the_earliest_of_all_queues_comes_first(self) -> None:
        talker = self.talker()
        expiries = random.Random(5).sample(range(1, 1_000), 40)
        talker.asks(*(f"OFFERAT {it} job-{it}" for it in expiries))
        self.assert_talk(talker, fr"PEEK = HEAD \d+ {min(expiries)} .*")
        self.assertEqual([int(it[2]) for it in talker.asks(*["POLL"] * 40)], sorted(expiries))

    def test_another_number_of_shards_is_refused(self) -> None:
        self.talker()
        for count in (1, 2, 4):
            self.assert_refused(3, f"queue {self.name} has 3 shards: say --shards 3, or move its jobs by the command"
                                " shards", "serve", "--port", 0, "--shards", count)
            self.assert_refused(1, f"queue {self.name} has 3 shards: say --shards 3", "dead", "--shards", count)
        self.node.ask("UNLINK", self.queue().state)  # as an earlier version leaves it
        for count in (1, 2):
            self.assertEqual(self.ran("serve", "--port", 0, "--shards", count)[0], 3)

    def test_a_job_that_fails_stays_in_its_queue(self) -> None:
        talker = self.talker()
        self.offer(talker, 1)
        sizes, none = self.sizes(), [0] * SHARDS
        for attempt, word, left in (("1", "AGAIN", sizes), ("2", "AGAIN", sizes), ("3", "DEAD", none)):
            _, id, _, its_attempt, payload = talker.ask("TAKE").split()
            self.assertEqual((its_attempt, payload, self.sizes()), (attempt, "job-0", none))
            reply = talker.ask(f"FAIL {id}").split()
            self.assertEqual((reply[0], self.sizes()), (word, left))
        self.assertEqual(reply[1], id)

    def test_a_session_holds_64_of_all_queues(self) -> None:
        talker = self.talker()
        self.offer(talker, 80)
        self.assert_talk(talker, "DRAIN 10 = DRAINED 10")
        ids = [talker.read().split()[1] for _ in range(10)]
        self.assert_talk(talker, "DRAIN 100 = DRAINED 54")
        ids += [talker.read().split()[1] for _ in range(54)]
        self.assertEqual(len(set(ids)), 64)
        self.assert_talk(talker, "POLL = ERR 9 held", "TAKE = ERR 9 held", "POLLFOR 0 = ERR 9 held",
                         "DRAIN 5 = DRAINED 0", f"DONE {ids[0]} = DONE {ids[0]}", "POLL = ITEM .*")

    def test_an_element_is_removed_by_its_id(self) -> None:
        talker = self.talker()
        ids = list(self.offer(talker, 10, 10**12))
        self.assert_talk(talker, *(f"REMOVE {it} = REMOVED yes" for it in ids), f"REMOVE {ids[0]} = REMOVED no",
                         "SIZE = SIZE 0")

    def test_what_a_session_holds_at_its_end_comes_back(self) -> None:
        served = self.serve()
        with self.talker(served) as one:
            payloads = self.offer(one, 12)
            one.ask("DRAIN 12")
        items = self.talker(served).asks(*["TAKE"] * 12)
        self.assertEqual({(it[3], it[4]) for it in items}, {("2", it) for it in payloads.values()})

    def test_a_wait_is_ended_by_any_queue(self) -> None:
        served, other = self.serve("--wait", "60s"), self.talker()
        waiting = [self.talker(served) for _ in range(12)]
        for talker in waiting:
            self.begin_wait(talker, "TAKE")
        self.assertTrue(waiting[0].is_silent(0.3))
        self.offer(other, 12)
        items = [it.read().split() for it in waiting]
        self.assertEqual({it[4] for it in items}, {f"job-{it}" for it in range(12)})
        for talker, item in zip(waiting, items):
            self.assert_talk(talker, f"DONE {item[1]} = DONE {item[1]}")

    def test_sigterm_ends_it_in_good_order(self) -> None:
        served = self.serve()
        talker = self.talker(served)
        self.offer(talker, 9)
        self.assert_talk(talker, "DRAIN 9 = DRAINED 9")
        self.assert_ends_well(served, 1)
        self.assertEqual(sum(self.sizes()), 9)
        self.assertEqual(sum(it.command("ZCARD", it.held) for it in self.shards()), 0)

    def test_the_history_of_each_queue_is_chained(self) -> None:
        one, other = self.serve(), self.serve()
        talkers = [self.talker(served) for served in (one, other) for _ in range(3)]
        chance = random.Random(1)
        for _ in range(200):
            for talker in talkers:
                talker.send(f"OFFER {chance.randrange(5_000_000)} job-{chance.randrange(100)}\nPOLLFOR 3000000\n")
            for talker in talkers:
                talker.read()
                item = talker.read().split()
                if item[0] == "ITEM":
                    talker.ask(chance.choice((f"DONE {item[1]}", f"FAIL {item[1]}")))
        for talker in talkers:
            talker.hang_up()
        other.end()
        for shard in self.shards():
            lines = [it.decode() for it in shard.command("LRANGE", shard.history, 0, -1)]
            self.assertGreater(len(lines), 20)
            path = self.room / shard.name
            path.write_text("\n".join(["history 3", "open 0 0 0", *lines, f"end {len(lines)}", ""]))
            self.assertEqual(replay_chains(path, 0, 3), len(lines))
