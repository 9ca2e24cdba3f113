"""What holds at one node holds under Sentinels and in a Cluster too."""
from __future__ import annotations

import tempfile
from pathlib import Path

import test_gateway
import test_shards_command
import test_talks
import test_versions
from gateways import Gateway
from nodes import FORGETFUL, Cluster, Replicas, Sentinels

TALKS = dict(test_talks.talks())


class Everywhere(test_talks.TalkTest, test_shards_command.ShardsTest, test_versions.VersionsTest):
    """The tests, at nodes that are there for all of them."""

    more: tuple[object, ...] = ()

    def serve(self, *options: object) -> Gateway:
        return super().serve(*self.more, *options)

    test_a_redis_that_may_throw_queues_away = test_gateway.EndsTest.test_a_redis_that_may_throw_queues_away

    def test_a_full_redis_takes_no_offer_and_lets_all_work_out(self) -> None:
        self.addCleanup(self.node.ask, "CONFIG", "SET", "maxmemory", 0)
        self.play(TALKS["a full Redis takes no offer and lets all work out"])

    def test_the_jobs_of_fewer_queues_are_moved(self) -> None:
        self.assert_moved(3, 2)
        self.assert_refused(3, f"queue {self.name} has 2 shards: say --shards 2, or move its jobs by the command shards",
                            "serve", "--port", 0, "--shards", 3)


class SentinelsTest(Everywhere):
    more = ("--replicas", 1)

    @classmethod
    def setUpClass(cls) -> None:
        room = Path(cls.enterClassContext(tempfile.TemporaryDirectory(prefix="rb-test-")))
        watched = Replicas(room / "nodes", 1, FORGETFUL)
        cls.addClassCleanup(watched.kill)
        cls.node = Sentinels(room / "sentinels", watched)
        cls.addClassCleanup(cls.node.kill)


class ClusterTest(Everywhere):
    @classmethod
    def setUpClass(cls) -> None:
        room = Path(cls.enterClassContext(tempfile.TemporaryDirectory(prefix="rb-test-")))
        cls.node = Cluster(room / "cluster", FORGETFUL)
        cls.addClassCleanup(cls.node.kill)


del Everywhere  # which is no test by itself
