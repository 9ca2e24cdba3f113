"""What is lost when a Redis dies, with each setting of its durability: offers that were answered, and are not there.

A node is killed by SIGKILL. The system still writes what the node had handed to it, so a machine that loses its power is
played as well: what was not synced is cut off the node's file. A disk is slow where the machine's may not be.
"""
from __future__ import annotations

import contextlib
import os
import random
import re
import shutil
import subprocess
import tempfile
import threading
import time
import unittest
from collections.abc import Callable, Sequence
from itertools import count
from pathlib import Path
from typing import NamedTuple

import redis

from gateways import Gateway
from nodes import ALWAYS, EVERYSEC, FORGETFUL, PATIENCE, Node, NotReady, Replicas, Sentinels, wait_until
from redis_test import RoomTest
from serving import HOST
from serving.session import Session

ROUNDS = int(os.environ.get("RB_BROKER_ROUNDS", 1))
PRODUCERS = 4
SECONDS = 2.0  # before the kill
ON_THE_WAY = 0.5  # seconds in which replies that the Redis has given reach the producers
MOST_TRIES = 10
QUEUE = "jobs"
SHIM = Path(__file__).with_name("disk.c")


class Offers:
    """Producers in threads, which offer as fast as they can until their session breaks."""

    def __init__(self, port: int) -> None:
        self.answered: dict[str, float] = {}  # payload to the time of the answer
        self._threads = [threading.Thread(target=self._offer, args=(port, it), daemon=True) for it in range(PRODUCERS)]
        self.is_over = False
        for it in self._threads:
            it.start()

    def _offer(self, port: int, producer: int) -> None:
        with Session(port) as session:
            for number in count():
                if self.is_over or not session.ask(f"OFFER 3600000000000 {producer}-{number}").startswith("OFFERED "):
                    return
                self.answered[f"{producer}-{number}"] = time.monotonic()

    def end(self) -> None:
        self.is_over = True
        for it in self._threads:
            it.join(PATIENCE)


class Lost(NamedTuple):
    """What became of the offers that were answered."""

    answered: int
    lost: int
    seconds: float
    """How long before the kill the first of the lost ones was answered."""


class LostTest(RoomTest):
    def tried(self, row: str, round_of: Callable[[Path], Lost]) -> Lost:
        """The sum of some rounds."""
        rounds = [round_of(Path(tempfile.mkdtemp(dir=self.room))) for _ in range(ROUNDS)]
        total = Lost(sum(it.answered for it in rounds), sum(it.lost for it in rounds), max(it.seconds for it in rounds))
        print(f"lost: {row}: {total.lost} of {total.answered} answered offers in {ROUNDS} rounds, "
              f"the first {total.seconds:.2f} s before the end", flush=True)
        return total

    def assert_loses_last(self, seconds: float, row: str, round_of: Callable[[Path], Lost]) -> None:
        """Lost are offers that were answered in so many last seconds. A busy machine may sync late, or kill late, so it
        has some tries."""
        for _ in range(MOST_TRIES):
            total = self.tried(row, round_of)
            if total.lost and total.seconds < seconds:
                return
        self.fail(f"{row}: {total}")

    def offered_until(self, room: Path, redis: str, kill: Callable[[], None], *options: object) -> tuple[Offers, float]:
        """Offers through a gateway until the kill. The answers, and the time of the kill."""
        gateway = Gateway(room, redis, QUEUE, options)
        gateway.wait()
        self.offers = offers = Offers(gateway.port)
        wait_until(lambda: offers.answered, "no offer is answered")
        time.sleep(random.uniform(0.6, 1.0) * SECONDS)
        kill()
        killed = time.monotonic()
        time.sleep(ON_THE_WAY)
        gateway.kill()  # which would let the producers wait for a Redis
        offers.end()
        return offers, killed

    def missing(self, offers: Offers, killed: float, node: Node) -> Lost:
        """What of the answered offers a node does not have."""
        there = {it.split(b" ")[-1].decode() for it in node.ask("ZRANGE", f"{{{QUEUE}}}:due", 0, -1)}
        lost = [when for payload, when in offers.answered.items() if payload not in there]
        return Lost(len(offers.answered), len(lost), max((killed - it for it in lost), default=0.0))

    def killed(self, options: Sequence[str], kill: Callable[[Node], None] = Node.kill) -> Callable[[Path], Lost]:
        """Rounds in which a node is killed."""

        def round_of(room: Path) -> Lost:
            node = Node(room / "node", options, self.environment())
            try:
                offers, killed = self.offered_until(room, node.url, lambda: kill(node))
                self.lose_more(room / "node")
                node.start()
                return self.missing(offers, killed, node)
            finally:
                node.kill()

        return round_of

    def environment(self) -> dict[str, str]:
        """That of a node that is killed."""
        return {}

    def lose_more(self, folder: Path) -> None:
        """Takes away what else is lost with the node: nothing."""


def unwritten(node: Node) -> tuple[int, int]:
    """How many syncs a node with `everysec` has under way, and how many bytes of calls are not written. Those that it
    answers while a sync is under way are written once that is over, or in two seconds."""
    with node.client() as client:
        said = client.info("persistence")
    return said["aof_pending_bio_fsync"], said["aof_buffer_length"]


def kill_in_a_sync(node: Node) -> None:
    """Kills a node with `everysec` that has answered calls and not written them."""
    wait_until(lambda: all(unwritten(node)), "it never syncs")
    node.kill()


def kill_between_syncs(node: Node) -> None:
    """Kills a node with `everysec` that has written all that it answered: it has synced in this second of its clock, in
    which it begins no other sync."""

    def is_between() -> bool:
        second = int(time.time())
        node.ask("SET", "mark", second)
        if any(unwritten(node)):
            return False
        node.pause()
        if int(time.time()) > second:
            node.go_on()
            return False
        return True

    wait_until(is_between, "it always syncs")
    node.kill()


class OneNodeTest(LostTest):
    def test_always_and_a_kill(self) -> None:
        self.assertEqual(self.tried("always, kill", self.killed(ALWAYS)).lost, 0)

    def test_everysec_and_a_kill_between_two_syncs(self) -> None:
        total = self.tried("everysec, kill between two syncs", self.killed(EVERYSEC, kill_between_syncs))
        self.assertEqual(total.lost, 0)

    def test_no_file_and_a_kill(self) -> None:
        total = self.tried("no file, kill", self.killed(FORGETFUL))
        self.assertEqual(total.lost, total.answered)


@unittest.skipUnless(shutil.which("cc"), "there is no cc, with which disk.c is compiled")
class DiskTest(LostTest):
    def environment(self) -> dict[str, str]:
        shim = self.room / "disk.so"
        subprocess.run(["cc", "-shared", "-fPIC", "-o", shim, SHIM, "-ldl"], check=True)
        return {"LD_PRELOAD": str(shim)}


class SlowDiskTest(DiskTest):
    """Each sync takes 0.4 seconds."""

    def environment(self) -> dict[str, str]:
        return {**super().environment(), "SYNC_TAKES": "400000"}

    def test_always(self) -> None:
        self.assertEqual(self.tried("always, slow disk, kill", self.killed(ALWAYS)).lost, 0)

    def test_everysec(self) -> None:
        self.assert_loses_last(1, "everysec, slow disk, kill in a sync", self.killed(EVERYSEC, kill_in_a_sync))


class PowerCutTest(DiskTest):
    def lose_more(self, folder: Path) -> None:
        for file in (folder / "appendonlydir").glob("*.incr.aof"):
            note = Path(f"{file}.synced")
            os.truncate(file, int(note.read_text()) if note.exists() else 0)

    def test_always(self) -> None:
        self.assertEqual(self.tried("always, power cut", self.killed(ALWAYS)).lost, 0)

    def test_everysec(self) -> None:
        # A second, and the sync that is under way.
        self.assert_loses_last(3, "everysec, power cut", self.killed(EVERYSEC))


class FailOverTest(LostTest):
    def failed_over(self, is_cut_off: bool, *options: object) -> Callable[[Path], Lost]:
        """The primary is killed, at once or 0.3 seconds after its replica was cut off."""

        def round_of(room: Path) -> Lost:
            watched = Replicas(room / "nodes", 1, ALWAYS)
            sentinels = Sentinels(room / "sentinels", watched)
            primary, (replica,) = watched.primary, watched.replicas

            def kill() -> None:
                if is_cut_off:
                    replica.pause()
                    primary.ask("CLIENT", "KILL", "TYPE", "replica")
                    time.sleep(0.3)
                primary.kill()
                replica.go_on()

            try:
                offers, killed = self.offered_until(room, sentinels.url, kill, *options)
                wait_until(lambda: sentinels.primary() is replica and replica.replication()["role"] == "master",
                           "the replica does not take over")
                return self.missing(offers, killed, replica)
            finally:
                sentinels.kill()
                watched.kill()

        return round_of

    def test_a_replica_that_keeps_up(self) -> None:
        self.tried("replica, kill, fail-over", self.failed_over(False))

    def test_a_replica_that_was_cut_off(self) -> None:
        self.assert_loses_last(1, "replica that was cut off for 0.3 s, kill, fail-over", self.failed_over(True))

    def test_replies_that_wait_for_a_replica(self) -> None:
        for is_cut_off in (False, True):
            total = self.tried(f"--replicas 1, {'cut off for 0.3 s, ' if is_cut_off else ''}kill, fail-over",
                               self.failed_over(is_cut_off, "--replicas", 1))
            self.assertEqual(total.lost, 0)


class TwoReplicasTest(LostTest):
    """A primary with two replicas, under Sentinel."""

    def struck(self, strike: Callable[[Sentinels], None], *options: object) -> Callable[[Path], Lost]:
        """Something befalls the nodes, and the primary is another one."""

        def round_of(room: Path) -> Lost:
            watched = Replicas(room / "nodes", 2, ALWAYS)
            sentinels = Sentinels(room / "sentinels", watched)
            try:
                offers, struck = self.offered_until(room, sentinels.url, lambda: strike(sentinels), *options)
                return self.missing(offers, struck, sentinels.primary())
            finally:
                sentinels.kill()
                watched.kill()

        return round_of

    def replace(self, sentinels: Sentinels, strike: Callable[[Node], object], undo: Callable[[Node], object]) -> None:
        """Something befalls the primary, and is undone once another node has its place."""
        before = sentinels.primary()
        strike(before)
        wait_until(lambda: sentinels.primary() is not before and sentinels.primary().replication()["role"] == "master",
                   "no replica takes over")
        undo(before)
        wait_until(lambda: before.replication()["role"] == "slave", "the primary before does not follow")

    def fail_over(self, sentinels: Sentinels) -> None:
        """As planned. On a busy machine the Sentinels may give it up."""

        def strike(before: Node) -> None:
            while sentinels.primary() is before:
                with contextlib.suppress(redis.ResponseError, NotReady):
                    redis.Redis(HOST, sentinels.ports[0]).execute_command("SENTINEL", "FAILOVER", sentinels.name)
                    wait_until(lambda: sentinels.primary() is not before, "no replica takes over", 15)

        self.replace(sentinels, strike, Node.go_on)

    def test_planned_fail_overs(self) -> None:
        self.tried("2 replicas, --replicas 1, SENTINEL FAILOVER", self.struck(self.fail_over, "--replicas", 1))
        total = self.tried("2 replicas, --replicas 2, SENTINEL FAILOVER", self.struck(self.fail_over, "--replicas", 2))
        self.assertEqual(total.lost, 0)

    def test_a_planned_fail_over_as_soon_as_the_primary_before_follows(self) -> None:
        """Which the Sentinels may not know yet."""

        def strike(sentinels: Sentinels) -> None:
            self.replace(sentinels, Node.kill, Node.start)
            wait_until(lambda: [it["state"] for name, it in sentinels.primary().replication().items()
                                if re.fullmatch(r"slave\d", name)] == ["online"] * 2, "the replicas are not in step")
            self.fail_over(sentinels)

        total = self.tried("2 replicas, --replicas all, primary killed and back, SENTINEL FAILOVER",
                           self.struck(strike, "--replicas", "all", "--timeout", "60s"))
        self.assertEqual(total.lost, 0)

    def test_a_primary_before_that_a_replica_still_follows(self) -> None:
        """As many have what it does as have to have what the next one does."""

        def strike(sentinels: Sentinels) -> None:
            for it in sentinels.watched.replicas:  # each may take over, and none follows another one
                it.ask("ACL", "SETUSER", "default", "-replicaof", "-slaveof", "+slaveof|no")
            self.fail_over(sentinels)

        total = self.tried("2 replicas, --replicas all, SENTINEL FAILOVER, one follows the primary before",
                           self.struck(strike, "--replicas", "all", "--timeout", "60s"))
        self.assertEqual(total.lost, 0)

    def test_all_that_are_up(self) -> None:
        """Nothing is lost, and offers are answered while a replica is dead."""

        def strike(sentinels: Sentinels) -> None:
            dead = sentinels.watched.replicas[0]
            dead.kill()
            self.await_offers()
            dead.start()
            wait_until(lambda: not any(it["is_sdown"] for port in sentinels.ports for it in redis.Redis(
                HOST, port).sentinel_slaves(sentinels.name)), "the Sentinels do not find it again")
            time.sleep(1)  # in which the gateway looks, too
            self.await_offers()
            self.fail_over(sentinels)

        total = self.tried("2 replicas, --replicas all, one dies and comes back, SENTINEL FAILOVER",
                           self.struck(strike, "--replicas", "all", "--timeout", "60s"))
        self.assertEqual(total.lost, 0)

    def await_offers(self) -> None:
        """Waits until offers that are made now are answered."""
        before = len(self.offers.answered)
        wait_until(lambda: len(self.offers.answered) > before + 2 * PRODUCERS, "no offer is answered")

    def test_a_primary_that_stands_still(self) -> None:
        for replicas in (1, "all"):
            total = self.tried(f"2 replicas, --replicas {replicas}, primary stands still",
                               self.struck(lambda it: self.replace(it, Node.pause, Node.go_on), "--replicas", replicas))
        self.assertEqual(total.lost, 0)
