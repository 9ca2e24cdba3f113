"""A node whose clock is set, or that takes over with another clock than the one before: no job is early, no retry is
hot, no poll ends at once, no lease is over before its time, and none lasts for ever."""
from __future__ import annotations

import os
import shutil
import subprocess
import tempfile
import time
import unittest
from pathlib import Path

from gateway_test import GatewayTest
from nodes import ALWAYS, FORGETFUL, Cluster, Node, Replicas, Sentinels, wait_until
from rb_broker_redis.clock import NodeClock
from rb_broker_redis.leases import Leases
from rb_broker_redis.protocol import SECOND
from talker import Talker

MINUTE, DAY = 60, 86_400  # seconds
SHIM = Path(__file__).with_name("set_clock.c")


class Clock:
    """One that nodes read, and that may be set."""

    def __init__(self, room: Path, name: str) -> None:
        shim, self._file = room / "set_clock.so", room / name
        subprocess.run(["cc", "-shared", "-fPIC", "-o", shim, SHIM, "-ldl"], check=True)
        self.environment = {"LD_PRELOAD": str(shim), "SET_CLOCK": str(self._file)}
        self.set(0)

    def set(self, seconds: int) -> None:
        """By so many seconds, seen from the machine's."""
        written = self._file.with_suffix(".new")
        written.write_text(str(seconds))
        os.replace(written, self._file)


@unittest.skipUnless(shutil.which("cc"), "there is no cc, with which set_clock.c is compiled")
class SetClockTest(GatewayTest):
    @classmethod
    def setUpClass(cls) -> None:
        room = Path(cls.enterClassContext(tempfile.TemporaryDirectory(prefix="rb-test-")))
        cls.clock = Clock(room, "clock")
        cls.node = Node(room / "node", FORGETFUL, cls.clock.environment)
        cls.addClassCleanup(cls.node.kill)

    def setUp(self) -> None:
        super().setUp()
        self.addCleanup(self.clock.set, 0)

    def test_no_job_is_early_behind_a_clock_that_was_set_back(self) -> None:
        served = self.gateway("--delay", "30s", "--attempts", 20)
        talker = self.talker(served)
        last = int(talker.ask("OFFER 0 failing").split()[2])
        self.clock.set(-MINUTE)
        expiry = int(talker.ask(f"OFFER {30 * SECOND} a").split()[2])
        self.assertGreaterEqual(expiry, last + 30 * SECOND)
        self.assert_talk(talker, r"POLL = ITEM 0 \d+ 1 failing", r"FAIL 0 = AGAIN 2 \d+", "POLL = NONE")
        self.clock.set(29)
        self.assert_talk(talker, "POLL = NONE")
        self.clock.set(35)
        self.assert_talk(talker, "POLL = ITEM 1 .* 1 a", "POLL = ITEM 2 .* 2 failing")

    def test_a_poll_takes_its_time_and_no_more(self) -> None:
        talker = self.talker(None, "--wait", "60s")
        self.assert_talk(talker, "SIZE = SIZE 0")
        self.clock.set(-MINUTE)
        self.assert_waits(talker, f"POLLFOR {2 * SECOND}")
        self.assert_talk(talker, "= STOPPED", f"OFFER {SECOND} a = OFFERED .*")
        self.begin_wait(talker, "TAKE")
        self.clock.set(2)
        self.assert_talk(talker, "= ITEM .* a")

    def test_leases_hold_where_the_clock_leaps(self) -> None:
        served = [self.serve("--lease", "2s") for _ in range(2)]
        talkers = [self.talker(it) for it in served]
        for number, it in enumerate(talkers):
            self.assert_talk(it, f"OFFER 0 a = OFFERED {number} .*", f"POLL = ITEM {number} .*")
        for seconds in (0, DAY, 2 * DAY, 0):
            self.clock.set(seconds)
            time.sleep(2)
            self.assert_talk(talkers[0], "SIZE = SIZE 0")
        for number, it in enumerate(talkers):
            self.assert_talk(it, f"DONE {number} = DONE {number}")
        for way, what in (("forward", "jobs are due that much earlier"), ("back", "no time passes .* the next 172.*")):
            wait_until(lambda: f"set {way}" in served[0].said, f"it does not say that the clock was set {way}")
            self.assertRegex(served[0].said, f"the clock at queue .* was set {way} by .* s: {what}")

    def test_a_lease_ends_where_no_time_passes(self) -> None:
        dying, other = self.serve("--lease", "2s"), self.serve("--lease", "2s", "--wait", "60s")
        holder, heir = self.talker(dying), self.talker(other)
        self.assert_talk(holder, "OFFER 0 a = OFFERED .*", "TAKE = ITEM .*")
        self.clock.set(-DAY)
        dying.kill()
        self.assert_talk(heir, "TAKE = ITEM .* 2 a")

    def test_a_node_that_takes_over_with_a_clock_that_is_behind(self) -> None:
        behind = Clock(self.room, "behind")
        behind.set(-MINUTE)
        watched = self.till_end(Replicas(self.room / "nodes", 1, ALWAYS, behind.environment))
        sentinels = self.till_end(Sentinels(self.room / "sentinels", watched))
        talker = self.talker(self.gateway("--delay", "30s", "--timeout", "60s", redis=sentinels.url))
        last = int(talker.ask("OFFER 0 failing").split()[2])
        wait_until(lambda: watched.replicas[0].ask("ZCARD", f"{{{self.name}}}:due"), "the replica does not follow")
        watched.primary.kill()
        self.assert_nothing_is_early(talker, last)

    def test_a_queue_that_is_moved_to_a_node_whose_clock_is_behind(self) -> None:
        clock = Clock(self.room, "clocks")
        cluster = self.till_end(Cluster(self.room / "cluster", FORGETFUL, clock.environment))
        talker = self.talker(self.gateway("--delay", "30s", "--timeout", "60s", redis=cluster.url))
        last = int(talker.ask("OFFER 0 failing").split()[2])
        clock.set(-MINUTE)
        slot = cluster.slot_of(self.name)
        cluster.move(slot, next(it for it in cluster.nodes if it is not cluster.owner_of(slot)))
        self.assert_nothing_is_early(talker, last)

    def assert_nothing_is_early(self, talker: Talker, last: int) -> None:
        """A job that was offered at this moment, and fails now, comes back as late as another with that delay."""
        expiry = int(talker.ask(f"OFFER {30 * SECOND} a").split()[2])
        self.assertGreaterEqual(expiry, last + 30 * SECOND)
        self.assert_talk(talker, "POLL = ITEM .* 1 failing", r"FAIL 0 = AGAIN 2 \d+", "POLL = NONE", "SIZE = SIZE 2")


class LeasesTest(unittest.TestCase):
    def looked(self, *looks: tuple[bytes, ...]) -> list[tuple[bytes, ...]]:
        """Who is late after each of these looks, where a lease takes three looks."""
        leases, late = Leases(10), []
        for it in looks:
            leases.look(it)
            late.append(leases.late())
        return late

    def test_a_lease_is_over_once_enough_looks_found_one_score(self) -> None:
        same = (b"7", b"50", b"30")
        self.assertEqual(self.looked(same, same, same, same), [(), (), (), (b"7", b"50")])

    def test_a_renewal_begins_anew(self) -> None:
        one, other = (b"7", b"50", b"30"), (b"7", b"60", b"30")
        self.assertEqual(self.looked(one, one, one, other, other, other, other), [()] * 6 + [(b"7", b"60")])

    def test_each_has_its_own_lease_and_sessions_that_are_ended_wait_for_nobody(self) -> None:
        both = (b"7", b"50", b"90", b"8", b"5", b"10")
        self.assertEqual(self.looked(both, both), [(), (b"8", b"5")])
        self.assertEqual(self.looked((b"9", b"0", b"30")), [(b"9", b"0")])

    def test_what_is_forgotten_is_seen_anew(self) -> None:
        leases, same = Leases(10), (b"7", b"50", b"30")
        for _ in range(3):
            leases.look(same)
        leases.forget()
        leases.look(same)
        leases.update(same)
        self.assertEqual(leases.late(), ())


class NodeClockTest(unittest.TestCase):
    def test_a_drift_is_nothing(self) -> None:
        clock = NodeClock()
        self.assertEqual([clock.look(it, 0, it * 2) for it in range(0, SECOND, SECOND // 10)], [""] * 10)

    def test_a_clock_that_is_wrong_from_the_beginning(self) -> None:
        self.assertEqual(NodeClock().look(5 * SECOND, 9 * SECOND, 0),
                         "is wrong: no time passes for the queue in the next 4.0 s")
