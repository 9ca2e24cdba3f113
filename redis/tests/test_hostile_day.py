"""Days on which all goes wrong: gateways, clients, the archive and the Redis itself are killed at any moment, links of
gateways are cut, and a gateway may stand still until its lease is over. One Redis has its clock set back again and again,
and no memory left for a while; slots of a Cluster are moved, and primaries of Sentinels are replaced as planned.

Afterwards the program accepts each history that was archived, with its retries. Each job that was offered is in them
once, each of its attempts came after a failure of the one before, and its last attempt was given and did not come
back. A worker knows that it was done, and no other knows that too; or the job is named, since its worker died or lost
its connection before it could know. None came before its delay had passed. What the clients saw is what the histories
tell, as tools/verify compares them.
"""
from __future__ import annotations

import contextlib
import os
import random
import re
import shutil
import subprocess
import threading
import time
import unittest
from collections.abc import Callable, Sequence
from pathlib import Path

import redis

from accounts import Attempts, attempts_in, early_in, sum_up, told_in
from checking.testing import run_tool
from crew import Crew, Producer, compiled_java
from gateways import COMMAND, POLICY, Gateway
from judging import PROGRAM, faults_in, replay_chains
from nodes import ALWAYS, LONGEST, Cluster, Node, NotReady, Process, Replicas, Sentinels, wait_until
from rb_broker_redis.archive_folder import ArchiveFolder
from rb_broker_redis.shards import shard_names
from redis_test import RoomTest
from serving import HOST
from test_clock import Clock

JOBS = int(os.environ.get("RB_BROKER_JOBS", 1_000))
PATIENCE = 600 + JOBS / 10  # seconds until all jobs are done
GATEWAYS = 3
PRODUCERS = 3
EACH = 2  # workers of each kind
SERVING = (*POLICY, "--wait", "200ms")
QUEUE = "jobs"

WEIGHTS = {"gateway": 2, "worker": 5, "producer": 1, "archive": 1, "lease": 0.5, "redis": 1, "links": 1, "clock": 0.5,
           "memory": 0.5, "slot": 1, "planned": 0.5}
"""How often something befalls something, beside the others."""


class Day(RoomTest):
    """What all days have."""

    shards = 1
    lease = 4
    """Seconds, which a busy machine may well let pass: then sessions lose their jobs while their gateway lives."""

    def setUp(self) -> None:
        super().setUp()
        self.archive = self.room / "archive"
        self.draw = random.Random()
        self.pauses: list[threading.Timer] = []
        self.slow: list[tuple[int, str]] = []
        self.longest = 0
        self.strikes: dict[str, Callable[[], None]] = {
            "gateway": lambda: self.kill(self.gateways), "worker": self.kill_worker,
            "producer": lambda: self.kill(self.producers), "archive": lambda: self.kill([self.archiving]),
            "lease": self.let_lease_pass, "links": self.cut_links}

    def nodes(self) -> list[Node]:
        """The nodes that gateways use."""
        raise NotImplementedError

    def run_day(self, url: str, serving: tuple[object, ...] = SERVING, **strikes: Callable[[], None]) -> None:
        """Lets the day pass, and judges it. `strikes` befall the Redis."""
        self.strikes |= strikes
        self.kills = dict.fromkeys(self.strikes, 0)
        serving = (*serving, "--shards", self.shards, "--lease", f"{self.lease}s")
        self.gateways = [self.till_end(Gateway(self.room, url, QUEUE, serving)) for _ in range(GATEWAYS)]
        self.crew = Crew(self.room, [it.port for it in self.gateways], compiled_java(self.room / "java"))
        for it in self.gateways:
            it.wait()
        self.workers = [self.crew.start_worker(kind) for kind in self.crew.kinds for _ in range(EACH)]
        self.addCleanup(lambda: [it.kill() for it in self.crew.started])
        payloads = [str(it) for it in range(JOBS)]
        self.producers = [self.till_end(Producer(self.crew, f"producer-{it}", payloads[it::PRODUCERS]))
                          for it in range(PRODUCERS)]
        self.take_events = [*COMMAND, "archive", str(self.archive), "--redis", url, "--queue", QUEUE,
                            "--shards", str(self.shards)]
        self.archiving = self.till_end(Process([*self.take_events, "--every", "300ms"], self.room / "archive.log"))
        self.archiving.start()
        self.let_all_go_wrong()
        self.end_in_good_order()
        for it in self.nodes():
            self.note_slow(it)
        self.judge()

    def let_all_go_wrong(self) -> None:
        """Kills one after the other until all offers are made, and then waits until all jobs are done."""
        began = time.monotonic()
        while any(it.is_alive for it in self.producers):
            self.assertLess(time.monotonic(), began + PATIENCE, "the offers are not made in time")
            time.sleep(self.draw.uniform(0.1, 0.8))
            self.start_what_has_ended()
            what = self.draw.choices([*self.kills], [WEIGHTS[it] for it in self.kills])[0]
            self.kills[what] += 1
            self.strikes[what]()
        self.took = time.monotonic() - began
        for pause in self.pauses:
            pause.join()
        wait_until(self.all_listen, "the gateways do not listen")
        wait_until(self.is_empty, "the jobs are not done in time", PATIENCE)

    def kill(self, some: Sequence[Process]) -> None:
        """Kills one of these, and starts it again."""
        killed = self.draw.choice(some)
        killed.kill()
        killed.start()

    def cut_links(self) -> None:
        """Cuts all that gateways and the archive have to a node."""
        with self.draw.choice(self.nodes()).client() as client:
            for kind in ("normal", "pubsub"):
                client.execute_command("CLIENT", "KILL", "TYPE", kind)

    def let_lease_pass(self) -> None:
        """Lets a gateway stand still, unless it is killed, for about as long as its lease or longer."""
        gateway = self.draw.choice(self.gateways)
        gateway.pause()
        going_on = threading.Timer(self.lease * self.draw.uniform(0.8, 2), gateway.go_on)
        going_on.start()
        self.pauses.append(going_on)

    def start_what_has_ended(self) -> None:
        """As a supervisor does: a gateway that finds no Redis when it starts ends."""
        for it in self.gateways:
            if not it.is_alive:
                it.start()

    def all_listen(self) -> bool:
        """Whether all gateways do. One may have begun when the Redis was killed."""
        self.start_what_has_ended()
        return all(it.listens for it in self.gateways)

    def kill_worker(self) -> None:
        """Kills a worker that has had work, and starts another of its kind."""
        place = self.draw.randrange(len(self.workers))
        if self.workers[place].has_worked:
            self.workers[place].kill()
            self.workers[place] = self.crew.start_worker(self.crew.kinds[place // EACH])

    def is_empty(self) -> bool:
        """Whether no job is in the queue or in hand, and stays so for longer than a lease."""
        for _ in range(5 * (self.lease + 1)):
            if self.gateways[0].ask("SIZE") != ["SIZE 0"]:
                return False
            time.sleep(0.2)
        return True

    def end_in_good_order(self) -> None:
        for it in self.workers:
            it.stop()
        for it in self.gateways:
            self.assertEqual(it.end(), 0)
        self.archiving.end()
        ran = subprocess.run(self.take_events, capture_output=True, text=True, timeout=PATIENCE, check=False)
        self.assertEqual((ran.returncode, ran.stderr), (0, ""))

    def note_slow(self, node: Node) -> None:
        """Notes the commands that took long of a node that is about to end."""
        self.slow += node.slow()
        self.longest = max([self.longest, *(took for took, _ in node.logged())])

    def judge(self) -> None:
        self.assertEqual(self.slow, [])
        queues = self.histories()
        histories = [it for files in queues for it in files]
        for files in queues:
            self.replay(files)
        jobs: dict[str, Attempts] = {}
        for files in queues:
            self.assertEqual(run_tool("report", *files).returncode, 0)
            its_jobs = attempts_in(files)
            self.assertEqual(jobs.keys() & its_jobs.keys(), set(), "a payload is in two queues")
            jobs.update(its_jobs)
        faults, said = faults_in(*histories, *[it for it in self.crew.records if it.exists()], "--leases", "--shards",
                                 self.shards)
        offered = set().union(*(it.offered() for it in self.producers))
        self.assertEqual(offered - jobs.keys(), set(), "offers were answered, and are in no history")
        for payload, attempts in jobs.items():
            expected = list(range(1, len(attempts.offered) + 1))
            self.assertEqual(attempts.offered, expected, payload)
            self.assertEqual(attempts.given, expected, payload)
        day = sum_up(jobs, told_in(it.notes for it in self.crew.started))
        self.assertEqual(day.done_twice, [])
        early = early_in(it for it in self.crew.records if it.exists())
        self.assertEqual(early, [])
        self.assertEqual(day.done_once + len(day.in_doubt), day.jobs)
        self.assertLessEqual(len(day.unseen), sum(self.kills.values()), day.unseen)
        print(f"{type(self).__name__}: {JOBS} jobs in {self.took:.0f} s, {self.shards} queues, leases of {self.lease} s; "
              f"commands over {LONGEST / 1_000:.0f} ms: longest {self.longest / 1_000:.0f} ms; killed: "
              f"{', '.join(f'{it} {count}' for it, count in self.kills.items())}; {len(offered)} offers answered, "
              f"{day.jobs} made; {day.done_once} jobs done once, {len(day.done_twice)} twice, {len(day.in_doubt)} in "
              f"doubt, of which {len(day.unseen)} without a note; {len(early)} early; {day.handled_again} handled again, "
              f"{day.late} answers too late; {len(histories)} histories accepted; faults of tools/verify: {faults}", flush=True)
        self.assertEqual(faults, {}, said)

    def replay(self, files: Sequence[Path]) -> None:
        """The program accepts each history, with its retries."""
        for it in files:
            replay_chains(it, 20_000_000, 1_000)

    def histories(self) -> list[list[Path]]:
        """The files of each queue."""
        with contextlib.closing(ArchiveFolder(self.archive)) as folder:
            queues = [folder.files(it) for it in shard_names(QUEUE, self.shards)]
        for files in queues:
            self.assertEqual([it.first for it in files], [0, *(it.end for it in files[:-1])])
        return [[it.path for it in files] for files in queues]


@unittest.skipUnless(shutil.which("javac"), "there is no javac, so no worker in Java takes part in these days")
class JavaWorkerTest(RoomTest):
    def test_a_worker_in_java_takes_part(self) -> None:
        self.assertIsNotNone(compiled_java(self.room))


class OneNodeTest(Day):
    def nodes(self) -> list[Node]:
        return [self.node]

    def test_one_node_that_is_killed_again_and_again_and_whose_clock_is_set_back(self) -> None:
        self.shards, self.lease = self.draw.choice([(1, 4), (3, 4), (1, 1)])
        clock = Clock(self.room, "clock")
        self.node = self.till_end(Node(self.room / "node", ALWAYS, clock.environment))
        self.run_day(self.node.url, redis=self.kill_redis, clock=lambda: clock.set(-self.kills["clock"]),
                     memory=self.fill_memory)
        self.assertEqual(list(self.archive.glob("*.lost-*")), [])

    def fill_memory(self) -> None:
        self.node.ask("CONFIG", "SET", "maxmemory", 1)
        time.sleep(self.draw.uniform(0.1, 1))
        self.node.ask("CONFIG", "SET", "maxmemory", 0)

    def kill_redis(self) -> None:
        self.note_slow(self.node)
        self.node.kill()
        time.sleep(self.draw.uniform(0, 0.5))
        self.node.start()


class ClusterTest(Day):
    """One name over several queues."""

    shards = 3

    def nodes(self) -> list[Node]:
        return [*self.cluster.nodes]

    def test_nodes_of_a_cluster_that_are_killed_and_between_which_slots_are_moved(self) -> None:
        self.cluster = self.till_end(Cluster(self.room / "cluster", ALWAYS))
        self.run_day(self.cluster.url, (*SERVING, "--timeout", "60s"), redis=self.kill_redis, slot=self.move_slot)
        self.assertEqual(list(self.archive.glob("*.lost-*")), [])

    def kill_redis(self) -> None:
        node = self.draw.choice(self.cluster.nodes)
        self.note_slow(node)
        node.kill()
        time.sleep(self.draw.uniform(0, 0.5))
        node.start()
        wait_until(self.cluster.is_ready, "the Cluster does not come back")

    def move_slot(self) -> None:
        slot = self.cluster.slot_of(self.draw.choice(shard_names(QUEUE, self.shards)))
        owner = self.cluster.owner_of(slot)
        self.cluster.move(slot, self.draw.choice([it for it in self.cluster.nodes if it is not owner]))


class SentinelTest(Day):
    def nodes(self) -> list[Node]:
        return [self.sentinels.primary()]

    def test_fail_overs_under_sentinel(self) -> None:
        self.watched = self.till_end(Replicas(self.room / "nodes", 2, ALWAYS))
        self.sentinels = self.till_end(Sentinels(self.room / "sentinels", self.watched))
        self.run_day(self.sentinels.url, (*SERVING, "--replicas", "all"), redis=self.kill_redis, planned=self.fail_over)

    def kill_redis(self) -> None:
        """Kills the primary, and starts it again once another has its place."""
        primary = self.sentinels.primary()
        self.note_slow(primary)
        primary.kill()
        wait_until(lambda: self.sentinels.primary() is not primary, "no replica takes over")
        primary.start()
        self.await_replicas()

    def fail_over(self) -> None:
        before = self.sentinels.primary()
        self.note_slow(before)
        with contextlib.suppress(redis.ResponseError, NotReady):  # the one before is not over, or this one is given up
            redis.Redis(HOST, self.sentinels.ports[0]).execute_command("SENTINEL", "FAILOVER", self.sentinels.name)
            wait_until(lambda: self.sentinels.primary() is not before, "no replica takes over", 10)
        self.await_replicas()

    def replay(self, files: Sequence[Path]) -> None:
        """The program accepts all files as one history. One of them alone may lack what gave a job: a fail-over may lose
        a DONE that was not answered, behind a file that was written meanwhile."""
        words = [*COMMAND, "judge", *files, *POLICY, "--program", PROGRAM]
        ran = subprocess.run([*map(str, words)], capture_output=True, text=True, timeout=PATIENCE, check=False)
        self.assertEqual((ran.returncode, ran.stderr), (0, ""))

    def await_replicas(self) -> None:
        """The next primary is replaced only once both replicas have all that it has."""
        wait_until(lambda: [it["state"] for name, it in self.sentinels.primary().replication().items()
                            if re.fullmatch(r"slave\d", name)] == ["online"] * 2, "the replicas are not in step")
