"""A worker that knows two gateways, of which one is asked to end: all jobs run once, in their first attempt."""
from __future__ import annotations

import random
import shutil
import signal
import threading
import time
import unittest
from collections.abc import Callable

from crew import compiled_java
from gateway_test import GatewayTest
from gateways import Gateway
from nodes import HOST, Process, wait_until
from rb_broker_client import Job, Pauses, Report, Worker

IN_HAND, BEHIND = 20, 10
"""How many jobs are in hand when the gateway is asked to end, and how many are offered then."""


class NextGatewayTest(GatewayTest):
    def setUp(self) -> None:
        super().setUp()
        self.ending, self.next = (self.gateway("--delay", "0s", "--grace", "60s") for _ in range(2))
        self.addresses = f"{HOST}:{self.ending.port},{HOST}:{self.next.port}"
        self.offered: list[str] = []

    def offer(self, count: int) -> None:
        payloads = [f"job-{len(self.offered) + it}" for it in range(count)]
        self.next.ask(*[f"OFFER 0 {it}" for it in payloads])
        self.offered += payloads

    def let_end(self, has_in_hand: Callable[[], object], go_on: Callable[[], object], runs: Callable[[], int]) -> None:
        """The gateway is asked to end once the jobs are in hand, and ends after them, while others are run."""
        self.offer(IN_HAND)
        wait_until(has_in_hand, "the jobs are not fetched")
        self.assertEqual(self.held(), IN_HAND)
        self.ending.signal(signal.SIGTERM)
        self.offer(BEHIND)
        go_on()
        wait_until(lambda: runs() == IN_HAND + BEHIND and not self.held(), "not all jobs are run")
        wait_until(lambda: not self.ending.is_alive, "the gateway does not end")
        self.assertRegex(self.ending.said, r"\nsessions \d+ lost 0\n$")

    def assert_each_ran_once(self, runs: list[tuple[str, int]]) -> None:
        self.assertEqual(sorted(runs), sorted((it, 1) for it in self.offered))
        self.assertEqual(self.next.ask("SIZE"), ["SIZE 0"])

    def test_python(self) -> None:
        runs: list[tuple[str, int]] = []
        may_end = threading.Event()

        def handle(job: Job) -> None:
            runs.append((job.payload, job.attempt))
            may_end.wait()
            time.sleep(random.random())

        worker = Worker(handle, self.addresses, concurrency=IN_HAND, pauses=Pauses(60, 60))
        thread = threading.Thread(target=worker.run)
        thread.start()
        try:
            self.let_end(lambda: len(runs) == IN_HAND, may_end.set, lambda: len(runs))
        finally:
            may_end.set()
            worker.stop()
            thread.join()
        self.assertEqual(worker.report, Report(done=IN_HAND + BEHIND))
        self.assert_each_ran_once(runs)

    @unittest.skipUnless(shutil.which("javac"), "there is no javac")
    def test_java(self) -> None:
        classes = compiled_java(self.room / "classes")
        words = ["java", "-cp", str(classes), "rbbroker.client.ParallelWorker", self.addresses, str(IN_HAND)]
        worker = self.till_end(Process(words, self.room / "worker"))
        worker.start()

        def runs() -> list[tuple[str, int]]:
            lines = [it.split(" ") for it in worker.said.splitlines()]
            return [(it[1], int(it[2])) for it in lines if it[0] == "runs"]

        self.let_end(lambda: len(runs()) == IN_HAND, lambda: worker.give("end"), lambda: worker.said.count("done "))
        self.assert_each_ran_once(runs())
        self.assertNotIn("fault", worker.said)
