"""Clients of both packages through a rollover every five seconds, and how long a DONE waits behind a POLLFOR: no job is
lost, none is done twice, and no offer of the command fails. RB_BROKER_DAY is the seconds of a day. Times are those of
a quiet machine.

    RB_BROKER_DAY=600 dev/check service-long --only long_clients
"""
import os
import random
import shutil
import subprocess
import sys
import time
import unittest
from collections import Counter
from collections.abc import Iterable
from pathlib import Path
from statistics import median
from typing import Any

from common.program import TOP
from servicing.tests.process import Service, ServiceTest

SECONDS = float(os.environ.get("RB_BROKER_DAY", "100"))
JOBS = int(SECONDS * 20)
OPTIONS = ("--every", "5s", "--delay", "1s")
PYTHON = {**os.environ, "PYTHONPATH": f"{TOP}/clients/python/src"}
BEHIND, SOON, ROUNDS = 0.99, 0.025, 400  # the share of DONEs behind a wait that are answered within so many seconds

HANDLERS = """
import os, random, time
notes = os.open({notes!r}, os.O_WRONLY | os.O_APPEND | os.O_CREAT, 0o600)
def handle(job):
    time.sleep(random.random() * 0.1)
    fails = job.attempt == 1 and int(job.payload) % 10 == 0
    os.write(notes, f"{{'failed' if fails else 'done'}} {{job.payload}} {{job.attempt}}\\n".encode())
    if fails:
        raise ValueError(job.payload)
"""
PRODUCES = """
import sys, time
from rb_broker_client import Producer
port, first, last = map(int, sys.argv[1:])
with Producer(port) as producer:
    for number in range(first, last):
        producer.offer(str(number), delay=0.05)
        time.sleep({pause})
"""


class DaysTest(ServiceTest):
    began = 0.0  # when there was a service

    def spawn(self, *words: object, **told: Any) -> "subprocess.Popen[str]":
        process = subprocess.Popen([*map(str, words)], encoding="ascii", **told)
        self.addCleanup(process.wait)
        self.addCleanup(process.kill)
        return process

    def test_python(self) -> None:
        """Three workers, a producer, and the command, which offers a job a second."""
        notes = self.path("notes")
        self.file("handlers.py", HANDLERS.format(notes=notes))
        service, self.began = self.begin(*OPTIONS), time.monotonic()
        client = [sys.executable, "-m", "rb_broker_client"]
        workers = [self.spawn(*client, "worker", "handlers:handle", "--port", self.port, "--concurrency", 4,
                              cwd=self.room, env=PYTHON, stdout=subprocess.DEVNULL, stderr=subprocess.DEVNULL)
                   for _ in range(3)]
        script = PRODUCES.format(pause=SECONDS / JOBS)
        producer = self.spawn(sys.executable, "-c", script, self.port, 0, JOBS, env=PYTHON)
        end, number = time.monotonic() + SECONDS, JOBS
        while time.monotonic() < end or producer.poll() is None:
            began = time.monotonic()
            words = [*client, "offer", "0", str(number), "--port", str(self.port)]
            ran = subprocess.run(words, env=PYTHON, capture_output=True, text=True, check=False)
            self.assertEqual((ran.returncode, ran.stdout[:8]), (0, "OFFERED "), (ran.stderr, service.lines[-8:]))
            number += 1
            time.sleep(max(1 - (time.monotonic() - began), 0))
        self.assertEqual(producer.returncode, 0)
        self.judge(service, notes, range(number))
        for it in workers:
            it.terminate()
            self.assertEqual(it.wait(60), 0)
        self.ends(service)

    @unittest.skipUnless(shutil.which("javac"), "there is no javac")
    def test_java(self) -> None:
        """Three workers with two threads each, and a producer."""
        java = Path(TOP, "clients/java")
        sources = [*java.glob("src/**/*.java"), *java.glob("tests/**/Hostile*.java")]
        subprocess.run(["javac", "-d", self.path("classes"), *map(str, sources)], check=True)
        service, self.began = self.begin(*OPTIONS), time.monotonic()
        words = ["java", "-Xmx64m", "-XX:+UseSerialGC", "-cp", self.path("classes")]
        notes = [self.file(f"notes-{number}", "") for number in range(3)]
        workers = [self.spawn(*words, "rbbroker.client.HostileWorker", self.port, it, stdin=subprocess.PIPE)
                   for it in notes]
        producer = self.spawn(*words, "rbbroker.client.HostileProducer", self.port, JOBS, stdout=subprocess.PIPE)
        told = [it.split() for it in producer.communicate()[0].splitlines()]
        self.assertEqual(Counter(what for what, _ in told), {"offered": JOBS})
        self.judge(service, self.file("all", ""), [int(it) for _, it in told], notes)
        for it in workers:
            it.communicate(timeout=60)
            self.assertEqual(it.returncode, 0)
        self.ends(service)

    def judge(self, service: Service, notes: str, offered: Iterable[int], more: Iterable[str] = ()) -> None:
        """Each job was done once, and each tenth failed once before."""
        wanted = Counter(f"{what} {it} {attempt}" for it in offered for what, attempt in (
            (("failed", 1), ("done", 2)) if it % 10 == 0 else (("done", 1),)))
        end, done = time.monotonic() + 120, Counter[str]()
        while done.total() < wanted.total() and time.monotonic() < end:
            time.sleep(0.5)
            lines = [line for it in (notes, *more) for line in Path(it).read_text("ascii").splitlines()]
            done = Counter(it for it in lines if not it.startswith("took"))
        closed = [it["closed"] for it in service.all("serving") if "closed" in it]
        print(f"\n{wanted.total()} attempts, {len(service.all('saved'))} runs, {len(service.all('cut'))} cut; closed "
              f"{max(closed, key=lambda it: float(it[:-1]))} at most")
        self.assertEqual((wanted - done, done - wanted), (Counter(), Counter()))
        self.assertGreaterEqual(len(service.all("saved")), (time.monotonic() - self.began) / 10)


class BehindTest(ServiceTest):
    def test_a_done_behind_a_wait(self) -> None:
        """It ends the wait, which nobody else does. What a request takes that waits for nothing is the machine's."""
        chance, took, usual = random.Random(1), [], []
        with self.serving("--every", "1h") as _:
            it = self.client()
            for number in range(ROUNDS):
                it.ask(f"OFFER 0 job-{number}")
                id = it.ask("TAKE").split(" ")[1]
                began = time.monotonic()
                it.ask("SIZE")
                usual.append(time.monotonic() - began)
                it.send("POLLFOR 1000000000")
                time.sleep(chance.random() * 0.1)
                began = time.monotonic()
                it.send(f"DONE {id}")
                self.assertEqual((it.line(), it.line()), ("STOPPED", f"DONE {id}"))
                took.append(time.monotonic() - began)
            it.ask("QUIT")
        most, least = (sorted(them)[int(ROUNDS * BEHIND) - 1] for them in (took, usual))
        print(f"\na DONE behind a wait: {median(took) * 1e3:.1f} ms (median), {most * 1e3:.1f} ms (99 in 100), "
              f"{max(took) * 1e3:.1f} ms at most; a SIZE {least * 1e3:.1f} ms (99 in 100)")
        self.assertLessEqual(most, SOON + least)
