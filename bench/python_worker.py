#!/usr/bin/env python3
"""Measures the workers of clients/python with the built program: bench/python_worker.py [--program PATH] [--runs N]

For Worker and AsyncWorker, with 1, 8 and 64 jobs at the same time: how many jobs a second they do when all are due
before the worker begins, jobs of nothing and jobs that sleep for 50 ms. Then, with 8 at a time, 10 jobs a second of
50 ms that are offered one by one, at random: how long after its offer a job begins, and how long after the end of its
handler the server has told that the job is done. Server, worker and producer share the machine; medians of N runs (3 by
default). With --crowd alone: a server of four workers, and 1 to 4 times as many clients, of which one is a producer
that connects for each offer and the others are idle workers: how long an offer takes. With --far alone, through a proxy
that delays: jobs a second of workers with 64 jobs at the same time, and the offers of 50 threads or tasks that share
one producer, as rows of a table. RB_BROKER_CLIENT names the sources of another client, such as those of a commit:

    git archive COMMIT clients/python/src | tar -x -C /tmp/before
    RB_BROKER_CLIENT=/tmp/before/clients/python/src bench/python_worker.py --far
"""
import argparse
import asyncio
import json
import logging
import math
import os
import random
import statistics
import subprocess
import sys
import tempfile
import threading
import time
from contextlib import contextmanager

TOP = os.path.dirname(os.path.dirname(os.path.realpath(__file__)))
CLIENT = os.environ.get("RB_BROKER_CLIENT", f"{TOP}/clients/python/src")
sys.path[:0] = [CLIENT, f"{TOP}/dev", f"{TOP}/tools"]

from common.program import add_program_option, built_program  # noqa: E402
from rb_broker_client import AsyncProducer, AsyncWorker, Broker, Producer, Request, Worker  # noqa: E402
from serving.server import Server  # noqa: E402

OPTIONS = ("--workers", 2, "--sessions", 100, "--calls", 1_000_000)
PIECE = 1_000
NAP = 0.05  # seconds that a job sleeps
SPARSE = 200  # jobs that are offered one by one
PAUSE = 0.1  # seconds between two of these, in the mean
SEATS, MINUTE = 4, 60  # workers of a server with more clients, and seconds for which it is watched
ROUND_TRIPS, FAR_NAPS = (0.00015, 0.0025, 0.0055), (0, 0.01)  # seconds, to workers that are far, and of their jobs
FAR_PLACES, FAR_JOBS, FAR_TIME = 64, 20_000, 5  # of a worker, and seconds after which what is left is not waited for
OFFERERS, OFFERS_TRIP = 50, 0.05  # who share a producer for as long, and the seconds of a round trip


class Run:
    """A worker of either kind, in a thread of its own."""

    def __init__(self, is_async, port, nap, concurrency, record=None):
        self.begun, self.ended = {}, {}
        options = {"concurrency": concurrency, "record": record}
        self._nap = nap
        self.worker = AsyncWorker(self._sleep_async, port, **options) if is_async else Worker(
            self._sleep, port, **options)
        run = (lambda: asyncio.run(self.worker.run())) if is_async else self.worker.run
        self._thread = threading.Thread(target=run, daemon=True)
        self._thread.start()

    def await_done(self, count, seconds=math.inf):
        """Waits until so many jobs are done, but no longer than this. Gives how many are."""
        end = time.monotonic() + seconds
        while self.worker.report.done < count and time.monotonic() < end:
            time.sleep(0.002)
        return self.worker.report.done

    def stop(self):
        self.worker.stop()
        self._thread.join()

    def _sleep(self, job):
        self.begun[job.payload] = time.monotonic()
        if self._nap:
            time.sleep(self._nap)
        self.ended[job.id] = time.monotonic_ns()

    async def _sleep_async(self, job):
        self.begun[job.payload] = time.monotonic()
        if self._nap:
            await asyncio.sleep(self._nap)
        self.ended[job.id] = time.monotonic_ns()


@contextmanager
def far(port, round_trip):
    """A port that leads to this one, to which a round trip takes so many seconds more."""
    words = [sys.executable, f"{TOP}/dev/serving/delaying.py", str(port), str(1e3 * round_trip)]
    with subprocess.Popen(words, stdout=subprocess.PIPE, encoding="ascii") as proxy:
        try:
            yield int(proxy.stdout.readline())
        finally:
            proxy.kill()


def far_rate(program, is_async, nap, round_trip):
    """Jobs a second, when all are due, of a worker that is so far away."""
    with Server(OPTIONS, program) as server, far(server.port, round_trip) as port:
        return rate_at(server.port, port, FAR_JOBS, is_async, nap, FAR_PLACES, FAR_TIME)


def far_offers(program, is_async):
    """Offers a second of threads or tasks that share a producer, and the seconds that each took."""
    took = []

    async def offer(number):
        while time.monotonic() < end:
            began = time.monotonic()
            offered = producer.offer(str(number))
            if is_async:
                await offered
            took.append(time.monotonic() - began)

    async def offer_all():
        await asyncio.gather(*map(offer, range(OFFERERS)))

    with Server(OPTIONS, program) as server, far(server.port, OFFERS_TRIP) as port:
        producer = (AsyncProducer if is_async else Producer)(port)
        began = time.monotonic()
        end = began + FAR_TIME
        if is_async:
            asyncio.run(offer_all())
        else:
            threads = [threading.Thread(target=asyncio.run, args=[offer(number)]) for number in range(OFFERERS)]
            for it in threads:
                it.start()
            for it in threads:
                it.join()
        return len(took) / (time.monotonic() - began), took


def rate(program, is_async, nap, concurrency):
    """Jobs a second, when all are due."""
    with Server(OPTIONS, program) as server:
        return rate_at(server.port, server.port, int(100 * concurrency) if nap else 20_000, is_async, nap, concurrency)


def rate_at(near, port, count, is_async, nap, concurrency, seconds=math.inf):
    """Jobs a second of a worker at a port, when so many are due that were offered at another port of the server."""
    with Broker(near) as broker:
        for first in range(0, count, PIECE):
            broker.ask_all([Request.offer(str(it)) for it in range(first, min(first + PIECE, count))])
        broker.quit()
    began = time.monotonic()
    run = Run(is_async, port, nap, concurrency)
    done = run.await_done(count, seconds)
    took = time.monotonic() - began
    run.stop()
    return done / took


def delays(program, is_async):
    """Of jobs that come one by one: the milliseconds until each begins, and those until its end is told."""
    offered, chance = {}, random.Random(7)
    with tempfile.TemporaryDirectory() as room, Server(OPTIONS, program) as server:
        record = open(f"{room}/record", "a", encoding="ascii")
        run = Run(is_async, server.port, NAP, 8, record)
        with Producer(server.port) as producer:
            for number in range(SPARSE):
                offered[str(number)] = time.monotonic()
                producer.offer(str(number))
                time.sleep(chance.expovariate(1 / PAUSE))
        run.await_done(SPARSE)
        run.stop()
        record.close()
        with open(record.name, encoding="ascii") as file:
            lines = [json.loads(it) for it in file]
    done = [(int(it["request"].split()[1]), it["received"]) for it in lines if it["request"].startswith("DONE")]
    begins = [1e3 * (run.begun[it] - offered[it]) for it in offered]
    return begins, [(received - run.ended[id]) / 1e6 for id, received in done]


def crowd(program, clients):
    """The seconds that each offer of a minute takes, beside so many clients less one that are idle workers."""
    logging.disable(logging.WARNING)  # each offer that waits is logged
    waits = []
    with Server(("--workers", SEATS, "--sessions", 10_000, "--calls", 1_000_000, "--turns", 50), program) as server:
        workers = [Worker(lambda job: None, server.port) for _ in range(clients - 1)]
        threads = [threading.Thread(target=it.run, daemon=True) for it in workers]
        for it in threads:
            it.start()
        end = time.monotonic() + MINUTE
        while time.monotonic() < end:
            began = time.monotonic()
            with Producer(server.port, patience=MINUTE) as producer:
                producer.offer(str(len(waits)))
            waits.append(time.monotonic() - began)
            time.sleep(PAUSE)
        for it in workers:
            it.stop()
        for it in threads:
            it.join()
    return waits


def percentile(values, percent):
    return sorted(values)[min(len(values) * percent // 100, len(values) - 1)]


def measure_far(program, kinds, runs):
    """Measures the clients that are far away: a row for each, the median of its runs and the least and greatest."""
    print(f"| of {CLIENT} | ms away | jobs of | a second |\n|---|---|---|---|")
    for name, is_async in kinds:
        for round_trip in ROUND_TRIPS:
            for nap in FAR_NAPS:
                rates = [far_rate(program, is_async, nap, round_trip) for _ in range(runs)]
                print(f"| {name}, {FAR_PLACES} at a time | {1e3 * round_trip:g} | {1e3 * nap:g} ms | "
                      f"{statistics.median(rates):,.0f} ({min(rates):,.0f} to {max(rates):,.0f}) |", flush=True)
    for name, is_async in (("threads of a Producer", False), ("tasks of an AsyncProducer", True)):
        told = [far_offers(program, is_async) for _ in range(runs)]
        rates, took = [it for it, _ in told], [seconds for _, it in told for seconds in it]
        print(f"| {OFFERERS} {name} | {1e3 * OFFERS_TRIP:g} | offers | {statistics.median(rates):,.0f} "
              f"({min(rates):,.0f} to {max(rates):,.0f}), 99th percentile {1e3 * percentile(took, 99):,.0f} ms |",
              flush=True)


def main():
    asked = argparse.ArgumentParser(description=__doc__, formatter_class=argparse.RawDescriptionHelpFormatter)
    add_program_option(asked, "the program to measure")
    asked.add_argument("--runs", type=int, default=3, metavar="N", help="how often each is measured (default: 3)")
    asked.add_argument("--crowd", action="store_true", help="only the server with more clients than workers")
    asked.add_argument("--far", action="store_true", help="only clients that are far away")
    options = asked.parse_args()
    program = built_program(options.program)
    for times in range(1, 5) if options.crowd else ():
        waits = crowd(program, times * SEATS)
        print(f"{times} times as many clients as workers: {len(waits)} offers in {MINUTE} s, seconds of one: median "
              f"{statistics.median(waits):.3f}, greatest {max(waits):.1f}", flush=True)
    if options.crowd:
        return
    kinds = (("Worker", False), ("AsyncWorker", True))
    if options.far:
        measure_far(program, kinds, options.runs)
        return
    for name, is_async in kinds:
        for nap in (0, NAP):
            for concurrency in (1, 8, 64):
                rates = [rate(program, is_async, nap, concurrency) for _ in range(options.runs)]
                print(f"{name}, {concurrency} at a time, jobs of {1e3 * nap:.0f} ms: "
                      f"{statistics.median(rates):.0f} a second ({min(rates):.0f} to {max(rates):.0f})", flush=True)
    for name, is_async in kinds:
        begins, ends = delays(program, is_async)
        for what, values in (("a job begins", begins), ("its end is told", ends)):
            print(f"{name}, {1 / PAUSE:.0f} jobs a second of {1e3 * NAP:.0f} ms, milliseconds until {what}: "
                  f"median {statistics.median(values):.1f}, 99th percentile {percentile(values, 99):.1f}, "
                  f"greatest {max(values):.1f}", flush=True)


if __name__ == "__main__":
    main()
