"""A day of a service with a ledger: 16 clients that are busy and 8 that come all the time, a rollover every few
seconds, and kills of the service in each of its states, of its server, and of both. RB_BROKER_DAY is its seconds; in
one of many minutes rollovers and kills come every 20 seconds."""
import contextlib
import os
import random
import signal
import sys
import threading
import time
from collections import Counter
from datetime import datetime
from pathlib import Path
from statistics import median
from typing import Any, Self

import pytest

from common.program import tested_program
from servicing.tests.ledger import Gap, Item, Judgement, Ledger, Offer, gaps, judged, late_behind, spread, told
from servicing.tests.process import Client, Service, ServiceTest
from servicing.tests.store import Store

SECONDS = float(os.environ.get("RB_BROKER_DAY", "100"))
STATES = ("serving", "ending", "between-runs", "saved", "service")
EVERY, PAUSE = (20, 20.0) if SECONDS >= 600 else (5, 4.0)  # seconds of a run, and about that between two kills
PATIENCE = 600  # seconds for what is left at the end, and for a service to serve, on a machine that does much else
WORK, DELAY = 0.1, 2.0  # seconds: the longest job, and the longest delay of most
SELDOM, LONG = 0.02, 300.0  # the share of jobs that wait for longer, and for how long at most
GAPS = 0.150, 0.400  # seconds for which nobody is served at a rollover, at the median and at worst
LATE, GROWS = 0.005, 0.020  # seconds; a few milliseconds that are lost at each rollover would be more than the second
TOLD = 0.100  # seconds of a gap of which it is told what took them
MOST_TAKEN = 0.1  # the share of its processors' time that a quiet machine is without
LOOK = 0.05  # seconds
PROCESSORS = os.cpu_count() or 1

# The program, but that one server has another job in the place of one of a client that it begins with, and says which.
SWAPS = """#!{python}
import os, sys
words = sys.argv[1:]
if "--from" in words:
    place = words.index("--from") + 1
    with open(words[place], "rb") as file:
        opening = file.read()
    jobs = [it.split()[-1] for it in opening.splitlines() if it.startswith(b"keep ")]
    jobs = [it for it in jobs if it.startswith(b"c")]
    if jobs and not os.path.exists({swapped!r}):
        with open({swapped!r}, "wb") as file:
            file.write(jobs[0])
        opening = opening.replace(b" %s\\n" % jobs[0], b" another\\n")
    os.write(memory := os.memfd_create("opening", 0), opening)
    words[place] = f"/dev/fd/{{memory}}"
os.execv({program!r}, [{program!r}, *words])
"""


class Customer:
    """A client that offers a job, takes one and does it, again and again."""

    def __init__(self, port: int, name: str, stays: bool, longest: float, is_over: threading.Event) -> None:
        self.ledger, self._port, self._name, self._stays, self._is_over = Ledger(), port, name, stays, is_over
        self._longest, self._count = longest, 0

    def run(self) -> None:
        while not self._is_over.is_set():
            began = time.monotonic()
            try:
                with Client(self._port) as it:
                    run = greeted(it, self.ledger)
                    self.ledger.waits.append(time.monotonic() - began)
                    while self._works(it, run) and self._stays and not self._is_over.is_set():
                        pass
                    it.ask("QUIT")
            except EOFError:
                pass  # a run ended
            except OSError as fault:
                self.ledger.faults.append(repr(fault))
                time.sleep(0.02)

    def _works(self, it: Client, run: int) -> bool:
        self._count += 1
        longest = self._longest if random.random() < SELDOM else DELAY
        payload, delay, sent = f"{self._name}-{self._count}", random.random() * longest, time.monotonic()
        self.ledger.doubts[payload] = run
        if asked(it, f"OFFER {int(delay * 1e9)} {payload}", run, self.ledger).startswith("OFFERED "):
            self.ledger.offered[payload] = Offer(run, sent + delay, time.monotonic() + delay)
        del self.ledger.doubts[payload]
        for request in ("POLLFOR 100000000", "POLL"):  # by which what waited behind a rollover is made up for
            words = asked(it, request, run, self.ledger).split(" ")
            if words[0] == "ITEM":
                self.ledger.given.append(Item(words[4], run, int(words[3]), time.monotonic()))
                time.sleep(random.random() * WORK)
                settle(it, words, run, self.ledger)
        return words[0] != "ERR"


def greeted(it: Client, ledger: Ledger) -> int:
    """The run that serves this client."""
    _, number, _, lost, *_ = it.greeted().greeting.split(" ")
    run, ledger.lost = int(number), int(lost)
    ledger.served[run].append(time.monotonic())
    return run


def asked(it: Client, request: str, run: int, ledger: Ledger) -> str:
    it.send(request)
    line = it.line()
    ledger.served[run][1:] = [time.monotonic()]
    return line


def settle(it: Client, words: list[str], run: int, ledger: Ledger) -> None:
    if asked(it, f"DONE {words[1]}", run, ledger) == f"DONE {words[1]}":
        ledger.done.append((words[4], run))


class Host:
    """What the host of this machine takes of the time of its processors during a `with`, as the system tells of it."""

    def __enter__(self) -> Self:
        self._is_over, self._told = threading.Event(), [self._seconds()]
        self._looks = threading.Thread(target=self._look, daemon=True)
        self._looks.start()
        return self

    def __exit__(self, *_: object) -> None:
        self._is_over.set()
        self._looks.join()

    def _look(self) -> None:
        is_over = False
        while not is_over:
            is_over = self._is_over.wait(LOOK)
            self._told.append(self._seconds())

    def _seconds(self) -> tuple[float, float]:
        """When this looks, and what was taken until then."""
        words = Path("/proc/stat").read_text("ascii").split(maxsplit=9)
        return time.monotonic(), int(words[8]) / os.sysconf("SC_CLK_TCK")

    def share(self, gap: Gap) -> float:
        """The share that it took meanwhile."""
        begin, before = [it for it in self._told if it[0] <= gap.begin][-1]
        end, behind = next(it for it in self._told if it[0] >= gap.end)
        return (behind - before) / (end - begin) / PROCESSORS


def steps(service: Service, run: int) -> str:
    """How long each step took from a run's end to the next run, by the lines that the service said."""
    said = [(event, next(it for it in service.all(event) if it["run"] == str(number))) for event, number in (
        ("ending", run), ("between-runs", run), ("saved", run), ("serving", run + 1))]
    at = [datetime.fromisoformat(it["time"]) for _, it in said]
    took = (f"{event} {(end - begin).total_seconds():.3f} s" for (event, _), begin, end in zip(said, at, at[1:]))
    return f"run {run}, {', '.join(took)}; closed={said[-1][1]['closed']}"


@pytest.mark.timeout(2 * SECONDS + 2 * PATIENCE)
class DayTest(ServiceTest):
    OPTIONS = ("--every", f"{EVERY}s", "--turn-within", "2s", "--delay", "0s", "--stop-within", "10s",
               "--attempts", "1000")

    def test_rollovers_alone(self) -> None:
        services, ledgers = self.day()
        self.assertEqual([it for one in ledgers for it in one.faults], [])
        self.assertFalse(any(it.all("lost-run") for it in services))
        few, many = late_behind(ledgers, 0, 2), late_behind(ledgers, 6, 1000)
        if few < LATE:  # or clients come late, of which a rollover is not the reason
            self.assertLess(many - few, GROWS)

    def test_kills(self) -> None:
        self.day(("service", "server", "both"))

    def test_kills_while_somebody_keeps_its_descriptors(self) -> None:
        _, ledgers = self.day(("service", "server", "both"), store=self.store())
        self.assertEqual([it for one in ledgers for it in one.faults if "refused" in it], [])

    def test_gaps(self) -> None:
        """For how long nobody is served at a rollover, on a quiet machine: while its host has its processors do
        something else, nothing is quick."""
        with Host() as host:
            services, ledgers = self.lived((), 24 * EVERY)
        them, behind = list[float](), gaps(ledgers, self.lost(services))
        self.assertGreater(len(behind), 20)
        for run, it in behind.items():
            taken = host.share(it)
            if taken < MOST_TAKEN:
                them.append(it.seconds)
            if it.seconds > TOLD:
                print(f"nobody served for {it.seconds:.3f} s, the host took {taken:.0%}: {steps(services[-1], run)}")
        print(f"{len(them)} gaps of {len(behind)} count: {spread(them)}")
        if os.getloadavg()[0] > PROCESSORS or len(them) <= 20:
            self.skipTest(f"this machine does much else: gaps {spread([it.seconds for it in behind.values()])}")
        self.assertLess(median(them), GAPS[0])
        self.assertLess(max(them), GAPS[1])

    def test_a_loss_that_is_planted(self) -> None:
        """It is found, and named."""
        swapped = self.path("swapped")
        told = SWAPS.format(python=sys.executable, swapped=swapped, program=tested_program())
        program = self.file("program", told)
        os.chmod(program, 0o700)
        services, ledgers = self.lived((), 12, program=program)
        wanted = Judgement(gone=[Path(swapped).read_text("ascii")], unasked=["another"])
        self.assertEqual(judged(ledgers, self.lost(services)), wanted)

    def day(self, kills: tuple[str, ...] = (), **more: Any) -> tuple[list[Service], list[Ledger]]:
        services, ledgers = self.lived(kills, SECONDS, **more)
        lost = self.lost(services)
        self.assertEqual(judged(ledgers, lost), Judgement())
        self.assertEqual(ledgers[-1].lost, len(lost), "clients are told of each")
        self.assertLessEqual(len(lost), sum(count for what, count in self.killed.items() if "server" in what))
        return services, ledgers

    def lived(self, kills: tuple[str, ...], seconds: float, **more: Any) -> tuple[list[Service], list[Ledger]]:
        """Lets services and clients live for so long, and does what is left then."""
        is_over, services, self.killed = threading.Event(), [self.begin(*self.OPTIONS, **more)], Counter[str]()
        longest = min(LONG, seconds / 4)
        them = [Customer(self.port, f"c{place}", place < 16, longest, is_over) for place in range(24)]
        threads = [threading.Thread(target=it.run, daemon=True) for it in them]
        for thread in threads:
            thread.start()
        end, count = time.monotonic() + seconds, 0
        while time.monotonic() < end:
            time.sleep(PAUSE * (0.5 + random.random()))
            if kills:
                self.kill(services, kills[count % len(kills)], STATES[count // len(kills) % len(STATES)], **more)
                count += 1
        is_over.set()
        for thread in threads:
            thread.join()
        ledgers = [*(it.ledger for it in them), self.rest()]
        self.ends(services[-1], lost=len(services[-1].all("lost-run")))
        print(f"\n{sum(len(it.all('saved')) for it in services)} runs, {count} kills; "
              f"{told(ledgers, self.lost(services))}\n{dict(sorted(self.killed.items()))}")
        return services, ledgers

    def lost(self, services: list[Service]) -> set[int]:
        return {int(it["run"]) for service in services for it in service.all("lost-run")}

    def kill(self, services: list[Service], what: str, state: str, store: Store | None = None) -> None:
        """Kills it as soon as a state has begun; `service` is that of one that has just been started, and finds what
        another has left. Between two runs there is no server, and behind `saved` one is about to listen."""
        if state == "service":
            services[-1].kill()
            services.append(self.start(*self.OPTIONS, store=store))
            services[-1].wait(state, patience=PATIENCE)
        else:
            with contextlib.suppress(AssertionError):
                services[-1].wait(state, len(services[-1].all(state)) + 1, patience=EVERY + 2)
        service = services[-1]
        self.assertIsNone(service.process.poll(), service.lines[-3:])
        served, killed, end = len(service.all("serving")), ["service"] if what != "server" else [], time.monotonic() + 2
        while what != "service" and state == "saved" and not service.servers and time.monotonic() < end:
            pass
        behind = service.lines[-1].partition(" event=")[2].partition(" ")[0]
        for it in service.servers if what != "service" else ():
            with contextlib.suppress(OSError):
                os.kill(it, signal.SIGKILL)
                killed.append("server")
        if what != "server":
            service.kill()
            services.append(self.start(*self.OPTIONS, store=store))
        self.killed[f"{' and '.join(killed) or 'nothing'} behind {behind}"] += 1
        services[-1].wait("serving", served + 1 if what == "server" else 1, patience=PATIENCE)

    def rest(self) -> Ledger:
        """Does what is left until nothing is, however long that takes."""
        ledger, size, end = Ledger(), "", time.monotonic() + PATIENCE
        while size != "SIZE 0":  # nor does anything wait until it is due
            self.assertLess(time.monotonic(), end, f"{size} is left, which nobody does")
            with contextlib.suppress(OSError, EOFError), Client(self.port) as it:
                run = greeted(it, ledger)
                while (words := asked(it, "POLLFOR 500000000", run, ledger).split(" "))[0] == "ITEM":
                    ledger.given.append(Item(words[4], run, int(words[3]), time.monotonic()))
                    settle(it, words, run, ledger)
                size = asked(it, "SIZE", run, ledger)
        return ledger
