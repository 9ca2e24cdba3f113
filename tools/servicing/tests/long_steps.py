"""The service, its server or both are killed before each step that leaves something behind, from a start through a
rollover to an end: nothing is lost but a run whose server was killed, which is said. That takes some minutes, so
`dev/check service-long` alone runs it."""
import contextlib
import sys
import time
from collections import Counter
from pathlib import Path

from common.program import TOP, tested_program
from servicing.tests.process import Client, Service, ServiceTest
from servicing.tests.store import Store

# Runs the service, and kills before a step: PLACE WHAT NOTE COMMAND.. It says the step in a file.
KILLS = r"""
import os, runpy, signal, socket, subprocess, sys, threading
place, what, note, *words = sys.argv[1:]
count, servers, lock = 0, [], threading.Lock()

def stop_before(module, name, holds=lambda *_: True):
    real = getattr(module, name)

    def step(*given, **more):
        global count
        if holds(*given):
            with lock:
                count += 1
                if count == int(place):
                    with open(note, "w") as file:
                        file.write(name)
                    for it in servers[-1:] if what != "service" else ():
                        it.kill()
                    if what != "server":
                        os.kill(os.getpid(), signal.SIGKILL)
        done = real(*given, **more)
        if name == "__init__" and given[1][1] == "serve":
            servers.append(given[0])
        return done

    setattr(module, name, step)

for name in "rename", "fsync", "unlink", "memfd_create":
    stop_before(os, name)
stop_before(os, "write", lambda _, text: text == b"drain\n")
stop_before(socket, "send_fds", lambda _, texts, *__: b"FDSTORE" in texts[0] or b"BARRIER" in texts[0])
stop_before(subprocess.Popen, "__init__")
sys.argv = words
sys.path.insert(0, os.path.dirname(words[0]))
runpy.run_path(words[0], run_name="__main__")
"""
OPTIONS = "--every", "1s", "--delay", "0s"
SERVED = 2  # runs of a service, unless it is killed before
SOON = 1.0  # seconds; a client that nobody has greeted by then comes again
MOST = 1000  # steps


class StepsTest(ServiceTest):
    def every_step(self, what: str, store: Store | None = None) -> None:
        names, place = Counter[str](), 0
        while name := self.step(what, place := place + 1, store):
            names[name] += 1
            self.assertLess(place, MOST)
        print(f"\n{what} killed{' while its descriptors are kept' if store else ''}: {dict(names)}")
        self.assertGreater(min(names[it] for it in ("rename", "fsync", "unlink", "__init__")), SERVED)

    def step(self, what: str, place: int, store: Store | None) -> str:
        """Kills before the step at a place. Returns the step's name, or nothing if there were fewer."""
        folder, note, left = self.path(f"runs-{place}"), Path(self.path(f"note-{place}")), Counter[int]()
        with self.serving(*OPTIONS, folder=folder, store=store):
            self.work(left, 3)
        command = [sys.executable, "-B", "-c", KILLS, str(place), what, str(note), f"{TOP}/tools/service", "--program",
                   tested_program()]
        service = self.start(*OPTIONS, folder=folder, store=store, command=command)
        while service.process.poll() is None and len(service.all("serving")) < SERVED:
            self.work(left, 20)
        status = service.stop()
        again, was_killed = self.begin(*OPTIONS, folder=folder, store=store), note.exists() and what != "server"
        lost = {int(it["run"]) for them in (service, again) for it in them.all("lost-run")}
        with self.subTest(what=what, place=place, name=note.exists() and note.read_text("ascii"), lost=lost):
            self.assertEqual(status, -9 if was_killed else 0, service.lines)
            self.assertLessEqual(len(lost), int(what != "service"))
            self.assertEqual((self.lost_by_greeting(), again.stop()), (len(lost), 0))
            wanted = sum(count for run, count in left.items() if run not in lost)
            self.assertEqual(int(again.all("saved")[-1]["left"]), wanted, (service.lines, again.lines))
        return note.read_text("ascii") if note.exists() else ""

    def work(self, left: Counter[int], count: int) -> None:
        """Offers so many jobs and does some, and counts by the replies what that leaves of each run's."""
        with contextlib.suppress(OSError, EOFError), Client(self.port) as it:
            patience = it.socket.gettimeout()
            it.socket.settimeout(SOON)
            run = int(it.greeted().greeting.split(" ")[1])
            it.socket.settimeout(patience)
            for number in range(count):
                it.send("OFFER 0 job")
                left[run] += it.line().startswith("OFFERED ")
                it.send("POLL")
                words = it.line().split(" ")
                time.sleep(0.02)
                if words[0] == "ITEM" and number % 3 == 1:  # else it is held
                    it.send(f"DONE {words[1]}")
                    left[run] -= it.line() == f"DONE {words[1]}"
            it.ask("QUIT")
            return
        time.sleep(0.01)

    def lost_by_greeting(self) -> int:
        greeting = ""
        while not greeting:
            with contextlib.suppress(OSError, EOFError), Client(self.port) as it:
                greeting = it.greeted().greeting
                it.ask("QUIT")
        return int(greeting.split(" ")[3])


class ServiceStepsTest(StepsTest):
    def test_alone(self) -> None:
        self.every_step("service")


class KeptServiceStepsTest(StepsTest):
    def test_kept(self) -> None:
        self.every_step("service", self.store())


class ServerStepsTest(StepsTest):
    def test_alone(self) -> None:
        self.every_step("server")


class BothStepsTest(StepsTest):
    def test_alone(self) -> None:
        self.every_step("both")


class KeptBothStepsTest(StepsTest):
    def test_kept(self) -> None:
        self.every_step("both", self.store())
