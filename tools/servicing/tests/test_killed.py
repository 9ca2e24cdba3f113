"""The service is killed in each of its states, with and without somebody who keeps its descriptors, and its server."""
import contextlib
import os
import signal
import threading
import time
from collections.abc import Callable
from concurrent.futures import ThreadPoolExecutor
from typing import Any
from unittest import mock

from common.program import tested_program
from serving.server import free_port
from servicing.tests.process import Client, Service, ServiceTest, until

ITEM = "^ITEM [0-9]+ [0-9]+ {} {}$"


class CutTest(ServiceTest):
    def cut(self, **told: Any) -> Service:
        """A service that has just ended its server's input. A client holds a job and reads nothing, so its session does
        not end at once."""
        service = self.begin("--stop-within", "1s", "--delay", "0s", **told)
        it = self.client(receive_buffer=4096)
        self.assertRegex(it.ask("OFFER 0 job"), "^OFFERED ")
        self.assertRegex(it.ask("TAKE"), ITEM.format(1, "job"))
        it.fill()
        service.process.send_signal(signal.SIGTERM)
        service.wait("cut")
        return service


class AloneTest(CutTest):
    """Nobody keeps its descriptors: the run ends in good order with the service, and the next one has its history."""

    def collected(self, *options: str) -> Service:
        """The next service, which takes what the server has left in memory."""
        again = self.begin("--delay", "0s", *options)
        self.assertEqual(again.all("resume")[0]["how"], "collect")
        return again

    def test_while_it_serves(self) -> None:
        """What is held comes back at the cost of an attempt, and a client sees an end and no reset."""
        service, it = self.begin("--delay", "0s"), self.client()
        self.assertRegex(it.ask("OFFER 0 job"), "^OFFERED ")
        self.assertRegex(it.ask("TAKE"), ITEM.format(1, "job"))
        service.kill()
        self.assertFalse(it.is_cut())
        until(lambda: not service.servers, "the server ends")
        again = self.collected()
        self.assertRegex(self.ask("TAKE")[0], ITEM.format(2, "job"))
        self.assertEqual((again.all("saved")[0]["run"], again.all("serving")[0]["run"]), ("1", "2"))
        self.ends(again)

    def test_the_next_one_knows_of_another_runtime_directory(self) -> None:
        os.mkdir(self.path("first"))
        with mock.patch.dict(os.environ, XDG_RUNTIME_DIR=self.path("first")):
            service = self.begin()
        self.offer(3)
        service.kill()
        self.assertEqual(len(os.listdir(self.path("first/rb_broker"))), 2)
        with mock.patch.dict(os.environ, XDG_RUNTIME_DIR=self.path("none")):
            again = self.collected()
        self.has_left(3)
        self.ends(again)
        self.assertEqual(os.listdir(self.path("first/rb_broker")), [])

    def test_while_a_run_ends(self) -> None:
        service, it = self.begin("--delay", "0s"), self.client()
        self.assertRegex(it.ask("OFFER 0 job"), "^OFFERED ")
        self.assertRegex(it.ask("TAKE"), ITEM.format(1, "job"))
        service.process.send_signal(signal.SIGTERM)
        service.wait("ending")
        service.kill()
        self.ends(self.collected())

    def test_while_sessions_are_cut(self) -> None:
        self.cut().kill()
        again = self.collected()
        self.assertRegex(self.ask("TAKE")[0], ITEM.format(2, "job"))
        self.ends(again)

    def test_the_next_one_does_not_wait(self) -> None:
        """It is there before the server has ended."""
        service, it = self.begin(), self.client()
        it.send("TAKE")
        service.kill()
        again = self.collected()
        self.ends(again)

    def test_the_next_one_waits_for_a_server_that_is_stopped(self) -> None:
        service = self.begin()
        self.offer(3)
        server = service.server
        os.kill(server, signal.SIGSTOP)
        service.kill()
        again = self.start()
        again.wait("service")
        time.sleep(0.5)
        self.assertEqual(again.all("serving"), [])
        os.kill(server, signal.SIGCONT)
        again.wait("serving")
        self.has_left(3)
        self.ends(again)


class KeptTest(CutTest):
    """Somebody keeps its descriptors, as systemd does: the server never notices."""

    def test_while_it_serves(self) -> None:
        store = self.store()
        service, it = self.begin(store=store), self.client()
        self.assertRegex(it.ask("OFFER 0 job"), "^OFFERED ")
        id = it.ask("TAKE").split(" ")[1]
        server = service.server
        service.kill()
        self.assertRegex(it.ask("SIZE"), "^SIZE [01]$")  # the service's own element may be there
        again = self.begin(store=store)
        self.assertEqual((again.all("resume")[0]["how"], again.server), ("go on", server))
        self.assertEqual(it.ask(f"DONE {id}"), f"DONE {id}")
        self.ends(again)
        self.assertEqual((again.all("saved")[0]["left"], store.kept), ("0", {}))

    def test_while_a_run_ends(self) -> None:
        store = self.store()
        service, it = self.begin(store=store), self.client()
        self.assertRegex(it.ask("OFFER 0 job"), "^OFFERED ")
        id = it.ask("TAKE").split(" ")[1]
        service.process.send_signal(signal.SIGTERM)
        service.wait("ending")
        service.kill()
        again = self.begin(store=store)
        self.assertEqual(it.ask(f"DONE {id}"), f"DONE {id}")
        again.wait("serving", 2)
        self.has_left(0)
        self.ends(again)

    def test_while_sessions_are_cut(self) -> None:
        """The next one waits for the server, whose input is gone."""
        store = self.store()
        self.cut(store=store).kill()
        again = self.begin("--delay", "0s", store=store)
        self.assertEqual(again.all("resume")[0]["how"], "collect")
        self.assertRegex(self.ask("TAKE")[0], ITEM.format(2, "job"))
        self.ends(again)
        self.assertEqual(store.kept, {})

    def test_the_server_ends_while_no_service_is_there(self) -> None:
        store = self.store()
        service = self.begin("--sessions", "3", store=store)
        service.kill()
        self.offer(2)
        with contextlib.suppress(EOFError, OSError):
            while service.servers:
                Client(self.port).hang_up()
                time.sleep(0.05)
        again = self.begin(store=store)
        self.assertEqual(again.all("resume")[0]["how"], "collect")
        self.has_left(2)
        self.ends(again)

    def test_the_next_service_has_another_delay(self) -> None:
        """It says so at once, and the next run, which has it, begins at once."""
        store = self.store()
        self.begin("--delay", "1h", store=store).kill()
        with self.serving("--delay", "0s", store=store) as service:
            told = service.wait("settings")
            wanted = "--delay 3600000000000 --attempts 20", "--delay 0 --attempts 20"
            self.assertEqual((told["was"], told["now"]), wanted)
            service.wait("serving", 2)
            self.assertEqual([it["why"] for it in service.all("ending")], ["settings"])

    def test_the_server_is_killed_meanwhile(self) -> None:
        store = self.store()
        with self.serving(store=store):
            self.offer(3)
        service = self.begin(store=store)
        self.offer(5, name="lost")
        server = service.server
        service.kill()
        os.kill(server, signal.SIGKILL)
        again = self.begin(store=store)
        self.assertEqual(again.all("lost-run")[0]["opening"], "3")
        self.has_left(3)
        self.ends(again, lost=1)


class MomentsTest(ServiceTest):
    """Services are killed after ever other times, while jobs are offered and done. Each is done, and none is lost."""

    def test_alone(self) -> None:
        self.kill_at_any_moment()

    def test_kept(self) -> None:
        self.kill_at_any_moment(store=self.store())

    def kill_at_any_moment(self, **told: Any) -> None:
        done, offered, is_over = list[str](), list[str](), threading.Event()
        options = ("--every", "1s", "--delay", "0s")
        service = self.begin(*options, **told)
        with ThreadPoolExecutor() as pool:
            clients = [pool.submit(self.until_over, is_over, act, them)
                       for act, them in ((self.produce, offered), (self.drain, done))]
            try:
                for number in range(16):
                    if number % 2:  # each other service takes offers, however slow the machine is
                        wanted = len(offered) + 14
                        until(lambda: len(offered) >= wanted, "offers are taken")
                    time.sleep(0.1 + number * 0.07)
                    service.kill()
                    self.assertEqual(service.all("lost-run"), [])
                    service = self.start(*options, **told)
                service.wait("serving")
            finally:
                is_over.set()
            for it in clients:
                it.result()
        until(lambda: self.drain(done) == len(offered), "all jobs are done")  # a rollover may end a session
        self.ends(service)
        self.assertGreater(len(offered), 100)
        self.assertEqual(sorted(done), sorted(offered))

    def until_over(self, is_over: threading.Event, act: Callable[[list[str]], object], them: list[str]) -> None:
        while not is_over.wait(0.01):
            act(them)

    def produce(self, offered: list[str]) -> None:
        name = f"job-{len(offered)}"
        self.assertRegex(self.ask(f"OFFER 0 {name}")[0], "^OFFERED ")
        offered.append(name)

    def drain(self, done: list[str]) -> int:
        """Does all jobs that are due. Whether one is done is known before it is noted. Returns how many are noted."""
        with contextlib.suppress(OSError, EOFError), Client(self.port) as it:
            it.greeted()
            while (item := it.ask("POLLFOR 100000000").split(" "))[0] == "ITEM":
                if it.ask(f"DONE {item[1]}") == f"DONE {item[1]}":
                    done.append(item[4])
            it.ask("QUIT")
        return len(done)


class ServerKilledTest(CutTest):
    def test_the_server_is_killed_too(self) -> None:
        """With all, and while no service is there."""
        with self.serving():
            self.offer(3)
        service = self.begin()
        self.offer(5, name="lost")
        service.kill_all()
        again = self.begin()
        self.assertEqual(again.all("lost-run")[0]["opening"], "3")
        self.has_left(3)
        self.ends(again, lost=1)

    def test_the_server_is_killed_while_it_ends(self) -> None:
        service, it = self.begin(), self.client()
        self.assertRegex(it.ask("OFFER 0 job"), "^OFFERED ")
        self.assertRegex(it.ask("TAKE"), ITEM.format(1, "job"))
        service.process.send_signal(signal.SIGTERM)
        service.wait("ending")
        os.kill(service.server, signal.SIGKILL)
        self.assertEqual(service.end(), 0)
        lost = service.all("lost-run")[0]
        self.assertEqual((lost["run"], lost["why"]), ("1", "the server left no history: it was killed"))

    def test_the_server_is_killed_while_sessions_are_cut(self) -> None:
        """Alone, and with its service."""
        service = self.cut()
        os.kill(service.server, signal.SIGKILL)
        self.assertEqual((service.end(), service.all("lost-run")[0]["run"]), (0, "1"))
        self.cut().kill_all()
        again = self.begin()
        self.assertEqual(again.all("lost-run")[0]["run"], "2")
        self.has_left(0)
        self.ends(again, lost=1)

    def test_a_server_that_served_nobody_loses_nothing(self) -> None:
        """It is killed before it listens, as if it had never been started."""
        sleeps = 'exec python3 -c "import time; time.sleep(99)" "$@"'
        slow = f'[ "$1" = serve ] && [ -e {self.path("slow")} ] && {sleeps}'
        program = self.file("program", f'#!/bin/sh\n{slow}\nexec "{tested_program()}" "$@"\n')
        os.chmod(program, 0o700)
        with self.serving(program=program):
            self.offer(3)
        self.file("slow", "")
        service = self.start(program=program)
        until(lambda: bool(self.record(2)), "the next run is written down")
        time.sleep(0.3)
        service.kill_all()
        os.unlink(self.path("slow"))
        with self.serving(program=program) as again:
            self.assertEqual((again.all("resume")[0]["how"], again.all("serving")[0]["run"]), ("collect", "2"))
            self.has_left(3)


class TakenTest(ServiceTest):
    def test_a_socket_at_another_port(self) -> None:
        """A unit of systemd listens at one port, and its service is told another."""
        store, port = self.store(), free_port()
        service = self.start("--port", port, store=store, program="/bin/false")
        says = f"service: systemd listens at 127.0.0.1:{self.port} for this service, not at 127.0.0.1:{port}"
        self.assertEqual((service.end(), service.lines[-1]), (1, says))

    def test_a_program_that_is_removed(self) -> None:
        """One line says so, and the next service has all, whoever keeps the descriptors."""
        for name, make in (("alone", lambda: None), ("kept", self.store)):
            store, folder = make(), self.path(name)
            program = self.file("program", f'#!/bin/sh\nexec "{tested_program()}" "$@"\n')
            os.chmod(program, 0o700)
            service = self.begin(program=program, folder=folder, store=store)
            self.offer(3)
            os.unlink(program)
            says = f"service: the program {program} can't be run: No such file or directory: install it, and start " \
                "the service again"
            self.assertEqual((service.stop(), service.lines[-1]), (1, says))
            self.assertNotIn("Traceback", " ".join(service.lines))
            if store:
                store.close()
            with self.serving(folder=folder):
                self.has_left(3)

    def test_what_is_taken(self) -> None:
        """A second service says who has the folder, and a second folder is refused at the port."""
        service = self.begin()
        second = Service(self.path("runs"), port=self.port)
        self.assertEqual((second.end(), len(second.lines)), (1, 1))
        self.assertIn(f"is in use by the service of process {service.process.pid} at port {self.port}", second.lines[0])
        history = self.file("other.txt", "history 3\nopen 0 0 0\n1 5 5 offer 0 9 0 9 1 mail\nend 1\n")
        for _ in range(2):  # a run that could not begin leaves nothing behind
            other = self.start("--from", history, folder=self.path("others"))
            self.assertEqual(other.end(), 1)
            self.assertIn(f"cannot listen at port {self.port}: Address already in use", other.lines[-1])
        self.has_left(0)
        os.unlink(self.path("runs/lock"))  # which tells who has the folder, and is not what keeps others out
        third = Service(self.path("runs"), port=free_port())
        says = f"service: {self.path('runs')} is in use by another service"
        self.assertEqual((third.end(), third.lines), (1, [says]))
        self.ends(service)
        with self.serving("--from", history, folder=self.path("others")):
            self.has_left(1)
