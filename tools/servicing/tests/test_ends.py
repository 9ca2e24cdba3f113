"""Runs end in good order, whatever their clients do."""
import os
import select
import signal
import threading
import time

from servicing.tests.process import Client, ServiceTest

ITEM = "^ITEM [0-9]+ [0-9]+ {} {}$"


class EndsTest(ServiceTest):
    def holder(self) -> tuple[Client, str]:
        """A client that holds a job, and its id."""
        it = self.client()
        self.assertRegex(it.ask("OFFER 0 held"), "^OFFERED ")
        told = it.ask("TAKE")
        self.assertRegex(told, ITEM.format(1, "held"))
        return it, told.split(" ")[1]

    def test_it_waits_for_who_holds_a_job_and_says_so(self) -> None:
        """Who holds none is ended at once, and not reset; who connects meanwhile waits for the next run."""
        service, (holder, id), idle = self.begin("--every", "2s"), self.holder(), self.client()
        service.wait("ending")
        self.assertEqual(idle.rest(), b"")
        time.sleep(0.1)  # a worker may have been about to let somebody in
        waits = self.enterContext(Client(self.port))
        told = service.wait("waiting", patience=30)
        self.assertEqual(told["clients"], f"client {holder.own_port}")
        self.assertEqual(holder.ask("SIZE"), "SIZE 0")
        self.assertEqual(holder.ask(f"DONE {id}"), f"DONE {id}")
        self.assertEqual(holder.rest(), b"")
        self.assertEqual((waits.greeted().greeting[:6], service.all("cut")), ("RUN 2 ", []))
        waits.ask("QUIT")
        self.ends(service)

    def test_it_cuts_who_stays(self) -> None:
        """That is the end of a connection, and no reset. The job comes back."""
        service, (holder, _) = self.begin("--stop-within", "2s", "--delay", "0s"), self.holder()
        began = time.monotonic()
        self.ends(service)
        self.assertTrue(2 <= time.monotonic() - began < 20)  # and not the minute that is usual
        self.assertEqual(holder.rest(), b"")
        saved = service.all("saved")[0]
        self.assertEqual((saved["left"], saved["cut"]), ("1", "1"))
        with self.serving("--delay", "0s"):
            self.assertRegex(self.ask("TAKE")[0], ITEM.format(2, "held"))

    def test_it_cuts_who_always_holds_a_job(self) -> None:
        """It polls for the next one before it is done with one. A wait would get none while the run ends."""
        service, it = self.begin("--stop-within", "3s", "--delay", "0s"), self.client()
        it.send(*(f"OFFER 0 job-{number}" for number in range(5)), "POLL")
        held = [it.line() for _ in range(6)][-1].split(" ")[1]
        service.process.send_signal(signal.SIGTERM)
        service.wait("ending")
        time.sleep(1)  # in which the server has heard of it
        self.assertEqual(it.ask("TAKE"), "STOPPED")
        began, given, left = time.monotonic(), 1, 5
        while (words := it.ask("POLL").split(" "))[0] == "ITEM" and it.ask(f"DONE {held}") == f"DONE {held}":
            left -= not it.ask(f"OFFER 0 more-{words[1]}")  # which got no reply, and so was not carried out
            held, given = words[1], given + 1
            time.sleep(0.1)
        self.assertGreater(given, 5)
        self.assertLess(time.monotonic() - began, 20)
        self.assertEqual((service.end(), service.all("cut")[0]["clients"]), (0, f"client {it.own_port}"))
        self.assertEqual(service.all("saved")[0]["left"], str(left))

    def test_a_second_signal_cuts_at_once(self) -> None:
        service, _ = self.begin(), self.holder()
        service.process.send_signal(signal.SIGTERM)
        service.wait("ending")
        began = time.monotonic()
        self.assertEqual(service.stop(signal.SIGINT), 0)
        self.assertLess(time.monotonic() - began, 10)
        self.assertEqual(service.all("saved")[0]["cut"], "1")

    def test_it_cuts_clients_that_do_not_read(self) -> None:
        service, (holder, _) = self.begin("--stop-within", "1s"), self.holder()
        full = self.enterContext(Client(self.port, receive_buffer=4096))
        full.fill()
        self.ends(service)
        self.assertEqual(holder.rest(), b"")

    def test_silent_clients_are_ended(self) -> None:
        service, (silent, _), busy = self.begin("--silent", "2s", "--delay", "0s"), self.holder(), self.client()
        until = time.monotonic() + 5
        while time.monotonic() < until:
            self.assertRegex(busy.ask("SIZE"), "^SIZE ")
            time.sleep(0.2)
        self.assertFalse(silent.is_cut())
        self.assertRegex(busy.ask("TAKE"), ITEM.format(2, "held"))
        self.ends(service)

    def test_clients_take_turns(self) -> None:
        """Who waits for a worker has one after --turn-within."""
        service, began = self.begin("--workers", "1", "--turn-within", "2s"), time.monotonic()
        first, second = self.client(), self.enterContext(Client(self.port))
        self.assertEqual(second.greeted().greeting[:6], "RUN 2 ")
        self.assertTrue(2 <= time.monotonic() - began < 30)
        self.assertEqual((first.rest(), service.all("ending")[0]["why"]), (b"", "turns"))
        second.ask("QUIT")
        self.ends(service)

    def test_sessions_run_out(self) -> None:
        """Clients that connect all the time use them up in a moment. None is refused."""
        with self.serving("--sessions", "20") as service:
            for _ in range(60):
                self.ask("SIZE")
            self.assertGreaterEqual(len(service.all("saved")), 2)
            self.assertLessEqual({it["why"] for it in service.all("ending")}, {"sessions"})
            self.assertEqual(self.record(1)["end"]["sessions"], 20, "as the server counts them")

    def test_an_end_starts_no_other_service(self) -> None:
        """Whoever keeps the socket starts one for who waits there: for a client, which is served then, and not for the
        service's own session, which waits for a run that does not come, whatever the last one's end began with."""
        store = self.store()
        for every, waits in (("1h", False), ("2s", False), ("2s", True)):
            service, (holder, id) = self.begin("--every", every, store=store), self.holder()
            if every == "2s":
                service.wait("ending")
            service.process.send_signal(signal.SIGTERM)
            service.wait("ending")
            time.sleep(0.3)  # a worker may have been about to let somebody in
            late = self.enterContext(Client(self.port)) if waits else None
            self.assertEqual((holder.ask(f"DONE {id}"), holder.rest(), service.end()), (f"DONE {id}", b"", 0))
            self.assertEqual(bool(select.select([store.door], [], [], 0)[0]), waits)
        with self.serving(store=store):
            self.assertEqual(late.greeted().greeting[:6], "RUN 4 ")
            late.ask("QUIT")

    def test_signals_in_each_state(self) -> None:
        for wait in (0.0, 0.02, 0.05, 0.08, 0.1, 0.15, 0.2, 0.3, 0.5):
            service = self.start("--every", "1s")
            service.wait("service")
            time.sleep(wait)
            with self.subTest(wait=wait):
                self.ends(service)
        for state in ("between-runs", "ending"):
            with self.serving("--every", "1s") as service:
                service.wait(state)

    def test_ctrl_c_in_a_terminal(self) -> None:
        """It signals each process of the group that is in the foreground."""
        service = self.begin()
        self.offer(3)
        os.killpg(service.process.pid, signal.SIGINT)
        self.assertEqual((service.end(), service.all("lost-run")), (0, []))
        with self.serving() as service:
            self.assertEqual(service.all("lost-run"), [])
            self.has_left(3)


class RolloverTest(ServiceTest):
    """16 clients that are busy, and 8 that connect all the time: rollovers refuse none and reset none."""

    SECONDS = 12

    def test_nobody_is_refused_or_reset(self) -> None:
        is_over, faults, done, offered = threading.Event(), list[str](), list[str](), list[str]()
        threads = [threading.Thread(target=self.work, daemon=True,
                                    args=(is_over, place, faults, offered, done, place < 16)) for place in range(24)]
        service = self.begin("--every", "2s", "--turn-within", "1s", "--delay", "0s")
        for it in threads:
            it.start()
        time.sleep(self.SECONDS)
        is_over.set()
        for it in threads:
            it.join()
        while (item := self.ask("POLL")[0]).startswith("ITEM"):
            done.append(item.split(" ")[4])  # the session's end lets it come back, at once
        self.ends(service)
        self.assertEqual(faults, [])
        self.assertGreaterEqual(len(service.all("saved")), 4)
        self.assertEqual(set(offered) - set(done), set())

    def work(self, is_over: threading.Event, place: int, faults: list[str], offered: list[str], done: list[str],
             stays: bool) -> None:
        number = 0
        while not is_over.is_set():
            try:
                with Client(self.port) as it:
                    it.greeted()
                    while True:
                        number += 1
                        it.send(f"OFFER 0 job-{place}-{number}")
                        if it.line().startswith("OFFERED "):
                            offered.append(f"job-{place}-{number}")
                        it.send("POLLFOR 100000000")
                        words = it.line().split(" ")
                        if words[0] == "ITEM":
                            time.sleep(0.02)
                            it.send(f"DONE {words[1]}")
                            it.line()
                            done.append(words[4])
                        if is_over.is_set() or not stays:
                            it.ask("QUIT")
                            break
            except EOFError:
                pass  # the run has ended
            except OSError as fault:
                faults.append(repr(fault))
