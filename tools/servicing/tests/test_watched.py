"""A server with clients of every kind, as the service sees them."""
import json
import time
from collections.abc import Callable
from unittest import mock

from servicing.connections import Connection, look_at
from servicing.looking import Looks
from servicing.session import OwnSession
from servicing.tests.process import Client
from servicing.tests.support import connection, record
from serving.server import Server
from serving.testing import ServingTest

FAR = 3_600_000_000_000
PATIENCE = 30  # seconds after which something that has to happen has not
GREETS = "--greeting", "RUN 1 lost 0 at 0"


class WatchedTest(ServingTest):
    def watch(self, workers: int, sessions: int = 1000, calls: int = 1000) -> tuple[Server, Looks]:
        """A server, and what a service sees of it at each look."""
        server = self.serve("--workers", workers, "--sessions", sessions, "--calls", calls, *GREETS)
        looks = Looks(OwnSession(server.port), record(calls=calls), workers)
        self.addCleanup(looks.own.drop)
        return server, looks

    def look(self, looks: Looks) -> None:
        """Looks, and asks the server."""
        looks._asked = 0.0
        looks.look()

    def until(self, looks: Looks, holds: Callable[[], object]) -> None:
        """Looks again and again."""
        end = time.monotonic() + PATIENCE
        self.look(looks)
        while not holds():
            self.assertLess(time.monotonic(), end, f"it did not come to that: {looks.clients}, {looks.queue}")
            time.sleep(0.1)
            self.look(looks)

    def connect(self, server: Server, *requests: str, receive_buffer: int = 0) -> Client:
        """A client that has sent these requests and reads no reply."""
        client = self.enterContext(Client(server.port, receive_buffer=receive_buffer))
        client.send(*requests)
        return client

    def ask(self, server: Server, *requests: str) -> Client:
        """A client that has sent these requests, each after the reply to the one before."""
        client = self.connect(server).greeted()
        for request in requests:
            client.ask(request)
        return client

    def seen(self, looks: Looks, client: Client) -> Connection:
        """The client's connection, which has to be listed."""
        return next(it for it in looks.clients or () if it.port == client.own_port)

    def test_clients_of_each_kind(self) -> None:
        """The longest silent is the first."""
        server, looks = self.watch(6)
        silent = self.ask(server, "SIZE")
        unread = self.connect(server, receive_buffer=4096)
        unread.fill()
        self.connect(server, "TAKE")
        self.until(looks, lambda: len(looks.served) == 3 and self.seen(looks, unread).is_unread)
        self.assertGreater(self.seen(looks, unread).send_queue, 10_000)
        self.until(looks, lambda: self.seen(looks, silent).silence >= 10)
        self.assertEqual([it.port for it in looks.served if it.silence or it.is_unread],
                         [silent.own_port, unread.own_port])
        self.assertEqual((looks.clients or ())[0].port, silent.own_port)
        self.assertEqual((looks.waits, len(looks.clients or ())), (0, 3))

    def test_clients_that_wait_for_a_worker(self) -> None:
        """The service's own session waits with them, asks for nothing meanwhile, and leaves after each look."""
        server, looks = self.watch(2)
        served = [self.ask(server, "SIZE") for _ in range(2)]
        waiting = [self.connect(server, "SIZE"), self.connect(server)]
        for _ in range(4):
            self.look(looks)
            time.sleep(0.3)
        others = [it for it in looks.clients or () if not it.is_served]
        for clients, them in ((looks.served, served), (others, waiting)):
            self.assertEqual({it.port for it in clients}, {it.own_port for it in them})
        self.assertEqual((looks.own.calls, looks.is_closed), (0, False))
        self.assertTrue(1 < looks.own.waits <= looks.waits, (looks.own.waits, looks.waits))
        self.assertIsNone(looks.queue)
        for client in [*served, *waiting]:
            client.hang_up()
        self.until(looks, lambda: looks.queue is not None)
        self.assertEqual((looks.queue and looks.queue.elements, looks.own.waits), (0, 0))

    def test_sessions_that_are_used_up(self) -> None:
        """A client waits though a worker is free."""
        server, looks = self.watch(2, sessions=1)
        first, second = self.ask(server, "SIZE"), self.connect(server, "SIZE")
        time.sleep(0.3)
        for wanted in (False, True):
            looks.watch()
            self.assertEqual(looks.is_closed, wanted)
        second.hang_up()
        first.hang_up()

    def test_how_late_the_head_is(self) -> None:
        server, looks = self.watch(3)
        client = self.ask(server, f"OFFER {FAR} later")
        self.until(looks, lambda: looks.queue is not None)
        self.assertTrue(looks.queue and -3600 <= looks.queue.late < -3590, looks.queue)
        before = time.monotonic()
        client.ask("OFFER 0 now")
        self.until(looks, lambda: looks.queue is not None and looks.queue.elements == 2)
        self.assertTrue(looks.queue and 0 <= looks.queue.late <= time.monotonic() - before, looks.queue)

    def test_what_a_run_begins_with(self) -> None:
        """It was neither offered in the run, nor has it left."""
        last = 5_000_000_000_000
        opening = self.file("opening.txt", f"history 3\nopen 7 {last} 1\nkeep 3 {last} 3 {last} 1 old\nend 0\n")
        server = self.serve("--workers", 3, "--sessions", 40, "--from", opening, *GREETS)
        looks = Looks(OwnSession(server.port), record(next_id=7, moment=last, opening=1), 3)
        self.addCleanup(looks.own.drop)
        self.until(looks, lambda: looks.queue is not None)
        self.assertEqual((looks.offered, looks.left, looks.queue and looks.queue.elements), (0, 0, 1))
        self.assertGreaterEqual(looks.moment, last)

    def test_what_looking_costs(self) -> None:
        """The server's audit has the calls that the service counts, and no element of its own is left. In a full run
        it knows that all are used."""
        server, looks = self.watch(2, 5)
        for _ in range(5):
            self.look(looks)
        self.assertEqual(looks.calls, 20)
        status, lines, _ = server.end()
        audit = json.loads(lines[1])
        self.assertEqual((status, lines[0]), (0, "sessions 5 faults 0 lost 0"))
        self.assertEqual((audit["calls"], audit["offered"], audit["removed"], audit["left"]), (20, 5, 5, 0))
        _, full = self.watch(2, calls=9)
        self.until(full, lambda: full.own.is_full)
        self.assertEqual(full.calls, 9)

    def test_how_many_calls_are_used(self) -> None:
        server, looks = self.watch(2)
        client = self.ask(server, *["OFFER 0 a", "TAKE"] * 50, f"OFFER {FAR} b")
        self.until(looks, lambda: looks.queue is not None)
        self.assertEqual(looks.calls, 101 + 4)
        self.assertEqual((looks.offered, looks.left), (51, 50))
        for _ in range(100):
            client.ask("OFFER 0 a")
        self.until(looks, lambda: looks.offered == 151)
        self.assertEqual((looks.calls, looks.left), (201 + looks.own.calls, 50))

    def test_a_session_that_still_waits_offers_nothing(self) -> None:
        """It is carried out when a worker is free, even if its client has gone, and would leave an element behind."""
        server, looks = self.watch(1, 3)
        client = self.ask(server, "SIZE")
        self.look(looks)
        looks.own.drop()
        client.hang_up()
        self.assertEqual(self.connect(server, "SIZE", "QUIT").greeted().heard(), "SIZE 0")
