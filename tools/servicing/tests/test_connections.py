"""The connections of a port, as they are listed while sockets of this process are at both ends."""
import socket
import time
import unittest

from serving import HOST
from servicing.connections import Connection, look_at
from servicing.tests.support import connection

OTHER = "127.0.0.5"


class ConnectionsTest(unittest.TestCase):
    def setUp(self) -> None:
        self.door = self.enterContext(socket.create_server((HOST, 0)))
        self.port = self.door.getsockname()[1]

    def connect(self, host: str = HOST) -> socket.socket:
        return self.enterContext(socket.create_connection((host, self.port)))

    def accept(self) -> socket.socket:
        return self.enterContext(self.door.accept()[0])

    def seen(self, client: socket.socket) -> Connection:
        return next(it for it in look_at(self.port) if it.port == client.getsockname()[1])

    def test_each_kind(self) -> None:
        served, waits = self.connect(), self.connect()
        end = self.accept()
        waits.sendall(b"SIZE\n")
        self.assertEqual([self.seen(it).is_served for it in (served, waits)], [True, False])
        self.assertEqual([self.seen(it).receive_queue for it in (served, waits)], [0, 5])
        self.assertTrue(self.seen(waits).owes_reply)
        self.assertEqual(self.seen(served).key, self.seen(served).key)
        self.assertNotEqual(self.seen(served).key, self.seen(waits).key)
        for _ in range(3):
            served.sendall(b"PEEK\n")
            end.recv(99)
            end.sendall(b"NONE\n")
            served.recv(99)
        it = self.seen(served)
        self.assertEqual((it.calls, it.replied, it.owes_reply, it.has_hung_up), (3, 15, False, False))
        served.shutdown(socket.SHUT_WR)
        waits.shutdown(socket.SHUT_WR)
        self.assertEqual([self.seen(it).has_hung_up for it in (served, waits)], [True, True])
        self.assertEqual([self.seen(it).has_given_up for it in (served, waits)], [False, False], "one is carried out")
        gone = self.connect()
        gone.shutdown(socket.SHUT_WR)
        self.assertTrue(self.seen(gone).has_given_up)

    def test_times(self) -> None:
        client = self.connect()
        end = self.accept()
        time.sleep(0.3)
        end.sendall(b"NONE\n")
        it = self.seen(client)
        self.assertTrue(300 <= it.heard < 2000 and it.told < it.heard - 200, it)

    def test_the_same_port_at_another_address(self) -> None:
        """And one that is only connected from there."""
        with socket.create_server((OTHER, self.port)):
            client, other = self.connect(), self.connect(OTHER)
            self.assertEqual([it.port for it in look_at(self.port)], [client.getsockname()[1]])
            self.assertNotEqual(other.getsockname()[1], client.getsockname()[1])

    def test_what_is_silent_and_what_does_not_read(self) -> None:
        for wanted, told in (
            ((20.0, False), {"heard": 20_000, "told": 19_000}), ((0.0, False), {"heard": 9_000, "told": 8_000}),
            ((0.0, False), {"heard": 20_000, "told": 30_000}),  # it waits for a reply
            ((0.0, False), {"heard": 20_000, "told": 20_010, "owes_reply": True}),
            ((0.0, True), {"heard": 20_000, "told": 19_000, "send_queue": 9}),
            ((0.0, False), {"heard": 20_000, "told": 19_000, "has_hung_up": True}),
            ((0.0, False), {"heard": 20_000, "told": 19_000, "is_served": False}),
        ):
            it = connection(1, **told)
            self.assertEqual((it.silence, it.is_unread), wanted, told)
