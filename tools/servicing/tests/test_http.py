"""The server of the page and the metrics, with clients that are slow, wrong or hostile."""
import contextlib
import http.client
import io
import socket
import time
import unittest
from concurrent.futures import ThreadPoolExecutor
from http import HTTPStatus
from unittest import mock

from rb_broker_redis.watching import http as served
from rb_broker_redis.watching.http import Answer, HttpServer

LONG = "x" * 8_000_000  # more than a connection holds by itself
PATIENCE = 10.0


def answer(path: str) -> Answer | None:
    """A page, a long one, and one with a fault."""
    if path == "/fault":
        raise ZeroDivisionError("of a test")
    pages = {"/": "<p>page</p>", "/long": LONG}
    return Answer(HTTPStatus.OK, "text/html", pages[path]) if path in pages else None


OK, NOTHING, WRONG, FOREIGN = 200, 404, 400, 421
ASKED: dict[bytes, int] = {
    b"HEAD / HTTP/1.1\r\nHost: localhost": OK, b"GET /?a=/b HTTP/1.0": OK,
    # No path leads out.
    **{b"GET %s HTTP/1.1" % path.encode(): NOTHING for path in (
        "/none", "/..", "/../../etc/passwd", "/%2e%2e/etc/passwd", "/./", "/\u00e9", "http://x/")},
    **{b"%s / HTTP/1.1" % method: 501 for method in (b"POST", b"PUT", b"DELETE", b"OPTIONS", b"TRACE", b"get")},
    # A page of another name that its server lets lead to 127.0.0.1 reads nothing.
    **{b"GET / HTTP/1.1\r\nHost: %s" % host: OK for host in (
        b"127.0.0.1", b"localhost:80", b"LOCALHOST", b"[::1]:7080")},
    **{b"GET / HTTP/1.1\r\nHost: %s" % host: FOREIGN for host in (
        b"evil.example", b"evil.example:7080", b"127.0.0.1.evil.example")},
    # What is no request.
    b"GET / x HTTP/1.1": WRONG,
    b"GET / HTTP/1.1\r\nX: " + b"x" * 70_000: 431, b"GET /" + b"x" * 70_000 + b" HTTP/1.1": 414,
}


class HttpTest(unittest.TestCase):
    def setUp(self) -> None:
        self.server = HttpServer(("127.0.0.1", 0), answer)
        self.addCleanup(self.server.server_close)
        self.addCleanup(self.server.shutdown)
        self.port = self.server.server_address[1]

    def connect(self) -> socket.socket:
        return self.enterContext(socket.create_connection(("127.0.0.1", self.port), timeout=PATIENCE))

    def get(self, path: str, method: str = "GET") -> tuple[int, str, http.client.HTTPMessage]:
        """What Python's own client makes of an answer."""
        with contextlib.closing(http.client.HTTPConnection("127.0.0.1", self.port, timeout=PATIENCE)) as connection:
            connection.request(method, path)
            got = connection.getresponse()
            return got.status, got.read().decode(), got.headers

    def test_a_page(self) -> None:
        status, body, headers = self.get("/")
        self.assertEqual((status, body, headers["Content-Type"]), (200, "<p>page</p>", "text/html; charset=utf-8"))
        self.assertEqual((headers["Content-Length"], headers["Cache-Control"]), ("11", "no-store"))
        self.assertEqual((headers["X-Content-Type-Options"], headers["X-Frame-Options"]), ("nosniff", "DENY"))
        self.assertEqual(self.get("/long")[1], LONG)
        self.assertEqual(self.get("/", "HEAD")[2]["Content-Length"], "11")

    def test_what_is_asked(self) -> None:
        for sent, status in ASKED.items():
            connection = self.connect()
            connection.sendall(sent + b"\r\n\r\n")
            head, _, body = all_of(connection).partition(b"\r\n\r\n")
            self.assertEqual(head[:12], b"HTTP/1.0 %d" % status, sent[:80])
            self.assertIn(b"\r\nX-Content-Type-Options: nosniff", head)
            self.assertEqual(b"page" in body, status == OK and not sent.startswith(b"HEAD"), sent[:80])

    def test_what_is_posted(self) -> None:
        """It is done where something may be, for those alone that ask by a name of the server, and with few words."""
        did: list[bytes] = []

        def posted(path: str, body: bytes) -> Answer | None:
            did.append(body)
            return Answer(HTTPStatus.SEE_OTHER, text="/") if path == "/do" else None

        self.server.posted = posted
        for head, body, status in (
            (b"/do HTTP/1.1\r\nContent-Length: 3", b"a=b", 303), (b"/do HTTP/1.1", b"", 303),
            (b"/do HTTP/1.1\r\nHost: evil.example\r\nContent-Length: 3", b"a=b", FOREIGN),
            (b"/do HTTP/1.1\r\nContent-Length: 1001", b"a" * 1001, 413),
            (b"/do HTTP/1.1\r\nContent-Length: -1", b"", 413), (b"/other HTTP/1.1\r\nContent-Length: 1", b"a", 501),
        ):
            connection = self.connect()
            connection.sendall(b"POST %s\r\n\r\n%s" % (head, body))
            told = all_of(connection)
            self.assertEqual(told[:12], b"HTTP/1.0 %d" % status, head)
            self.assertEqual(b"\r\nLocation: /\r\n" in told, status == 303)
        self.assertEqual(did, [b"a=b", b"", b"a"])

    def test_a_fault_of_a_page(self) -> None:
        with contextlib.redirect_stderr(io.StringIO()) as said, self.assertRaises(ConnectionError):
            self.get("/fault")
        self.assertIn("ZeroDivisionError: of a test", said.getvalue())
        self.assertEqual(self.get("/")[0], 200)

    def test_clients_that_are_slow_or_gone_or_no_clients_of_http(self) -> None:
        """They are cut, and meanwhile others are answered. Nobody is told of those that hang up."""
        self.enterContext(mock.patch.object(served._Handler, "timeout", 1.0))
        silent, reading, gone, *others = (self.connect() for _ in range(5))
        with contextlib.redirect_stderr(io.StringIO()) as said:
            for it, sent in zip(others, (b"\0\xff\x16\x03\x01 a b\r\n\r\n", b"OFFER 0 a\r\nTAKE\r\n")):
                it.sendall(sent)
                self.assertNotIn(b"page", all_of(it))
            silent.sendall(b"GET / HT")
            reading.sendall(b"GET /long HTTP/1.1\r\n\r\n")
            gone.sendall(b"GET /long HTTP/1.1\r\n\r\n")
            gone.recv(10)
            gone.setsockopt(socket.SOL_SOCKET, socket.SO_LINGER, b"\1\0\0\0\0\0\0\0")
            gone.close()
            self.assertEqual(self.get("/")[0], 200)
            time.sleep(2.5)
        self.assertEqual(all_of(silent), b"")
        self.assertLess(len(all_of(reading)), len(LONG))
        self.assertEqual(said.getvalue(), "")

    def test_more_connections_than_it_keeps(self) -> None:
        """The oldest are cut, and who comes is answered."""
        idle = [self.connect() for _ in range(3 * served.MOST_CONNECTIONS)]
        self.assertEqual(self.get("/")[0], 200)
        self.assertEqual(all_of(idle[0]), b"")
        self.assertLessEqual(len(self.server._open), served.MOST_CONNECTIONS)
        idle[-1].sendall(b"GET / HTTP/1.1\r\n\r\n")
        self.assertIn(b"<p>page</p>", all_of(idle[-1]))

    def test_many_clients_at_once(self) -> None:
        """Each is answered in its turn, and then who comes is answered at once."""
        self.enterContext(mock.patch.object(served, "MOST_A_SECOND", 20))
        began = time.monotonic()
        with ThreadPoolExecutor(16) as clients:
            self.assertEqual([*clients.map(lambda _: self.get("/")[0], range(40))], [200] * 40)
        self.assertGreater(time.monotonic() - began, 1.9)
        began = time.monotonic()
        self.assertEqual(self.get("/")[0], 200)
        self.assertLess(time.monotonic() - began, 1)

    def test_other_addresses(self) -> None:
        for host, names in (("127.0.0.9", {"127.0.0.9", *served.LOCAL_NAMES}), ("0.0.0.0", None)):
            other = HttpServer((host, 0), answer)
            self.assertEqual(other.names, names)
            other.shutdown()
            other.server_close()


def all_of(connection: socket.socket) -> bytes:
    parts: list[bytes] = []
    with contextlib.suppress(ConnectionResetError):
        while part := connection.recv(65_536):
            parts.append(part)
    return b"".join(parts)
