"""What tools/verify says of sessions that end while a request is under way: by a lease, by a kill of the client, and by
a Redis whose reply is lost. Each may come about on any hostile day, and is made here on purpose."""
from __future__ import annotations

import contextlib
import socket
import threading
import uuid

from gateway_test import GatewayTest
from gateways import Gateway
from hostile_client import Notes
from judging import faults_in
from nodes import PATIENCE, wait_until
from serving import HOST
from serving.recorded import Broken, RecordedSession


class Proxy:
    """Stands between a gateway and its Redis, and sees what that is asked."""

    def __init__(self, port: int) -> None:
        self._redis, self._listener = port, socket.create_server((HOST, 0))
        self.url = f"redis://{HOST}:{self._listener.getsockname()[1]}"
        self._sockets: list[socket.socket] = []
        self._request: bytes | None = None
        self._asking: socket.socket | None = None
        self._loses_reply = False
        threading.Thread(target=self._accept, daemon=True).start()

    def watch_for(self, request: str, loses_reply: bool = False) -> None:
        """Notes when the Redis is asked this. If the reply is to be lost, all connections end in place of it."""
        self._request, self._asking, self._loses_reply = request.encode(), None, loses_reply

    @property
    def has_asked(self) -> bool:
        """Whether the Redis was asked what is watched for."""
        return self._asking is not None

    def close(self) -> None:
        self._listener.close()
        self._cut()

    def _cut(self) -> None:
        """Ends all connections."""
        for it in self._sockets:
            with contextlib.suppress(OSError):
                it.shutdown(socket.SHUT_RDWR)
        self._sockets.clear()

    def _accept(self) -> None:
        while self._listener.fileno() >= 0:
            try:
                client, _ = self._listener.accept()
            except OSError:
                return
            server = socket.create_connection((HOST, self._redis))
            self._sockets += [client, server]
            for pass_on in (self._pass_requests, self._pass_replies):
                threading.Thread(target=pass_on, args=(client, server), daemon=True).start()

    def _pass_requests(self, client: socket.socket, server: socket.socket) -> None:
        with contextlib.suppress(OSError):
            while data := client.recv(65_536):
                if self._request and self._request in data:
                    self._request, self._asking = None, client
                server.sendall(data)
            server.shutdown(socket.SHUT_RDWR)

    def _pass_replies(self, client: socket.socket, server: socket.socket) -> None:
        with contextlib.suppress(OSError):
            while data := server.recv(65_536):
                if self._loses_reply and client is self._asking:
                    self._loses_reply = False
                    self._cut()
                else:
                    client.sendall(data)
            client.shutdown(socket.SHUT_RDWR)


class JudgedTest(GatewayTest):
    def setUp(self) -> None:
        super().setUp()
        self.record = self.room / "record.jsonl"
        self.proxy = Proxy(self.node.port)
        self.addCleanup(self.proxy.close)

    def serve(self, *options: object) -> Gateway:
        return super().serve("--redis", self.proxy.url, "--wait", "60s", *options)

    def session(self, served: Gateway) -> RecordedSession:
        return RecordedSession(served.port, uuid.uuid4().hex, Notes(self.record).add)

    def ask(self, session: RecordedSession, *requests: str) -> list[str]:
        """The first words of the replies."""
        return [session.reply_to(it)[0].split(" ")[0] for it in requests]

    def leaves(self, session: RecordedSession, request: str) -> None:
        """Its client is killed while this request is under way, so its record does not have that. The Redis carries it
        out later."""
        record = self.record.read_bytes()
        self.proxy.watch_for(request)
        self.node.pause()
        asking = threading.Thread(target=lambda: self.assertRaises(Broken, session.reply_to, request), daemon=True)
        asking.start()
        wait_until(lambda: self.proxy.has_asked, "the Redis is not asked")
        session.cut()
        asking.join(PATIENCE)
        self.record.write_bytes(record)
        self.node.go_on()

    def faults(self, *words: str) -> dict[str, int]:
        """The number of faults of each kind, in all that the queue keeps."""
        archive = self.room / "archive"
        if not archive.exists():
            self.assertEqual(self.ran("archive", archive)[0], 0)
        return faults_in(*archive.iterdir(), self.record, *words)[0]

    def test_a_lease_that_is_over_while_its_gateway_lives(self) -> None:
        late, other = self.serve("--lease", "6s"), self.serve("--lease", "6s")
        one, heir = self.session(late), self.session(other)
        self.assertEqual(self.ask(one, "OFFER 0 a", "OFFER 0 b", "TAKE", "TAKE"), ["OFFERED"] * 2 + ["ITEM"] * 2)
        late.pause()
        self.assertEqual(self.ask(heir, "TAKE", "TAKE"), ["ITEM"] * 2)
        threading.Timer(0.2, late.go_on).start()
        self.assertEqual(one.reply_to("DONE 1"), ["ERR 5 not-held"])
        self.assertRaises(Broken, one.reply_to, "DONE 0")
        again = self.session(late)
        self.assertEqual(self.ask(again, "OFFER 0 c", "POLL", "DONE 4", "QUIT"), ["OFFERED", "ITEM", "DONE", "BYE"])
        self.assertEqual(self.ask(heir, "DONE 2", "DONE 3", "QUIT"), ["DONE", "DONE", "BYE"])
        self.assertEqual(self.faults("--leases"), {})
        self.assertEqual(self.faults(), {"strange": 1})

    def test_a_failure_under_way_when_its_client_is_killed(self) -> None:
        served = self.serve()
        killed = self.session(served)
        self.assertEqual(self.ask(killed, "OFFER 0 a", "OFFER 0 b", "TAKE", "TAKE"), ["OFFERED"] * 2 + ["ITEM"] * 2)
        self.leaves(killed, "FAIL 1")
        self.assertEqual(self.given(served), ["b", "a"])
        self.assertEqual(self.faults(), {})
        self.assertEqual(self.faults("--all"), {"unrecorded": 1})

    def test_a_fetch_under_way_when_its_client_is_killed(self) -> None:
        served = self.serve()
        killed = self.session(served)
        self.assertEqual(self.ask(killed, "OFFER 0 a", "OFFER 0 b", "TAKE"), ["OFFERED", "OFFERED", "ITEM"])
        self.leaves(killed, "POLL")
        self.assertEqual(len(self.given(served)), 2)
        self.assertEqual(self.faults(), {})

    def test_a_redis_whose_reply_is_lost(self) -> None:
        """What was under way has taken effect, and what the session held comes back behind it."""
        served = self.serve()
        for request, given in (("FAIL {1}", ["c", "b", "a"]), ("DONE {0}", ["c", "b"]), ("POLL", ["a", "b", "c"]),
                               ("OFFER 0 d", ["c", "d", "a", "b"])):
            session = self.session(served)
            ids = [session.reply_to(f"OFFER 0 {it}")[0].split(" ")[1] for it in "abc"]
            self.assertEqual(self.ask(session, "TAKE", "TAKE"), ["ITEM", "ITEM"])
            self.proxy.watch_for(request.format(*ids), loses_reply=True)
            self.assertRaises(Broken, session.reply_to, request.format(*ids))
            self.assertEqual(self.given(served, len(given)), given, request)
        self.assertEqual(self.faults(), {})

    def given(self, served: Gateway, count: int = 2) -> list[str]:
        """The payloads of so many jobs, which are done."""
        session, payloads = self.session(served), []
        for _ in range(count):
            _, id, _, _, payload = session.reply_to("POLLFOR 30000000000")[0].split(" ")
            payloads.append(payload)
            self.assertEqual(self.ask(session, f"DONE {id}"), ["DONE"])
        self.assertEqual(self.ask(session, "QUIT"), ["BYE"])
        return payloads
