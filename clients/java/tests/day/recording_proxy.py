"""Passes requests on to a server and replies back, and records them as tools/verify reads them."""
import collections
import contextlib
import itertools
import socket
import socketserver
import struct
import threading
import time

from serving.recorded import Broken, RecordedSession


class RecordingProxy(socketserver.ThreadingTCPServer):
    """To the server at another port this is the client, so its record is whole even if a client behind it is killed."""

    daemon_threads, request_queue_size = True, 100

    def __init__(self, target, record):
        self._target, self._names, self._lock = target, itertools.count(1), threading.Lock()
        self._record = open(record, "w", encoding="ascii", buffering=1)
        super().__init__(("127.0.0.1", 0), None)
        self.port = self.server_address[1]
        threading.Thread(target=self.serve_forever, daemon=True).start()

    def finish_request(self, client, _):
        client.setsockopt(socket.IPPROTO_TCP, socket.TCP_NODELAY, 1)
        name = f"s{next(self._names)}"
        with contextlib.suppress(Broken), Dialogue(client, self._target, name, self._note) as it:
            if it.own_port != self._target:  # else nobody listens, and it found itself
                it.follow()

    def _note(self, line):
        with self._lock:
            self._record.write(f"{line}\n")


class Dialogue(RecordedSession):
    """The session that serves a client."""

    def __init__(self, client, port, name, note):
        super().__init__(port, name, note)
        self._client, self._asked = client, collections.deque()

    def follow(self):
        """Passes requests on, and replies back until the server ends the session, even if the client is gone."""
        requests = threading.Thread(target=self._pass_requests, daemon=True)
        requests.start()
        with contextlib.suppress(OSError, EOFError):  # it ends, or a reset breaks a reply off
            while True:
                reply = self.reply()
                sent, request = self._asked.popleft()
                self.note(sent, time.monotonic_ns(), request, *reply)
                with contextlib.suppress(OSError):  # the client is gone; the server learns that behind its requests
                    self._client.sendall("".join(f"{it}\n" for it in reply).encode())
        shut(self._client, socket.SHUT_RDWR)
        requests.join()
        for sent, request in self._asked:
            self.note(sent, None, request)

    def _pass_requests(self):
        """Passes requests on until the client ends, and then ends the server's input. A truncated line is one too."""
        try:
            with self._client.makefile("rb") as requests:
                for line in requests:
                    self._asked.append((time.monotonic_ns(), line.decode("latin-1").removesuffix("\n")))
                    self.socket.sendall(line)
            self.socket.shutdown(socket.SHUT_WR)
        except OSError:  # the client reset the connection, which the server learns when this side is closed
            self.socket.setsockopt(socket.SOL_SOCKET, socket.SO_LINGER, struct.pack("ii", 1, 0))
            shut(self.socket, socket.SHUT_RD)


def shut(connection, how):
    """Ends a connection, unless it has ended, so that whoever reads there goes on."""
    with contextlib.suppress(OSError):
        connection.shutdown(how)
