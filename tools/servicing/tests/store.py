"""A stand-in for systemd, as far as a service knows it: it listens, keeps descriptors, and hands both on."""
import os
import select
import socket
import threading
from collections.abc import Mapping

from serving import HOST

# Takes its descriptors to where systemd hands them on, and becomes the command behind its own words.
LAUNCH = r"""
import fcntl, os, sys
count = int(sys.argv[1])
given = [fcntl.fcntl(int(it), fcntl.F_DUPFD, 200) for it in sys.argv[2:count + 2]]
for place, it in enumerate(given, 3):
    os.dup2(it, place)
    os.close(it)
os.environ["LISTEN_PID"] = str(os.getpid())
os.execv(sys.argv[count + 2], sys.argv[count + 2:])
"""


class Store:
    """It listens at a port, and is told things at a path, until it is closed."""

    def __init__(self, port: int, path: str) -> None:
        self.door = socket.create_server((HOST, port), backlog=4096)
        self.kept: dict[str, list[int]] = {}
        self.told: list[str] = []
        self.path = path
        self._heard = socket.socket(socket.AF_UNIX, socket.SOCK_DGRAM)
        self._heard.bind(path)
        self._end, self._is_over = os.pipe()
        self._thread = threading.Thread(target=self._run, daemon=True)
        self._thread.start()

    def _run(self) -> None:
        while self._end not in select.select([self._heard, self._end], [], [])[0]:
            text, given, _, _ = socket.recv_fds(self._heard, 4096, 16)
            self._take(text.decode(), given)

    def _take(self, text: str, given: list[int]) -> None:
        words = dict(it.partition("=")[::2] for it in text.splitlines())
        self.told += text.splitlines()
        if "FDSTORE" in words:
            self.kept.setdefault(words["FDNAME"], []).extend(given)
            return
        if "FDSTOREREMOVE" in words:
            given = self.kept.pop(words["FDNAME"], [])
        for it in given:  # that of a barrier, too
            os.close(it)

    @property
    def setting(self) -> Mapping[str, str]:
        """The environment in which a service is started."""
        names = ["door", *(name for name, them in sorted(self.kept.items()) for _ in them)]
        return {**os.environ, "NOTIFY_SOCKET": self.path, "FDSTORE": "16", "LISTEN_FDNAMES": ":".join(names)}

    @property
    def given(self) -> list[int]:
        """What it hands on, in the order of their names."""
        return [self.door.fileno(), *(it for _, them in sorted(self.kept.items()) for it in them)]

    def close(self) -> None:
        """Forgets all, as systemd does when a unit is stopped."""
        if not self._thread.is_alive():
            return
        os.write(self._is_over, b"x")
        self._thread.join()
        for it in (*self.given[1:], self._end, self._is_over):
            os.close(it)
        self.door.close()
        self._heard.close()
