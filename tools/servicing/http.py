"""Answers over HTTP at the socket in the folder of a service, and asks there."""
import contextlib
import errno
import os
import socket
import struct
from pathlib import Path
from typing import Any, Iterator

from servicing.folder import Unusable
from rb_broker_redis.watching.http import HttpServer

PATIENCE = 5.0  # seconds for an answer
_CREDENTIALS = struct.Struct("3i")  # process, user and group


class OwnerServer(HttpServer):
    """Serves at a path, to this user and to root."""

    def take_place(self, at: Any) -> None:
        self.address_family = socket.AF_UNIX

    def server_bind(self) -> None:
        """Takes the place of a socket that a killed process has left. Nobody but this user may connect at any moment:
        the mode is set before there is a path."""
        path = str(self.server_address)
        Path(path).unlink(missing_ok=True)
        os.fchmod(self.socket.fileno(), 0o600)
        with short_name(path) as name:
            self.socket.bind(name)

    def verify_request(self, request: Any, client_address: Any) -> bool:
        told = request.getsockopt(socket.SOL_SOCKET, socket.SO_PEERCRED, _CREDENTIALS.size)
        return _CREDENTIALS.unpack(told)[1] in (os.geteuid(), 0)


@contextlib.contextmanager
def short_name(path: str) -> Iterator[str]:
    """Another name of a path in a folder, as short as the name of a socket has to be."""
    folder = os.open(os.path.dirname(path), os.O_PATH | os.O_DIRECTORY)
    try:
        yield f"/proc/self/fd/{folder}/{os.path.basename(path)}"
    finally:
        os.close(folder)


def asked(path: str, what: str) -> tuple[bytes, bytes]:
    """The head and the text of an answer at a socket. Raises an `Unusable` if no service answers."""
    try:
        with short_name(path) as name, socket.socket(socket.AF_UNIX) as it:
            it.settimeout(PATIENCE)
            it.connect(name)
            it.sendall(f"{what} HTTP/1.0\r\n\r\n".encode())
            head, _, told = it.makefile("rb").read().partition(b"\r\n\r\n")
            return head, told
    except OSError as fault:
        raise Unusable(f"no service answers in {os.path.dirname(path)}: {fault.strerror or fault}; --folder names "
                       "another") from None


def why_not_listening(port: int, fault: OSError) -> str:
    """Why nothing can listen at a port, in one line."""
    needs = "; ports below 1024 need the right CAP_NET_BIND_SERVICE"
    return f"{os.strerror(fault.errno or 0)}{needs if fault.errno == errno.EACCES and port < 1024 else ''}"
