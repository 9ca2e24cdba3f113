"""The connections of a port, as the kernel tells of them (sock_diag): that costs the server no session and no call."""
import socket
import struct
from dataclasses import dataclass
from typing import Iterator

HOST = "127.0.0.1"
MOMENT = 1_000  # milliseconds; a client that has waited for longer waits indeed
CLOSE = 50  # milliseconds between a request and its reply that do not tell which came first
SILENT_FROM = 10.0  # seconds of silence that count

# Bytes of the longest request, and of the shortest that is a call and of its reply. STOPPED is none.
LONGEST, SHORTEST = 93, 5

# The states in which the server still has a connection: the client has closed its side in the second one.
OPEN, HUNG_UP = 1, 8
SOCK_DIAG_BY_FAMILY, REQUEST_DUMP, DONE, ERROR, INFO = 20, 0x301, 3, 2, 2
HERE, ADDRESS = socket.inet_aton(HOST), slice(8, 12)  # of an answer, which may be of another address with this port

_HEADER, _ATTRIBUTE = struct.Struct("=IHHII"), struct.Struct("=HH")
_REQUEST = struct.Struct("=BBBxI4s44x")  # family, protocol, extensions, states and ports
_SOCKET = struct.Struct("=xBxx2xH36xQ4xII4xI")  # state, the client's port, a cookie, both queues and the inode
# Of tcp_info: since something was last sent and heard, and what was received, in and out in pieces, and sent.
_INFO = struct.Struct("=44xI4xI72xQ16xII40xQ")


class Unwatchable(Exception):
    """Why connections can't be listed."""


@dataclass(frozen=True)
class Connection:
    """A client's connection, seen from the server's end. Times are milliseconds, queues are bytes."""

    port: int  # the client's
    key: int  # the same as long as the connection lasts
    has_hung_up: bool
    is_served: bool  # or it waits until a worker accepts it
    receive_queue: int  # what the client has sent, and the server has not read
    send_queue: int  # what the server has sent, and the client's end has not taken
    heard: int  # since something last came from the client
    told: int  # since something was last sent to it
    owes_reply: bool = False  # whether a request seems to be under way: the system counts pieces, not requests
    calls: int = 0  # that it can have made. Where several came in a piece, the bytes of requests and replies tell it
    replied: int = 0  # bytes of replies

    @property
    def name(self) -> str:
        return f"client {self.port}"

    @property
    def has_given_up(self) -> bool:
        """Whether the client has left before it had a worker, and has sent nothing that will be carried out. The end of
        what it sends is counted as a byte."""
        return not self.is_served and self.has_hung_up and self.receive_queue <= 1

    @property
    def is_unread(self) -> bool:
        return self.is_served and self.send_queue > 0 and self.told >= MOMENT

    @property
    def silence(self) -> float:
        """For how many seconds the client has said nothing, though a worker waits for it. 0 if that does not count."""
        if not self.is_served or self.has_hung_up or self.is_unread:
            return 0.0
        is_in_call = self.heard < self.told + (CLOSE if self.owes_reply else -CLOSE)
        return 0.0 if is_in_call or self.heard < SILENT_FROM * 1000 else self.heard / 1000


def look_at(port: int) -> list[Connection]:
    """Lists the connections of a port of 127.0.0.1. Raises an `Unwatchable`."""
    asked = _REQUEST.pack(socket.AF_INET, socket.IPPROTO_TCP, 1 << INFO - 1, 1 << OPEN | 1 << HUNG_UP,
                          struct.pack("!HH", port, 0))
    try:
        with socket.socket(socket.AF_NETLINK, socket.SOCK_RAW | socket.SOCK_CLOEXEC, 4) as link:  # NETLINK_SOCK_DIAG
            link.settimeout(MOMENT / 1000)
            link.send(_HEADER.pack(_HEADER.size + len(asked), SOCK_DIAG_BY_FAMILY, REQUEST_DUMP, 1, 0) + asked)
            return [connection_in(it) for it in _answers(link) if it[ADDRESS] == HERE]
    except OSError as fault:
        raise Unwatchable(f"the kernel lists no connections: {fault.strerror or fault}") from None


def _answers(link: socket.socket) -> Iterator[bytes]:
    while True:
        told, place = link.recv(1 << 18), 0
        while place < len(told):
            length, kind, *_ = _HEADER.unpack_from(told, place)
            if kind == ERROR:
                raise OSError(-struct.unpack_from("=i", told, place + _HEADER.size)[0], "sock_diag")
            if kind == DONE:
                return
            yield told[place + _HEADER.size:place + length]
            place += length + 3 & ~3


def connection_in(told: bytes) -> Connection:
    """Reads what the kernel tells of one: an inet_diag_msg, and the attributes behind it."""
    state, peer, cookie, receive_queue, send_queue, inode = _SOCKET.unpack_from(told)
    place = 72
    while True:
        length, kind = _ATTRIBUTE.unpack_from(told, place)
        if kind == INFO:
            break
        place += length + 3 & ~3
    told_ago, heard_ago, received, pieces, pieces_back, replied = _INFO.unpack_from(told, place + _ATTRIBUTE.size)
    calls = pieces if received <= LONGEST * pieces else received // SHORTEST
    return Connection(
        port=socket.ntohs(peer), key=cookie, has_hung_up=state == HUNG_UP, is_served=inode != 0,
        receive_queue=receive_queue, send_queue=send_queue, heard=heard_ago, told=told_ago,
        owes_reply=pieces > pieces_back, calls=min(calls, replied // SHORTEST), replied=replied)
