"""The built program: as a command, with options, scripts, refused words, and files and devices that fail; and as a
server of a few clients. Each of its calls for memory or a thread is refused once.

The gate runs it only once, as the stored run of crates/rb_broker. This tests what no contract says about main.rt, and
what a server passes on to its workers. What the tests say of time holds on a machine that is busy with other work too:
a wait that has to be short is made again until one is.
"""
import json

from serving.server import Server
from serving.session import Session

# What an audit line counts.
COUNTED = ("calls", "cleared", "given", "left", "offered", "opening", "removed")


def lines(told: str) -> str:
    """The lines of a text in which they stand between semicolons."""
    return "".join(f"{line}\n" for line in told.split("; ")) if told else ""


def audit(**counts: int) -> str:
    """The audit line of these counts. All others are 0."""
    return json.dumps({**dict.fromkeys(COUNTED, 0), **counts}, separators=(",", ":"))


def visit(server: Server, requests: str) -> str:
    """The replies to a client that sends these lines in one piece, and reads to the end."""
    with Session(server.port) as client:
        client.socket.sendall(lines(requests).encode())
        return client.rest().decode()
