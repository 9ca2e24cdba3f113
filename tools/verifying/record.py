"""What clients recorded: a JSON object a line, one for each request.

    {"session": "3", "sent": 81000, "received": 93000, "request": "OFFER 0 a", "reply": ["OFFERED 0 5000"]}

`sent` and `received` are nanoseconds of the machine's monotonic clock: read before the request was sent, and after its
last reply line had come. A request without a whole reply has `null`. The requests of a session stand in the order
in which they were sent; those of several sessions may stand among each other.
"""
import json
from typing import Any, BinaryIO, Iterator, NamedTuple

from rb_broker_formats.faults import Damaged

LONGEST_LINE = 1 << 20
GREATEST_TIME = (1 << 63) - 1
TEXT = {str}


class Exchange(NamedTuple):
    """A request and its reply."""

    line: int  # in the file, from 1
    session: str
    sent: int
    received: int | None
    request: str
    reply: list[str]


def read_record(file: BinaryIO) -> Iterator[Exchange]:
    """The exchanges in a file, in its order."""
    latest: dict[str, Exchange] = {}
    for number, line in enumerate(iter(lambda: file.readline(LONGEST_LINE), b""), 1):
        exchange = _exchange(line, number)
        before = latest.get(exchange.session)
        if before is not None and not (before.sent <= exchange.sent and (exchange.received is None or (
                before.received is not None and before.received <= exchange.received))):
            raise Damaged(number, f"it was sent or answered before line {before.line}, of the same session")
        latest[exchange.session] = exchange
        yield exchange


def _exchange(line: bytes, number: int) -> Exchange:
    try:
        told = json.loads(line.decode())
        session, sent, received = told["session"], told["sent"], told["received"]
        request, reply = told["request"], told["reply"]
        is_right = (line.endswith(b"\n") and isinstance(session, (str, int)) and _is_time(sent)
                    and (received is None or _is_time(received) and sent <= received and len(reply) > 0)
                    and type(request) is str and type(reply) is list and not set(map(type, reply)) - TEXT)
    except (ValueError, TypeError, KeyError, RecursionError):
        is_right = False
    if not is_right:
        raise Damaged(number, "no request with its reply, as docs/HISTORY.md describes it")
    return Exchange(number, str(session), sent, received, request, reply)


def _is_time(value: Any) -> bool:
    return type(value) is int and 0 <= value <= GREATEST_TIME
