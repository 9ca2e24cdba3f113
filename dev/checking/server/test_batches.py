"""Requests that are sent in one piece, of which some wait."""
import re

import pytest

from checking.server.started import status_and_counts
from serving.server import Server
from serving.session import Session

MINUTE = 60 * 10**9


@pytest.mark.parametrize("wait", ["TAKE", f"POLLFOR {MINUTE}"])
def test_no_reply_waits_for_a_wait(wait: str) -> None:
    """The replies to what was sent before a wait come while it waits, and the others with its own."""
    with Server(["--workers", 2, "--sessions", 2]) as server, Session(server.port) as taker:
        taker.send("OFFER 0 a", wait, "DONE 0", wait, "DONE 1", "QUIT")
        told = [re.sub(r"^(\w+ \d+) \d+", r"\1", taker.line()) for _ in range(3)]
        assert told == ["OFFERED 0", "ITEM 0 1 a", "DONE 0"]
        with Session(server.port) as producer:
            assert producer.ask("OFFER 0 b").startswith("OFFERED 1 ")
            assert producer.ask("QUIT") == "BYE"
        assert re.sub(rb"^(ITEM 1) \d+", rb"\1", taker.rest()) == b"ITEM 1 1 b\nDONE 1\nBYE\n"
        assert status_and_counts(server) == (0, "sessions 2 faults 0 lost 0", "")


def test_a_batch_of_many_pieces() -> None:
    """Takes that find their elements, in more requests than one read gets, are answered in their order."""
    rounds = 5_000
    requests = [line for number in range(rounds) for line in ("OFFER 0 a", "TAKE", f"DONE {number}")]
    with Server(["--workers", 1, "--sessions", 1]) as server, Session(server.port) as client:
        client.send(*requests, "QUIT")
        told = re.sub(rb"(?m)^(OFFERED|ITEM) (\d+) \d+", rb"\1 \2", client.rest()).decode()
        wanted = [line for number in range(rounds) for line in (f"OFFERED {number}", f"ITEM {number} 1 a", f"DONE {number}")]
        assert told.splitlines() == [*wanted, "BYE"]
        assert status_and_counts(server) == (0, "sessions 1 faults 0 lost 0", "")
