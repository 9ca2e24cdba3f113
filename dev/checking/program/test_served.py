"""Servers with a few clients, one after the other or side by side, and how the servers end."""
import re
from pathlib import Path
from typing import Callable

import pytest

from checking.program import audit, lines, visit
from checking.program.conftest import Run
from checking.program.test_scripts import EQUALS, OFFERED, ORDERS
from serving.server import Server
from serving.session import Session

Serve = Callable[..., Server]


def without_moments(told: str) -> str:
    """Replies whose expiries are `*`."""
    return re.sub(r"(?m)^(OFFERED \d+|ITEM \d+) \d+", r"\1 *", told)


def test_two_clients_at_once_and_the_next_run(run: Run, serve: Serve, tmp_path: Path) -> None:
    history = tmp_path / "history"
    first = serve("--sessions", 2, "--workers", 2, "--turns", 1000, "--history", history)
    (tmp_path / "earlier").write_text("of an earlier run\n", "ascii")
    for words in ("", "--history earlier"):
        in_use = run(f"rb_broker serve --port {first.port} {words}")
        assert in_use == (3, "", "rb_broker: cannot listen\n")
    assert (tmp_path / "earlier").read_text("ascii") == "of an earlier run\n"
    told = without_moments(visit(first, "AT 5; OFFER 0 job; QUIT"))
    assert told == lines("ERR 1 syntax; OFFERED 0 *; BYE")
    assert without_moments(visit(first, "TAKE; DONE 0; QUIT")) == lines("ITEM 0 * 1 job; DONE 0; BYE")
    told = audit(calls=2, offered=1, given=1)
    assert first.end() == (0, ["sessions 2 faults 0 lost 0", told], "")
    assert run("rb_broker replay --chains history") == (0, lines(told), "")
    # One client hangs up with a job, and another gets it again.
    words = "--sessions", 2, "--workers", 1, "--turns", 1000, "--delay", 0
    second = serve(*words, "--from", history, "--history", history)
    leave(second, "OFFER 0 job; TAKE", 2)
    assert without_moments(visit(second, "TAKE; DONE 2; QUIT")) == lines("ITEM 2 * 2 job; DONE 2; BYE")
    told = audit(calls=4, offered=2, given=2)
    assert second.end() == (0, ["sessions 2 faults 0 lost 0", told], "")
    assert run("rb_broker replay history") == (0, lines(told), "")


def leave(server: Server, requests: str, replies: int, by: Callable[[Session], None] = Session.hang_up) -> None:
    """A client that sends this in one piece, waits for so many replies, and leaves."""
    client = Session(server.port)
    client.socket.sendall(lines(requests).encode())
    for _ in range(replies):
        client.line()
    by(client)


@pytest.mark.parametrize("timer", ORDERS)
def test_a_timer_of_a_server(serve: Serve, timer: str) -> None:
    orders(serve("--timer", timer), timer)


@pytest.mark.parametrize("timer", ORDERS)
def test_a_timer_of_a_great_server(serve: Serve, timer: str) -> None:
    orders(serve("--timer", timer, "--calls", 1_000_000), timer)


def orders(server: Server, timer: str) -> None:
    """A client of a server whose elements come in the order of this timer."""
    assert visit(server, EQUALS) == lines(f"{OFFERED}; {ORDERS[timer]}; BYE")
    told = audit(calls=14, offered=9, given=4, left=4, removed=1)
    assert server.end() == (0, ["sessions 1 faults 0 lost 0", told], "")


def test_a_server_that_loses_a_job(serve: Serve) -> None:
    """There is room for the offer and the take alone, so the job that the client leaves can't be offered again."""
    server = serve("--calls", 2)
    leave(server, "OFFER 0 job; TAKE", 2)
    assert server.end() == (0, ["sessions 1 faults 0 lost 1", audit(calls=2, offered=1, given=1)], "")


def test_a_history_on_a_full_device(serve: Serve) -> None:
    """That it can't be written is said when all is served, and the last lines are there all the same."""
    server = serve("--history", "/dev/full")
    leave(server, "OFFER 0 job; TAKE; DONE 0", 3)
    told = ["sessions 1 faults 0 lost 0", audit(calls=2, offered=1, given=1)]
    assert server.end() == (3, told, "rb_broker: cannot write history\n")


def test_a_client_that_reads_nothing_ends_no_server(serve: Serve) -> None:
    """Whether it is a fault depends on the time."""
    server = serve("--sessions", 2, "--workers", 1, "--timer", "wheel")
    leave(server, "; ".join(3000 * ["SIZE"]), 0)
    assert visit(server, "OFFER 01 a; QUIT") == lines("ERR 2 number; BYE")
    status, told, errors = server.end()
    assert (status, len(told), errors) == (0, 2, "") and re.fullmatch("sessions 2 faults [01] lost 0", told[0])


def test_a_client_after_a_fault_at_the_same_worker(serve: Serve) -> None:
    server = serve("--workers", 1, "--delay", 0, "--sessions", 2)
    leave(server, "; ".join(["OFFERAT 0 job", "TAKE", *1000 * ["SIZE"]]), 2, Session.reset)
    told = without_moments(visit(server, "TAKE; DONE 1; SIZE; REMOVE 7; QUIT"))
    assert told == lines("ITEM 1 * 2 job; DONE 1; SIZE 0; REMOVED no; BYE")
    status, told, errors = server.end()
    assert (status, told[0], len(told), errors) == (0, "sessions 2 faults 1 lost 0", 2, "")


def test_a_server_listens_at_one_address(run: Run, serve: Serve) -> None:
    server = serve("--sessions", 1)
    status, told, errors = run(f'LC_ALL=C bash -c "true > /dev/tcp/127.0.0.2/{server.port}" 2>&1')
    assert (status, errors) == (1, "") and "Connection refused" in told
    assert visit(server, "QUIT") == "BYE\n"
    assert server.end() == (0, ["sessions 1 faults 0 lost 0", audit()], "")


def test_a_job_that_fails_with_a_rate(serve: Serve) -> None:
    """Each attempt expires one rate after the one before it did, whenever that failed."""
    server = serve("--rate", 20_000_000, "--attempts", 3)
    assert visit(server, "OFFERAT 5 job; TAKE; FAIL 0; TAKE; FAIL 1; TAKE; FAIL 2; SIZE; QUIT") == lines(
        "OFFERED 0 5; ITEM 0 5 1 job; AGAIN 1 20000005; ITEM 1 20000005 2 job; AGAIN 2 40000005; "
        "ITEM 2 40000005 3 job; DEAD 2; SIZE 0; BYE")
    assert server.end() == (0, ["sessions 1 faults 0 lost 0", audit(calls=7, offered=3, given=3)], "")


def test_a_job_of_one_attempt(serve: Serve) -> None:
    server = serve("--attempts", 1)
    told = visit(server, "OFFERAT 5 job; TAKE; FAIL 0; SIZE; QUIT")
    assert told == lines("OFFERED 0 5; ITEM 0 5 1 job; DEAD 0; SIZE 0; BYE")
    assert server.end() == (0, ["sessions 1 faults 0 lost 0", audit(calls=3, offered=1, given=1)], "")
