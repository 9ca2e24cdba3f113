"""Visits that no clause tells from others: the first and the five thousandth, with one worker and with sixteen.

Whoever is let in is served: that is proved. That clients are let in at all, however many came before, that their
connections are closed and that the memory of a visit is given back, only tests show.
"""
import contextlib
import re
from pathlib import Path

import pytest

from checking.server.started import status_and_counts
from serving.server import Server
from serving.session import Session

VISITS = 5_200
SETTLED = 100  # visits after which each worker has all the memory that it will have
MOST_MORE = 256  # KiB that a server may take after that


def data_of(pid: int) -> int:
    """The KiB of a process's data, whether or not it was touched, so that those of the history are the same all along."""
    return int(re.search(r"^VmData:\s+(\d+) kB$", Path(f"/proc/{pid}/status").read_text(), re.M)[1])


def test_many_visits(tmp_path: Path) -> None:
    """Each visitor gets its own replies and an end behind them, and all together no memory."""
    wrong = []
    words = ["--sessions", VISITS, "--workers", 16, "--calls", 2 * VISITS, "--history", tmp_path / "visits"]
    with Server(words) as server:
        for number in range(VISITS):
            with Session(server.port) as visitor:
                visitor.send(f"OFFER 0 visit-{number}", "POLL", f"DONE {number}", "QUIT")
                told = re.sub(rb"(?m)^(OFFERED|ITEM) (\d+) \d+", rb"\1 \2", visitor.rest()).decode()
            wanted = f"OFFERED {number}\nITEM {number} 1 visit-{number}\nDONE {number}\nBYE\n"
            wrong += [f"visit {number}: {told!r}"] if told != wanted else []
            if number == SETTLED:
                taken = data_of(server.process.pid)
            if number == VISITS - 2:
                more = data_of(server.process.pid) - taken
        assert not wrong
        assert more <= MOST_MORE, f"{more} KiB more"
        assert status_and_counts(server) == (0, f"sessions {VISITS} faults 0 lost 0", "")


@pytest.mark.parametrize("workers", range(1, 17))
def test_each_number_of_workers(workers: int) -> None:
    """As many clients are served at the same time as there are workers."""
    with Server(["--workers", workers, "--sessions", workers]) as server, contextlib.ExitStack() as stack:
        clients = [stack.enter_context(Session(server.port)) for _ in range(workers)]
        told = {client.ask("SIZE") for client in clients} | {client.ask("QUIT") for client in clients}
        assert told == {"SIZE 0", "BYE"}
        assert status_and_counts(server) == (0, f"sessions {workers} faults 0 lost 0", "")
