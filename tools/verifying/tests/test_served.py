"""Runs of the program: clients of tools/load, over each timer, one that is killed, and records of another run.
`dev/check server` judges clients that do anything, and `dev/check client` those of the Python package."""
import re
import subprocess
import time
from pathlib import Path
from typing import Callable

import pytest

from checking.testing import tool
from serving.recorded import RecordedSession
from serving.server import Server
from verifying.tests.support import Run, verify

Serve = Callable[..., Server]


@pytest.mark.parametrize("timer", ["list", "heap", "pairing", "wheel"])
def test_clients_of_the_load(serve: Serve, tmp_path: Path, timer: str) -> None:
    """Another run has not what they recorded."""
    server = serve("--timer", timer, "--history", tmp_path / "run", "--workers", 8, "--sessions", 8,
                   "--calls", 100_000, "--delay", 1_000_000)
    records = [str(tmp_path / f"{number}.jsonl") for number in range(2)]
    words = ["--port", str(server.port), "--clients", "4", "--rate", "400", "--fail", "0.3", "--seconds", "1"]
    commands = [[*tool("load"), *words, "--record", record] for record in records]
    loads = [subprocess.Popen(command, stdout=subprocess.DEVNULL) for command in commands]
    assert [load.wait() for load in loads] == [0, 0]
    assert server.end().status == 0
    ran = verify(tmp_path / "run", *records, "--all")
    assert (ran.returncode, ran.stderr) == (0, ""), ran.stdout
    assert re.fullmatch(r"[\d,]+ events at 8 seats; [\d,]+ requests of 8 sessions", ran.stdout.splitlines()[0])
    ((other,),) = Run.named("three sessions").texts
    (tmp_path / "other").write_text(other, "ascii")
    assert verify(tmp_path / "other", *records, "--all").returncode == 1


def test_a_client_that_is_killed_while_its_poll_waits(serve: Serve, tmp_path: Path) -> None:
    """It holds a job. Its poll is then given another one, and both come back."""
    record: list[str] = []
    server = serve("--history", tmp_path / "run", "--workers", 2, "--sessions", 2, "--turns", 500)
    killed, other = (RecordedSession(server.port, name, record.append) for name in ("killed", "other"))
    other.exchange("OFFER 0 x")
    killed.exchange("TAKE")
    killed.send("POLLFOR 9000000000")
    killed.hang_up()
    other.exchange("OFFER 0 y")
    for _ in range(1_000):
        if other.exchange("SIZE") == [["SIZE 2"]]:
            break
        time.sleep(0.01)
    other.exchange("POLL", "POLL", "QUIT")
    assert server.end().status == 0
    (tmp_path / "record").write_text("".join(f"{line}\n" for line in record))
    ran = verify(tmp_path / "run", tmp_path / "record")
    assert (ran.returncode, ran.stdout.splitlines()[-1]) == (0, "0 faults"), ran.stdout
    assert "4 jobs came back at the end of a session; 0 did not" in ran.stdout
    assert "1 event in no record" in ran.stdout
    assert verify(tmp_path / "run", tmp_path / "record", "--all").stdout.splitlines()[-1] == "1 fault"
