"""Runs that continue the history in a file and are refused memory, or a thread, once: the first call for it in one run,
the second in the next, and so on. The file is then as it was, and nobody got a reply; or it has a legal history of a run
that began where the one before ended, and each element that was offered is in it.

refuse.c, which cc builds, is preloaded before the program.
"""
import contextlib
import os
import re
import socket
import subprocess
from dataclasses import dataclass
from pathlib import Path
from typing import Callable

import pytest

from checking.program.conftest import PATIENCE, Run
from serving import HOST
from serving.server import free_port

BEFORE = "history 3\nopen 0 0 0\n0 0 0 offer 0 5 0 5 1 a\n0 0 0 offer 1 6 1 6 1 b\n0 7 7 poll 0\nend 3\n"
BEGINS = "history 3\nopen 2 7 1\nkeep 1 6 1 6 1 b\n"  # what continues it
# What a client asks for. The last element is held at the end.
REQUESTS = b"OFFER 0 c\nOFFER 100 d\nTAKE\nDONE 1\nDRAIN 9\nREMOVE 9\nSIZE\nOFFER 0 e\nPOLL\n"
SERVE = "serve --port {port} --workers 3 --sessions 2 --calls 50 --from f --history f"

Process = subprocess.Popen[bytes]


@dataclass(frozen=True)
class Refused:
    """What came of a run: whether a call was refused, its exit status, and all replies that anybody got."""

    was_refused: bool
    status: int
    replies: str

    def check(self, text: str, run: Run) -> None:
        """Checks the text of the history behind it."""
        if text == BEFORE:
            assert not self.replies
            return
        assert text.startswith(BEGINS)
        assert run("rb_broker replay f")[0] == 0, text
        lost = [id for id in re.findall(r"^OFFERED (\d+)", self.replies, re.M) if f" offer {id} " not in text]
        assert not lost, text


@pytest.fixture(scope="module")
def library(tmp_path_factory: pytest.TempPathFactory) -> Path:
    path = tmp_path_factory.mktemp("refuse") / "refuse.so"
    source = Path(__file__).with_name("refuse.c")
    subprocess.run(["cc", "-shared", "-fPIC", "-O1", "-o", path, source], check=True)
    return path


def replies_of_script(process: Process, _port: int) -> bytes:
    return process.communicate(REQUESTS, PATIENCE)[0]


def replies_of_server(process: Process, port: int) -> bytes:
    """The replies to two clients of a server, one after the other."""
    heard = b""
    if process.stdout.readline():
        for _ in range(2):
            with contextlib.suppress(OSError), socket.create_connection((HOST, port), PATIENCE) as client:
                client.sendall(REQUESTS + b"QUIT\n")
                with client.makefile("rb") as answers:
                    heard += answers.read()
    process.communicate(timeout=PATIENCE)
    return heard


def replies_of_replay(process: Process, _port: int) -> bytes:
    process.communicate(timeout=PATIENCE)
    return b""


@pytest.mark.parametrize(("words", "visit", "least"), [
    ("script --calls 50 --from f --history f", replies_of_script, 10),
    (SERVE, replies_of_server, 20),
    (f"{SERVE} --until-input-ends --attentive", replies_of_server, 22),
    ("replay f", replies_of_replay, 5),
])
def test_refused_calls(
    words: str, visit: Callable[[Process, int], bytes], least: int, library: Path, program: str, tmp_path: Path, run: Run
) -> None:
    """Each call for memory or a thread is refused in turn, at least so many."""
    file, port = tmp_path / "f", free_port()

    def refused(number: int) -> Refused:
        """A run in which the call of this number is refused."""
        file.write_text(BEFORE, "ascii")
        told, tell = os.pipe()
        refusing = {"LD_PRELOAD": str(library), "RB_REFUSED": str(number), "RB_TOLD": str(tell)}
        pipe, environment = subprocess.PIPE, {**os.environ, **refusing}
        command = [program, *words.format(port=port).split()]
        process = subprocess.Popen(command, stdin=pipe, stdout=pipe, stderr=pipe, cwd=tmp_path, env=environment,
                                   pass_fds=[tell])
        os.close(tell)
        with os.fdopen(told, "rb") as reading, process:
            replies = visit(process, port)
            return Refused(bool(reading.read()), process.returncode, replies.decode("ascii"))

    number, was_refused = 0, True
    while was_refused:
        ran = refused(number)
        text, was_refused = file.read_text("ascii"), ran.was_refused
        assert text == BEFORE or visit is not replies_of_replay
        ran.check(text, run)
        number += was_refused
    assert ran.status == 0 and (text == BEFORE) is (visit is replies_of_replay)
    assert number >= least
