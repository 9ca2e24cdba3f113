"""The first example of redis/README.md, and the move of docs/SCALING.md: the commands as they stand, with free ports in
the place of theirs."""
import contextlib
import os
import re
import signal
import socket
import subprocess
from pathlib import Path
from typing import Callable, Iterator

import pytest

from checking.pages.reading import blocks, section
from common.program import TOP
from nodes import PATIENCE, free_port, wait_until
from serving import HOST
from serving.session import Session

EXAMPLE = section("redis/README.md", "A durable queue in five minutes")
_, REDIS, SERVE, WORK, KILL = blocks(EXAMPLE)
SETTING = SERVE.splitlines()[0]

Begins = Callable[..., subprocess.Popen[str]]


@pytest.fixture
def ports() -> dict[str, int]:
    """Those in the place of the page's: of the Redis, of the gateway, and of its page."""
    return {page: free_port() for page in ("6390", "7011", "7080")}


@pytest.fixture
def begins(tmp_path: Path, ports: dict[str, int]) -> Iterator[Begins]:
    """Begins lines of the shell in a folder with what a checkout has. What is left at the end is killed."""
    for name in ("redis", "clients"):
        (tmp_path / name).symlink_to(f"{TOP}/{name}")
    processes = []

    def begun(*lines: str) -> subprocess.Popen[str]:
        text = re.sub("|".join(ports), lambda port: str(ports[port[0]]), "\n".join(lines))
        processes.append(subprocess.Popen(
            ["bash", "-c", text], cwd=tmp_path, env={**os.environ, "HOME": str(tmp_path)}, stdout=subprocess.PIPE,
            stderr=subprocess.DEVNULL, text=True, start_new_session=True))
        return processes[-1]

    yield begun
    begun("redis-cli -p 6390 shutdown nosave").wait(PATIENCE)
    for process in processes:
        with contextlib.suppress(ProcessLookupError):
            os.killpg(process.pid, signal.SIGKILL)
        process.wait()
        process.stdout.close()


def wait_for_gateway(port: int) -> None:
    wait_until(lambda: socket.create_connection((HOST, port)).close() or True, "no gateway listens")


def test_a_durable_queue(begins: Begins, ports: dict[str, int]) -> None:
    """The job outlives the Redis."""
    assert begins(REDIS).wait(PATIENCE) == 0
    begins(SERVE)
    wait_for_gateway(ports["7011"])
    worker = begins(SETTING, WORK)
    assert begins(KILL).wait(PATIENCE) == 0
    assert worker.stdout.readline().strip() == re.search("the worker prints `(.*?)`", EXAMPLE)[1]


def test_the_move(begins: Begins, ports: dict[str, int], program: str) -> None:
    [load] = blocks(section("docs/SCALING.md", "Moving to Redis"))
    assert begins(REDIS).wait(PATIENCE) == 0
    assert begins(f"printf 'OFFER 5 a\\n' | {program} script --history run.txt", SETTING, load).wait(PATIENCE) == 0
    begins(SERVE)
    wait_for_gateway(ports["7011"])
    with Session(ports["7011"]) as session:
        assert session.ask("SIZE") == "SIZE 1"
