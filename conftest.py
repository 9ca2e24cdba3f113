"""What all tests share: ports of their own for servers, and servers that end with their test."""
import os
import re
import subprocess
from pathlib import Path
from typing import Callable, Iterator

import pytest

if "PYTEST_XDIST_WORKER" in os.environ:  # one of several processes, each of which has its part of the ports
    first, end = map(int, os.environ.get("RB_BROKER_PORTS", "20000-32000").split("-"))
    count = (end - first) // int(os.environ["PYTEST_XDIST_WORKER_COUNT"])
    first += count * int(os.environ["PYTEST_XDIST_WORKER"].removeprefix("gw"))
    os.environ["RB_BROKER_PORTS"] = f"{first}-{first + count}"

from common.program import tested_program  # noqa: E402
from serving.server import Server  # noqa: E402


def pytest_addoption(parser: pytest.Parser) -> None:
    parser.addoption("--may-skip", metavar="PATTERN", help="a test that is skipped fails the run, unless this pattern "
                     "fits the reason (default: any test may be skipped)")


def pytest_sessionfinish(session: pytest.Session) -> None:
    allowed = session.config.getoption("--may-skip")
    reporter = session.config.pluginmanager.getplugin("terminalreporter")
    if allowed is not None and reporter:
        reasons = [report.longrepr[2].removeprefix("Skipped: ") for report in reporter.stats.get("skipped", [])]
        if not all(re.fullmatch(allowed, reason) for reason in reasons):
            session.exitstatus = pytest.ExitCode.TESTS_FAILED


@pytest.fixture
def program() -> str:
    """The program that is tested."""
    return tested_program()


@pytest.fixture
def files(tmp_path: Path) -> Callable[[dict[str, str]], Path]:
    """Writes texts into files of a folder, by their paths, and gives the folder."""

    def written(texts: dict[str, str]) -> Path:
        for path, text in texts.items():
            (tmp_path / path).parent.mkdir(parents=True, exist_ok=True)
            (tmp_path / path).write_text(text, "utf-8")
        return tmp_path

    return written


@pytest.fixture
def serve() -> Iterator[Callable[..., Server]]:
    """Starts servers with these options, each at a port of its own unless one is given. One that is attended can be
    drained. They are gone at the end."""
    servers = []

    def started(*options: object, port: int | None = None) -> Server:
        stdin = subprocess.PIPE if "--until-input-ends" in options else None
        servers.append(Server(options, port=port, stdin=stdin))
        return servers[-1]

    yield started
    for server in servers:
        server.kill()
